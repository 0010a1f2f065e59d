//! Runs the calls of a schedule whole, on the unchanged Rust queues with the
//! standard library's atomics, in one thread and without turns. Where each
//! call of the schedule runs alone and nothing is refused, this prints what
//! the schedule program prints.
//!
//! The queues start at 0 here whatever the schedule's positions: answers do
//! not depend on them.

#[path = "../batch.rs"]
mod batch;
#[path = "../batched.rs"]
mod batched;
#[allow(dead_code)] // Positions and the parties of steps are not needed here.
mod lines;

use lines::{Call, Kind, Line, Mark, Rule};
use st3::{fifo, lifo, StealError};
use std::io::{self, BufRead, Write};

fn main() -> io::Result<()> {
    batched::main_loop(run)
}

/// A call with the numbers that its steps carry.
struct Whole {
    party: usize,
    call: Call,
    numbers: Vec<u64>,
}

fn run(input: &mut dyn BufRead, out: &mut dyn Write, _trace: bool) -> io::Result<()> {
    let mut bytes = Vec::new();
    input.read_to_end(&mut bytes)?;
    let mut kind = Kind::Lifo;
    let mut requests = Vec::new();
    let mut calls: Vec<Whole> = Vec::new();
    for line in bytes.split(|&byte| byte == b'\n') {
        match lines::read(line) {
            Some(Line::Machine(named, _)) => kind = named,
            Some(Line::Queue(request, _)) => requests.push(request as usize),
            Some(Line::Begin(party, call)) => calls.push(Whole { party: party as usize, call, numbers: Vec::new() }),
            Some(Line::Step(_, Mark::Given(number))) => {
                if let Some(last) = calls.last_mut() {
                    last.numbers.push(number);
                }
            }
            _ => {}
        }
    }
    match kind {
        Kind::Lifo => run_lifo(&requests, &calls, out),
        Kind::Fifo => run_fifo(&requests, &calls, out),
    }
}

/// The two kinds have the same calls, but no trait in common.
macro_rules! run {
    ($name:ident, $kind:ident) => {
        fn $name(requests: &[usize], calls: &[Whole], out: &mut dyn Write) -> io::Result<()> {
            let workers: Vec<_> = requests.iter().map(|&request| $kind::Worker::<u64>::new(request)).collect();
            let mut drains: Vec<Option<$kind::Drain<'_, u64>>> = workers.iter().map(|_| None).collect();
            for whole in calls {
                let worker = &workers[whole.party];
                let drain = &mut drains[whole.party];
                let answer = match whole.call {
                    Call::Push(token) => match worker.push(token) {
                        Ok(()) => "pushed".to_string(),
                        Err(token) => format!("full\t{}", token),
                    },
                    Call::Extend => {
                        let before = worker.spare_capacity();
                        worker.extend(whole.numbers.iter().copied());
                        format!("extended\t{}", before - worker.spare_capacity())
                    }
                    Call::Pop => match worker.pop() {
                        Some(token) => format!("popped\t{}", token),
                        None => "none".to_string(),
                    },
                    Call::Steal(source, rule) => {
                        match workers[source as usize].stealer().steal(worker, counter(rule, whole)) {
                            Ok(count) => format!("stolen\t{}", count),
                            Err(error) => unsuccessful(error),
                        }
                    }
                    Call::Take(source, rule) => {
                        match workers[source as usize].stealer_ref().steal_and_pop(worker, counter(rule, whole)) {
                            Ok((last, count)) => format!("taken\t{}\t{}", last, count),
                            Err(error) => unsuccessful(error),
                        }
                    }
                    Call::Drain(rule) => match worker.drain(counter(rule, whole)) {
                        Ok(opened) => {
                            let text = format!("drain\t{}", opened.len());
                            *drain = Some(opened);
                            text
                        }
                        Err(error) => unsuccessful(error),
                    },
                    Call::Next => match drain.as_mut().and_then(|open| open.next()) {
                        Some(token) => format!("item\t{}", token),
                        None => "done".to_string(),
                    },
                    Call::Drop => {
                        *drain = None;
                        "closed".to_string()
                    }
                    Call::Spare => format!("spare\t{}", worker.spare_capacity()),
                    Call::Empty if worker.is_empty() => "yes".to_string(),
                    Call::Empty => "no".to_string(),
                };
                writeln!(out, "answer\t{}\t{}", whole.party, answer)?;
            }
            // Closing a drain gives its tokens away; what then can be drained
            // is what rests.
            drains.clear();
            for (party, worker) in workers.iter().enumerate() {
                write!(out, "rest\t{}", party)?;
                for token in worker.drain(|n| n).into_iter().flatten() {
                    write!(out, "\t{}", token)?;
                }
                writeln!(out)?;
            }
            Ok(())
        }
    };
}

run!(run_lifo, lifo);
run!(run_fifo, fifo);

fn counter(rule: Rule, whole: &Whole) -> impl FnMut(usize) -> usize {
    let given = whole.numbers.first().copied().unwrap_or(0);
    move |n| match rule {
        Rule::All => n,
        Rule::Half => n / 2,
        Rule::Fixed(count) => count as usize,
        Rule::Given => given as usize,
    }
}

fn unsuccessful(error: StealError) -> String {
    match error {
        StealError::Empty => "empty".to_string(),
        StealError::Busy => "busy".to_string(),
    }
}
