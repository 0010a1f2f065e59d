//! Drives the unchanged Rust queues by a schedule: each party is a thread
//! whose atomics and cells wait for a turn (turns.rs), and a step line grants
//! one. Writes what the schedule program writes.

#[path = "../batch.rs"]
mod batch;
#[path = "../batched.rs"]
mod batched;
mod lines;

use lines::{Call, Kind, Line, Mark, Rule};
use st3::{fifo, lifo, StealError};
use std::io::{self, BufRead, Write};
use std::panic::{catch_unwind, AssertUnwindSafe};
use std::thread;
use turns::{Access, Desk, Mailbox, Report, Turn, Word, DESKS, ITEMS, PARTIES};

const MALFORMED: u8 = 9;

/// What a party's thread is told between calls.
enum Job {
    Lifo(lifo::Worker<u64>, Vec<lifo::Stealer<u64>>),
    Fifo(fifo::Worker<u64>, Vec<fifo::Stealer<u64>>),
    Begin(Call),
    Leave,
}

#[allow(clippy::declare_interior_mutable_const)]
const EMPTY: Mailbox<Job> = Mailbox::new();
static JOBS: [Mailbox<Job>; PARTIES] = [EMPTY; PARTIES];

fn main() -> io::Result<()> {
    // A panic of the queues becomes an answer or a refusal; only the driver's
    // own is worth a message.
    std::panic::set_hook(Box::new(|panic| {
        if thread::current().name() == Some("main") {
            eprintln!("oracle: {}", panic);
        }
    }));
    for party in 0..PARTIES {
        thread::Builder::new().stack_size(1 << 18).spawn(move || be_party(party))?;
    }
    batched::main_loop(run)
}

// The parties' side.

fn be_party(party: usize) {
    turns::be_party(party);
    loop {
        match JOBS[party].take() {
            Job::Lifo(worker, stealers) => lifo_party(party, worker, stealers),
            Job::Fifo(worker, stealers) => fifo_party(party, worker, stealers),
            _ => {}
        }
        answer(party, String::new());
    }
}

fn answer(party: usize, text: String) {
    DESKS[party].reports.put(Report::Answer(text));
}

/// One machine's life of a party. The two kinds have the same calls, but no
/// trait in common.
macro_rules! party {
    ($name:ident, $kind:ident, $tokens:expr) => {
        fn $name(party: usize, worker: $kind::Worker<u64>, stealers: Vec<$kind::Stealer<u64>>) {
            let mut drain: Option<$kind::Drain<'_, u64>> = None;
            while let Job::Begin(call) = JOBS[party].take() {
                turns::call_begins();
                let outcome = catch_unwind(AssertUnwindSafe(|| match call {
                    Call::Push(token) => match worker.push(token) {
                        Ok(()) => "pushed".to_string(),
                        Err(token) => format!("full\t{}", token),
                    },
                    Call::Extend => {
                        let mut tokens = Tokens { kind: $tokens, capacity: worker.capacity() as u32, taken: 0 };
                        worker.extend(&mut tokens);
                        format!("extended\t{}", tokens.taken)
                    }
                    Call::Pop => match worker.pop() {
                        Some(token) => format!("popped\t{}", token),
                        None => "none".to_string(),
                    },
                    Call::Steal(source, rule) => match stealers[source as usize].steal(&worker, counter(rule)) {
                        Ok(count) => format!("stolen\t{}", count),
                        Err(error) => unsuccessful(error),
                    },
                    Call::Take(source, rule) => match stealers[source as usize].steal_and_pop(&worker, counter(rule)) {
                        Ok((last, count)) => format!("taken\t{}\t{}", last, count),
                        Err(error) => unsuccessful(error),
                    },
                    Call::Drain(rule) => match worker.drain(counter(rule)) {
                        Ok(opened) => {
                            let text = format!("drain\t{}", opened.len());
                            drain = Some(opened);
                            text
                        }
                        Err(error) => unsuccessful(error),
                    },
                    Call::Next => {
                        let item = drain.as_mut().and_then(|open| open.next());
                        touch_something();
                        match item {
                            Some(token) => format!("item\t{}", token),
                            None => "done".to_string(),
                        }
                    }
                    Call::Drop => {
                        drop(drain.take());
                        touch_something();
                        "closed".to_string()
                    }
                    Call::Spare => format!("spare\t{}", worker.spare_capacity()),
                    Call::Empty => yes_or_no(worker.is_empty()),
                }));
                answer(party, outcome.unwrap_or_else(|_| "panic".to_string()));
            }
            // What is still open is closed without turns.
            turns::run_free();
        }
    };
}

party!(lifo_party, lifo, Kind::Lifo);
party!(fifo_party, fifo, Kind::Fifo);

/// With nothing open the queues' next and drop make no access, where the
/// tables have one step.
fn touch_something() {
    if turns::untouched() {
        turns::take_turn(Access::Nothing);
    }
}

fn yes_or_no(yes: bool) -> String {
    let word = if yes { "yes" } else { "no" };
    word.to_string()
}

fn unsuccessful(error: StealError) -> String {
    match error {
        StealError::Empty => "empty".to_string(),
        StealError::Busy => "busy".to_string(),
    }
}

/// The closure that stands for a count rule.
fn counter(rule: Rule) -> impl FnMut(usize) -> usize {
    move |n| match rule {
        Rule::All => n,
        Rule::Half => n / 2,
        Rule::Fixed(count) => count as usize,
        Rule::Given => turns::given() as usize,
    }
}

/// Extend's iterator: asks the schedule for a token or the end. Where no room
/// is left the queues ask once more and lose what they get, while the tables
/// go on to the store: then it hands out a token without a turn.
struct Tokens {
    kind: Kind,
    capacity: u32,
    taken: u32,
}

impl Tokens {
    /// The room by the loads that this extend made.
    fn room(&self) -> u32 {
        let (count, packed) = (turns::seen(Word::Count) as u32, turns::seen(Word::Packed));
        let used = match self.kind {
            Kind::Lifo => {
                let tail = count.wrapping_sub((packed >> 32) as u32);
                tail.wrapping_sub(turns::seen(Word::Done) as u32)
            }
            Kind::Fifo => count.wrapping_sub(packed as u32),
        };
        self.capacity.wrapping_sub(used)
    }
}

impl Iterator for Tokens {
    type Item = u64;

    fn next(&mut self) -> Option<u64> {
        if self.taken == self.room() {
            turns::token_to_lose();
            return Some(0);
        }
        match turns::take_turn(Access::Token) {
            Turn::Given(token) => {
                turns::token_to_write();
                self.taken += 1;
                Some(token)
            }
            _ => None,
        }
    }
}

// The driver's side.

/// A party as the driver sees it.
#[derive(Clone, Copy)]
struct Seat {
    /// The call under way and the access that it waits to make.
    busy: Option<(Call, Access)>,
    /// Count loads made by this call, to tell a destination's from a source's.
    count_loads: u32,
}

struct Machine {
    kind: Kind,
    seats: Vec<Seat>,
    capacities: Vec<usize>,
}

impl Machine {
    fn open(kind: Kind, queues: &[(u64, u32)]) -> Machine {
        turns::open_machine();
        let capacities: Vec<usize> = match kind {
            Kind::Lifo => {
                let made = make(queues, |p| p as u64, lifo::Worker::new);
                let stealers: Vec<_> = made.iter().map(|worker| worker.stealer()).collect();
                let capacities = made.iter().map(|worker| worker.capacity()).collect();
                seat(made, |worker| Job::Lifo(worker, stealers.clone()));
                capacities
            }
            Kind::Fifo => {
                let made = make(queues, |p| (p as u64) << 32 | p as u64, fifo::Worker::new);
                let stealers: Vec<_> = made.iter().map(|worker| worker.stealer()).collect();
                let capacities = made.iter().map(|worker| worker.capacity()).collect();
                seat(made, |worker| Job::Fifo(worker, stealers.clone()));
                capacities
            }
        };
        let seat = Seat { busy: None, count_loads: 0 };
        Machine { kind, seats: vec![seat; queues.len()], capacities }
    }

    fn party(&self, party: u64) -> Result<usize, u8> {
        if party < self.seats.len() as u64 {
            Ok(party as usize)
        } else {
            Err(2)
        }
    }

    fn begin(&mut self, party: u64, call: Call) -> Result<(), u8> {
        let p = self.party(party)?;
        if self.seats[p].busy.is_some() {
            return Err(3);
        }
        if let Call::Steal(source, _) | Call::Take(source, _) = call {
            self.party(source).map_err(|_| 5)?;
        }
        JOBS[p].put(Job::Begin(call));
        self.seats[p].count_loads = 0;
        match DESKS[p].reports.take() {
            Report::Waiting(access) => self.seats[p].busy = Some((call, access)),
            Report::Answer(text) => panic!("a call answered {} without a step", text),
        }
        Ok(())
    }

    /// Grants a turn; hands back the call's answer if it came.
    fn step(&mut self, party: u64, mark: Mark) -> Result<Option<String>, u8> {
        let p = self.party(party)?;
        let (call, access) = self.seats[p].busy.ok_or(4)?;
        let turn = self.turn(p, call, access, mark).ok_or(6)?;
        if access == Access::Load(Word::Count) {
            self.seats[p].count_loads += 1;
        }
        match grant(&DESKS[p], turn) {
            Report::Waiting(access) => {
                self.seats[p].busy = Some((call, access));
                Ok(None)
            }
            Report::Answer(text) => {
                self.seats[p].busy = None;
                Ok(Some(text))
            }
        }
    }

    /// The turn for a step line, if its mark is one that the access can use.
    fn turn(&self, p: usize, call: Call, access: Access, mark: Mark) -> Option<Turn> {
        let number_wanted = self.reads_n(p, call, access) && rule(call) == Some(Rule::Given);
        match (access, mark) {
            (Access::Token, Mark::Given(token)) => Some(Turn::Given(token)),
            (Access::Token, Mark::End) => Some(Turn::End),
            (Access::Token, _) => None,
            (_, Mark::Given(number)) if number_wanted => Some(Turn::Given(number)),
            (Access::Cas, Mark::Weak) => Some(Turn::Weak),
            (_, Mark::Plain) if !number_wanted => Some(Turn::Plain),
            _ => None,
        }
    }

    /// Whether this load is the booking's count load, that is any of a drain
    /// and all but the first of a steal or take, which is the destination's.
    fn reads_n(&self, p: usize, call: Call, access: Access) -> bool {
        let earlier = match call {
            Call::Drain(_) => 0,
            _ => 1,
        };
        access == Access::Load(Word::Count) && self.seats[p].count_loads >= earlier
    }

    fn put_state(&self, out: &mut dyn Write) -> io::Result<()> {
        let mut base = 0;
        for (q, &capacity) in self.capacities.iter().enumerate() {
            let (count, packed) = (turns::word(q, Word::Count), turns::word(q, Word::Packed));
            let done = turns::word(q, Word::Done);
            write!(out, "state\t{}\t{}\t{}\t{}\t{}", q, capacity, count, packed, done)?;
            for index in base..base + capacity {
                write!(out, "\t{}", turns::item(index))?;
            }
            writeln!(out)?;
            base += capacity;
        }
        Ok(())
    }

    fn put_rest(&self, out: &mut dyn Write) -> io::Result<()> {
        let mut base = 0;
        for (q, &capacity) in self.capacities.iter().enumerate() {
            let (count, packed) = (turns::word(q, Word::Count) as u32, turns::word(q, Word::Packed));
            let (high, low) = ((packed >> 32) as u32, packed as u32);
            let (head, tail) = match self.kind {
                Kind::Lifo => (low, count.wrapping_sub(high)),
                Kind::Fifo => (high, count),
            };
            write!(out, "rest\t{}", q)?;
            for offset in 0..tail.wrapping_sub(head) {
                let slot = head.wrapping_add(offset) as usize & (capacity - 1);
                write!(out, "\t{}", turns::item(base + slot))?;
            }
            writeln!(out)?;
            base += capacity;
        }
        Ok(())
    }

    /// Lets every party finish its call unseen and give up its queue.
    fn close(self) {
        for (p, seat) in self.seats.iter().enumerate() {
            if seat.busy.is_some() {
                grant(&DESKS[p], Turn::Free);
            }
            JOBS[p].put(Job::Leave);
            DESKS[p].reports.take();
        }
    }
}

fn grant(desk: &Desk, turn: Turn) -> Report {
    desk.turns.put(turn);
    desk.reports.take()
}

fn rule(call: Call) -> Option<Rule> {
    match call {
        Call::Steal(_, rule) | Call::Take(_, rule) | Call::Drain(rule) => Some(rule),
        _ => None,
    }
}

/// Makes all queues by the queues' own constructor, each at its position.
fn make<W>(queues: &[(u64, u32)], long: impl Fn(u32) -> u64, new: impl Fn(usize) -> W) -> Vec<W> {
    let mut made = Vec::new();
    for (q, &(request, position)) in queues.iter().enumerate() {
        turns::open_queue(q, position, long(position));
        made.push(new(request as usize));
    }
    made
}

fn seat<W>(workers: Vec<W>, job: impl Fn(W) -> Job) {
    for (p, worker) in workers.into_iter().enumerate() {
        JOBS[p].put(job(worker));
    }
}

/// The capacity that the queues give to a request that they take.
fn rounded(request: u64) -> u64 {
    request.next_power_of_two()
}

/// Whether the queues' constructor turns the request down. A request that it
/// takes is not tried here: it may ask for more memory than there is.
fn turned_down(request: u64) -> bool {
    request > 1 << 31 && thread::spawn(move || drop(lifo::Worker::<u64>::new(request as usize))).join().is_err()
}

/// Judges the opening lines. `Err` is a refusal at a line; `Ok(None)` an
/// input that ends too soon.
fn open(all: &[&[u8]]) -> Result<Option<Machine>, (usize, u8)> {
    let (kind, parties) = match all.first().map(|line| lines::read(line)) {
        None => return Ok(None),
        Some(Some(Line::Machine(kind, parties))) => (kind, parties),
        Some(_) => return Err((1, MALFORMED)),
    };
    if !(1..=PARTIES as u64).contains(&parties) {
        return Err((1, 1));
    }
    let mut queues = Vec::new();
    for number in 2..parties as usize + 2 {
        match all.get(number - 1).map(|line| lines::read(line)) {
            None => return Ok(None),
            Some(Some(Line::Queue(request, _))) if turned_down(request) => return Err((number, 7)),
            Some(Some(Line::Queue(request, position))) => queues.push((request, position)),
            Some(_) => return Err((number, MALFORMED)),
        }
    }
    if queues.iter().map(|&(request, _)| rounded(request)).sum::<u64>() > ITEMS as u64 {
        return Err((parties as usize + 1, 8));
    }
    Ok(Some(Machine::open(kind, &queues)))
}

/// The input's lines; a last one without newline counts.
fn split(input: &[u8]) -> Vec<&[u8]> {
    let mut all: Vec<&[u8]> = input.split(|&byte| byte == b'\n').collect();
    if all.last().map_or(false, |last| last.is_empty()) {
        all.pop();
    }
    all
}

fn run(input: &mut dyn BufRead, out: &mut dyn Write, trace: bool) -> io::Result<()> {
    let mut bytes = Vec::new();
    input.read_to_end(&mut bytes)?;
    let all = split(&bytes);
    let mut machine = match open(&all) {
        Ok(Some(machine)) => machine,
        Ok(None) => return Ok(()),
        Err((number, code)) => return writeln!(out, "refused\t{}\t{}", number, code),
    };
    let opening = 1 + machine.seats.len();
    for (index, line) in all.iter().enumerate().skip(opening) {
        if let Err(code) = take_line(&mut machine, line, out, trace)? {
            writeln!(out, "refused\t{}\t{}", index + 1, code)?;
        }
    }
    machine.put_rest(out)?;
    machine.close();
    Ok(())
}

/// Takes one line after the opening; `Err` within is its refusal.
fn take_line(machine: &mut Machine, line: &[u8], out: &mut dyn Write, trace: bool) -> io::Result<Result<(), u8>> {
    match lines::read(line) {
        Some(Line::Begin(party, call)) => Ok(machine.begin(party, call)),
        Some(Line::Step(party, mark)) => match machine.step(party, mark) {
            Err(code) => Ok(Err(code)),
            Ok(answer) => {
                if let Some(text) = answer {
                    writeln!(out, "answer\t{}\t{}", party, text)?;
                }
                if trace {
                    machine.put_state(out)?;
                }
                Ok(Ok(()))
            }
        },
        _ => Ok(Err(MALFORMED)),
    }
}
