//! All interleavings, up to a number of switches, of every two calls from a
//! set of small starting fillings, both kinds.

use crate::batch;
use crate::machine::{Call, Kind, Mark, Rule, Want};
use crate::script::Script;
use std::io::{self, Write};

/// The calls of the owner of queue 0.
const OWNER: [Call; 13] = [
    Call::Push(50),
    Call::Pop,
    Call::Extend,
    Call::Drain(Rule::All),
    Call::Drain(Rule::Half),
    Call::Next,
    Call::Drop,
    Call::Spare,
    Call::Empty,
    Call::Steal(1, Rule::All),
    Call::Take(1, Rule::All),
    Call::Steal(0, Rule::Fixed(1)),
    Call::Take(0, Rule::All),
];

/// The calls of others upon queue 0.
const THIEF: [Call; 7] = [
    Call::Steal(0, Rule::All),
    Call::Steal(0, Rule::Half),
    Call::Steal(0, Rule::Fixed(1)),
    Call::Steal(0, Rule::Given),
    Call::Take(0, Rule::All),
    Call::Take(0, Rule::Half),
    Call::Take(0, Rule::Given),
];

/// The calls of a second thief.
const RIVAL: [Call; 3] = [Call::Steal(0, Rule::All), Call::Steal(0, Rule::Half), Call::Take(0, Rule::Half)];

/// What stands before the two calls: all queues have the capacity.
#[derive(Clone, Copy)]
struct Filling {
    kind: Kind,
    capacity: u64,
    position: u32,
    /// Resting in queue 0, and in the others.
    resting: u64,
    others: u64,
    /// Party 0 has an open drain of so many, one of them read if two.
    drained: u64,
}

/// Two parties with a call each; whose first CAS is weak, if any.
#[derive(Clone, Copy)]
struct Pair {
    parties: [usize; 2],
    calls: [Call; 2],
    weak: Option<usize>,
}

/// How far the two calls have come.
#[derive(Clone)]
struct Run {
    script: Script,
    tokens: [u64; 2],
    cas: [bool; 2],
}

/// Writes every so many-th of them.
pub fn write_all(out: &mut impl Write, switches: u32, every: u64) -> io::Result<()> {
    let mut number = 0;
    for filling in fillings() {
        let filled = filling.script();
        for pair in pairs() {
            let mut found = Vec::new();
            let run = Run::begin(filled.clone(), &pair);
            explore(run.clone(), &pair, 0, switches, &mut found);
            explore(run, &pair, 1, switches, &mut found);
            for text in found {
                number += 1;
                if number % every == 0 {
                    batch::write_entry(out, &format!("systematic-{}-{}", switches, number), &text)?;
                }
            }
        }
    }
    eprintln!("systematic: up to {} switches, every {} of {} schedules", switches, every, number);
    Ok(())
}

fn fillings() -> Vec<Filling> {
    let mut all = Vec::new();
    for kind in [Kind::Lifo, Kind::Fifo] {
        for (capacity, restings) in [(1, &[0, 1][..]), (2, &[0, 1, 2]), (4, &[0, 1, 2, 4])] {
            for &resting in restings {
                for others in [0, capacity] {
                    for drained in 0..=resting.min(2) {
                        // Every other one is at the turnover.
                        let position = if all.len() % 2 == 0 { 0 } else { u32::MAX };
                        all.push(Filling { kind, capacity, position, resting, others, drained });
                    }
                }
            }
        }
    }
    all
}

fn pairs() -> Vec<Pair> {
    let mut all = Vec::new();
    let mut add = |parties: [usize; 2], calls: [Call; 2]| {
        for weak in [None, Some(0), Some(1)] {
            all.push(Pair { parties, calls, weak });
        }
    };
    for thief in THIEF {
        for owner in OWNER {
            add([0, 1], [owner, thief]);
        }
        for rival in RIVAL {
            add([1, 2], [thief, rival]);
        }
    }
    all
}

impl Filling {
    fn script(&self) -> Script {
        let mut script = Script::open(self.kind, &[(self.capacity, self.position); 3]);
        for party in 0..3 {
            let count = if party == 0 { self.resting } else { self.others };
            let tokens: Vec<u64> = (1..=count).map(|i| 10 * (party as u64 + 1) + i).collect();
            if count > 0 {
                script.call(party, Call::Extend, &tokens);
            }
        }
        if self.drained > 0 {
            script.call(0, Call::Drain(Rule::Fixed(self.drained)), &[]);
        }
        if self.drained > 1 {
            script.call(0, Call::Next, &[]);
        }
        script
    }
}

impl Run {
    fn begin(script: Script, pair: &Pair) -> Run {
        let mut run = Run { script, tokens: [0; 2], cas: [false; 2] };
        for side in 0..2 {
            run.script.begin(pair.parties[side] as u64, pair.calls[side]);
        }
        run
    }

    fn under_way(&self, pair: &Pair, side: usize) -> bool {
        self.script.want(pair.parties[side]).is_some()
    }

    fn step(&mut self, pair: &Pair, side: usize) {
        let party = pair.parties[side];
        let mark = match self.script.want(party) {
            Some(Want::Cas) => self.cas_mark(pair, side),
            Some(Want::Number) => Mark::Given(2),
            Some(Want::TokenOrEnd) => self.token_mark(side),
            _ => Mark::Plain,
        };
        self.script.step(party as u64, mark);
    }

    fn cas_mark(&mut self, pair: &Pair, side: usize) -> Mark {
        let first = !self.cas[side];
        self.cas[side] = true;
        if first && pair.weak == Some(side) {
            Mark::Weak
        } else {
            Mark::Plain
        }
    }

    /// Two tokens, then the end.
    fn token_mark(&mut self, side: usize) -> Mark {
        self.tokens[side] += 1;
        match self.tokens[side] {
            1 => Mark::Given(61),
            2 => Mark::Given(62),
            _ => Mark::End,
        }
    }
}

/// Lets `side` step at least once and finds every way that ends both calls
/// within the switches left.
fn explore(mut run: Run, pair: &Pair, side: usize, left: u32, found: &mut Vec<Vec<u8>>) {
    let other = 1 - side;
    let mut stepped = false;
    loop {
        match (run.under_way(pair, side), run.under_way(pair, other)) {
            (false, false) => return finish(run, pair, found),
            (_, true) if left == 0 => return,
            (false, true) => return explore(run, pair, other, left - 1, found),
            (true, true) if stepped => explore(run.clone(), pair, other, left - 1, found),
            _ => {}
        }
        run.step(pair, side);
        stepped = true;
    }
}

/// Keeps the schedule, unless its weak mark found no CAS: then it is there
/// already without.
fn finish(run: Run, pair: &Pair, found: &mut Vec<Vec<u8>>) {
    if pair.weak.map_or(true, |side| run.cas[side]) {
        found.push(run.script.text);
    }
}
