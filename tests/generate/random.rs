//! Random schedules: calls of many parties interleaved in several styles.

use crate::machine::{Call, Kind, Mark, Rule, Want};
use crate::script::Script;

/// A small generator (splitmix64), the same on every machine.
pub struct Random(u64);

impl Random {
    /// The generator for schedule `index` of a seed.
    pub fn of(seed: u64, index: u64) -> Random {
        let mut random = Random(seed);
        let start = random.next() ^ index.wrapping_mul(0xd605_bbb5_8c8a_bc03);
        Random(start)
    }

    pub fn next(&mut self) -> u64 {
        self.0 = self.0.wrapping_add(0x9e37_79b9_7f4a_7c15);
        let mut z = self.0;
        z = (z ^ (z >> 30)).wrapping_mul(0xbf58_476d_1ce4_e5b9);
        z = (z ^ (z >> 27)).wrapping_mul(0x94d0_49bb_1331_11eb);
        z ^ (z >> 31)
    }

    pub fn below(&mut self, bound: u64) -> u64 {
        self.next() % bound
    }

    pub fn chance(&mut self, percent: u64) -> bool {
        self.below(100) < percent
    }

    pub fn pick<T: Copy>(&mut self, from: &[T]) -> T {
        from[self.below(from.len() as u64) as usize]
    }
}

/// How the next party is chosen.
#[derive(Clone, Copy, PartialEq, Eq)]
enum Style {
    /// Any party at each line.
    Even,
    /// The same party goes on four times in five.
    Bursts,
    /// Each call runs to its answer.
    Lone,
    /// Party 0's queue is what all steal from.
    Crowd,
}

/// What one schedule leans to.
struct Taste {
    style: Style,
    weak: u64,
    /// Percentage of lines that are meant to be refused.
    wrong: u64,
    /// Percentage of party 0's queue among sources.
    focus: u64,
    lines: u64,
}

struct Maker<'a> {
    random: &'a mut Random,
    script: Script,
    taste: Taste,
    party: usize,
    token: u64,
}

pub fn schedule(random: &mut Random) -> Vec<u8> {
    let lines = 10 + random.below(150);
    long_schedule(random, lines)
}

pub fn long_schedule(random: &mut Random, lines: u64) -> Vec<u8> {
    let style = random.pick(&[Style::Even, Style::Even, Style::Bursts, Style::Lone, Style::Crowd, Style::Crowd]);
    let taste = Taste {
        style,
        weak: random.pick(&[0, 10, 10, 40]),
        wrong: random.pick(&[0, 2, 2, 10]),
        focus: if style == Style::Crowd { 90 } else { random.pick(&[0, 40, 70]) },
        lines,
    };
    let mut maker = Maker::open(random, taste);
    if maker.random.chance(70) {
        maker.fill();
    }
    for _ in 0..maker.taste.lines {
        maker.line();
    }
    maker.script.text
}

/// A long one to measure speed by: all parties interleaved, the queues alike,
/// no line meant to be refused.
pub fn even_schedule(random: &mut Random, kind: Kind, parties: u64, lines: u64) -> Vec<u8> {
    let taste = Taste { style: Style::Even, weak: 10, wrong: 0, focus: 40, lines };
    let queues: Vec<(u64, u32)> = (0..parties).map(|_| (64, 0)).collect();
    let mut maker = Maker { random, script: Script::open(kind, &queues), taste, party: 0, token: 0 };
    for _ in 0..lines {
        maker.line();
    }
    maker.script.text
}

/// Whole calls only, none refused and none weak: what the queues can also run
/// without turns.
pub fn lone_schedule(random: &mut Random) -> Vec<u8> {
    let focus = random.pick(&[0, 40, 70]);
    let calls = 5 + random.below(40);
    let taste = Taste { style: Style::Lone, weak: 0, wrong: 0, focus, lines: calls };
    let mut maker = Maker::open(random, taste);
    for _ in 0..calls {
        maker.choose_party();
        let call = maker.call();
        let numbers: Vec<u64> = (0..maker.random.below(7)).map(|_| maker.number_for(call)).collect();
        maker.script.call(maker.party, call, &numbers);
    }
    maker.script.text
}

fn parties(random: &mut Random) -> u64 {
    match random.below(10) {
        0 => 1 + random.below(16),
        1..=2 => 1 + random.below(8),
        _ => 1 + random.below(4),
    }
}

fn request(random: &mut Random) -> u64 {
    match random.below(20) {
        0 => random.below(65),
        1..=3 => random.pick(&[7, 8, 9, 15, 16]),
        _ => random.pick(&[0, 1, 2, 2, 3, 4, 4, 5]),
    }
}

fn position(random: &mut Random) -> u32 {
    match random.below(6) {
        0 => 0,
        1..=3 => 0u32.wrapping_sub(random.below(12) as u32),
        4 => (1u32 << 31).wrapping_sub(6).wrapping_add(random.below(12) as u32),
        _ => random.next() as u32,
    }
}

impl<'a> Maker<'a> {
    fn open(random: &'a mut Random, taste: Taste) -> Maker<'a> {
        let kind = random.pick(&[Kind::Lifo, Kind::Fifo]);
        let parties = parties(random);
        let queues: Vec<(u64, u32)> = (0..parties).map(|_| (request(random), position(random))).collect();
        Maker { random, script: Script::open(kind, &queues), taste, party: 0, token: 0 }
    }

    /// Puts some tokens into each queue.
    fn fill(&mut self) {
        for party in 0..self.script.parties {
            let count = self.random.below(9);
            let tokens: Vec<u64> = (0..count).map(|_| self.token()).collect();
            self.script.call(party, Call::Extend, &tokens);
        }
    }

    fn line(&mut self) {
        self.choose_party();
        if self.random.chance(self.taste.wrong) {
            return self.wrong_line();
        }
        let party = self.party as u64;
        match self.script.want(self.party) {
            None => {
                let call = self.call();
                self.script.begin(party, call);
            }
            Some(want) => {
                let mark = self.mark(want);
                self.script.step(party, mark);
            }
        }
    }

    fn choose_party(&mut self) {
        let under_way = self.script.want(self.party).is_some();
        let stay = match self.taste.style {
            Style::Even | Style::Crowd => false,
            Style::Bursts => self.random.chance(80),
            Style::Lone => under_way,
        };
        if !stay {
            self.party = self.random.below(self.script.parties as u64) as usize;
        }
    }

    fn mark(&mut self, want: Want) -> Mark {
        match want {
            Want::Bare => Mark::Plain,
            Want::Cas if self.random.chance(self.taste.weak) => Mark::Weak,
            Want::Cas => Mark::Plain,
            Want::Number => Mark::Given(self.count()),
            Want::TokenOrEnd if self.random.chance(25) => Mark::End,
            Want::TokenOrEnd => Mark::Given(self.token()),
        }
    }

    /// A line whose mark, party or moment is probably wrong.
    fn wrong_line(&mut self) {
        let party = self.party as u64;
        let stranger = self.random.pick(&[self.script.parties as u64, 16, 1 << 32, u64::MAX]);
        match self.random.below(6) {
            0 => {
                self.script.step(stranger, Mark::Plain);
            }
            1 => {
                let call = self.call();
                self.script.begin(stranger, call);
            }
            2 => {
                let rule = self.rule();
                let call = self.random.pick(&[Call::Steal(stranger, rule), Call::Take(stranger, rule)]);
                self.script.begin(party, call);
            }
            3 => {
                let call = self.call();
                self.script.begin(party, call);
            }
            _ => {
                let number = self.count();
                let mark = self.random.pick(&[Mark::Plain, Mark::Weak, Mark::Given(number), Mark::End]);
                self.script.step(party, mark);
            }
        }
    }

    fn call(&mut self) -> Call {
        let rule = self.rule();
        let source = self.source();
        if self.script.machine.draining(self.party) && self.random.chance(50) {
            return self.random.pick(&[Call::Next, Call::Next, Call::Next, Call::Drop]);
        }
        // Empty queues would soon make all bookings and pops alike.
        if self.script.machine.resting(self.party).next().is_none() && self.random.chance(40) {
            let token = self.token();
            return self.random.pick(&[Call::Push(token), Call::Extend]);
        }
        match self.random.below(100) {
            0..=21 => Call::Push(self.token()),
            22..=37 => Call::Pop,
            38..=47 => Call::Extend,
            48..=65 => Call::Steal(source, rule),
            66..=78 => Call::Take(source, rule),
            79..=88 => Call::Drain(rule),
            89..=91 => Call::Next,
            92..=93 => Call::Drop,
            94..=96 => Call::Spare,
            _ => Call::Empty,
        }
    }

    fn source(&mut self) -> u64 {
        if self.random.chance(self.taste.focus) {
            0
        } else if self.random.chance(15) {
            self.party as u64
        } else {
            self.random.below(self.script.parties as u64)
        }
    }

    fn rule(&mut self) -> Rule {
        match self.random.below(10) {
            0..=2 => Rule::All,
            3..=5 => Rule::Half,
            6..=7 => Rule::Fixed(self.count()),
            _ => Rule::Given,
        }
    }

    /// A number for a rule: mostly small, some that a cut would change.
    fn count(&mut self) -> u64 {
        match self.random.below(12) {
            0 => self.random.pick(&[1 << 32, (1 << 32) + 1, u64::MAX, (1 << 33) + 2, u32::MAX as u64]),
            1 => 0,
            _ => 1 + self.random.below(5),
        }
    }

    /// A token: mostly a new one, some that could be mistaken for others.
    fn token(&mut self) -> u64 {
        self.token += 1;
        match self.random.below(30) {
            0 => self.random.pick(&[0, u64::MAX, 1 << 32, 1]),
            _ => 100 + self.token,
        }
    }

    fn number_for(&mut self, call: Call) -> u64 {
        match call {
            Call::Extend => self.token(),
            _ => self.count(),
        }
    }
}
