//! A schedule in the making, with the plain machine carried along.

use crate::machine::{Answer, Call, Kind, Machine, Mark, Rule, Want};

#[derive(Clone)]
pub struct Script {
    pub text: Vec<u8>,
    pub machine: Machine,
    pub parties: usize,
}

impl Script {
    pub fn open(kind: Kind, queues: &[(u64, u32)]) -> Script {
        let mut text = format!("machine\t{}\t{}\n", kind_word(kind), queues.len());
        for (request, position) in queues {
            text += &format!("queue\t{}\t{}\n", request, position);
        }
        Script { text: text.into_bytes(), machine: Machine::open(kind, queues), parties: queues.len() }
    }

    fn line(&mut self, line: &str) {
        self.text.extend_from_slice(line.as_bytes());
        self.text.push(b'\n');
    }

    /// A begin line, refused or not.
    pub fn begin(&mut self, party: u64, call: Call) {
        self.line(&format!("begin\t{}\t{}", party, call_words(call)));
        let _ = self.machine.begin(party, call);
    }

    /// A step line, refused or not.
    pub fn step(&mut self, party: u64, mark: Mark) -> Option<Answer> {
        self.line(&format!("step\t{}{}", party, mark_words(mark)));
        self.machine.step(party, mark).unwrap_or(None)
    }

    pub fn want(&self, party: usize) -> Option<Want> {
        self.machine.want(party)
    }

    /// Steps the party's call to its answer, with these numbers in turn; an
    /// extend ends where they run out.
    pub fn finish(&mut self, party: usize, numbers: &[u64]) -> Option<Answer> {
        let mut numbers = numbers.iter();
        loop {
            let mark = match self.want(party)? {
                Want::Bare | Want::Cas => Mark::Plain,
                Want::Number => Mark::Given(numbers.next().copied().unwrap_or(0)),
                Want::TokenOrEnd => numbers.next().map_or(Mark::End, |&token| Mark::Given(token)),
            };
            if let Some(answer) = self.step(party as u64, mark) {
                return Some(answer);
            }
        }
    }

    /// A whole call, alone.
    pub fn call(&mut self, party: usize, call: Call, numbers: &[u64]) -> Option<Answer> {
        self.begin(party as u64, call);
        self.finish(party, numbers)
    }

    /// Plain steps, so many.
    pub fn steps(&mut self, party: usize, count: usize) {
        for _ in 0..count {
            self.step(party as u64, Mark::Plain);
        }
    }
}

fn kind_word(kind: Kind) -> &'static str {
    match kind {
        Kind::Lifo => "lifo",
        Kind::Fifo => "fifo",
    }
}

fn call_words(call: Call) -> String {
    match call {
        Call::Push(token) => format!("push\t{}", token),
        Call::Extend => "extend".to_string(),
        Call::Pop => "pop".to_string(),
        Call::Steal(source, rule) => format!("steal\t{}\t{}", source, rule_words(rule)),
        Call::Take(source, rule) => format!("take\t{}\t{}", source, rule_words(rule)),
        Call::Drain(rule) => format!("drain\t{}", rule_words(rule)),
        Call::Next => "next".to_string(),
        Call::Drop => "drop".to_string(),
        Call::Spare => "spare".to_string(),
        Call::Empty => "empty".to_string(),
    }
}

fn rule_words(rule: Rule) -> String {
    match rule {
        Rule::All => "all".to_string(),
        Rule::Half => "half".to_string(),
        Rule::Fixed(count) => format!("fixed\t{}", count),
        Rule::Given => "given".to_string(),
    }
}

fn mark_words(mark: Mark) -> String {
    match mark {
        Mark::Plain => String::new(),
        Mark::Weak => "\tweak".to_string(),
        Mark::Given(number) => format!("\tgiven\t{}", number),
        Mark::End => "\tend".to_string(),
    }
}
