//! The schedule program of document 01 in plain Rust: reads a schedule on
//! standard input, writes the answers. `--trace` adds the words and slots
//! after each accepted step, `--batch` takes many schedules (../batch.rs).

#[path = "../batch.rs"]
mod batch;
#[path = "../batched.rs"]
mod batched;
mod machine;

use machine::{Answer, Call, Kind, Machine, Mark, Rule};
use std::io::{self, BufRead, Write};

/// The longest line that is read, newline apart.
const LONGEST: usize = 120;
const MALFORMED: u8 = 9;

fn main() -> io::Result<()> {
    batched::main_loop(run)
}

/// Lines of the input, none held beyond `LONGEST + 1` bytes.
struct Lines<'a> {
    input: &'a mut dyn BufRead,
    line: Vec<u8>,
    number: u64,
}

impl Lines<'_> {
    /// Reads the next line; an overlong one is cut, but is still too long.
    fn advance(&mut self) -> io::Result<bool> {
        self.line.clear();
        let mut begun = false;
        loop {
            let block = self.input.fill_buf()?;
            if block.is_empty() {
                self.number += begun as u64;
                return Ok(begun);
            }
            begun = true;
            let end = block.iter().position(|&byte| byte == b'\n');
            let part = &block[..end.unwrap_or(block.len())];
            let kept = part.len().min(LONGEST + 1 - self.line.len());
            self.line.extend_from_slice(&part[..kept]);
            let used = part.len() + end.is_some() as usize;
            self.input.consume(used);
            if end.is_some() {
                self.number += 1;
                return Ok(true);
            }
        }
    }
}

/// Reads a line from its front, field by field.
struct Fields<'a> {
    /// What follows the last tab; `None` when the last field was taken.
    rest: Option<&'a [u8]>,
}

impl<'a> Fields<'a> {
    fn of(line: &'a [u8]) -> Fields<'a> {
        Fields { rest: if line.len() > LONGEST { None } else { Some(line) } }
    }

    fn word(&mut self) -> Option<&'a [u8]> {
        let rest = self.rest?;
        match rest.iter().position(|&byte| byte == b'\t') {
            Some(tab) => {
                self.rest = Some(&rest[tab + 1..]);
                Some(&rest[..tab])
            }
            None => {
                self.rest = None;
                Some(rest)
            }
        }
    }

    fn number(&mut self) -> Option<u64> {
        let digits = self.word()?;
        if digits.is_empty() {
            return None;
        }
        let mut value: u64 = 0;
        for &byte in digits {
            if !byte.is_ascii_digit() {
                return None;
            }
            value = value.checked_mul(10)?.checked_add((byte - b'0') as u64)?;
        }
        Some(value)
    }

    /// `value`, if the line ends here.
    fn ended<T>(&self, value: T) -> Option<T> {
        if self.rest.is_none() {
            Some(value)
        } else {
            None
        }
    }

    /// A rule, which is always last.
    fn rule(&mut self) -> Option<Rule> {
        let rule = match self.word()? {
            b"all" => Rule::All,
            b"half" => Rule::Half,
            b"given" => Rule::Given,
            b"fixed" => Rule::Fixed(self.number()?),
            _ => return None,
        };
        self.ended(rule)
    }
}

fn machine_line(line: &[u8]) -> Option<(Kind, u64)> {
    let mut fields = Fields::of(line);
    if fields.word()? != b"machine" {
        return None;
    }
    let kind = match fields.word()? {
        b"lifo" => Kind::Lifo,
        b"fifo" => Kind::Fifo,
        _ => return None,
    };
    let parties = fields.number()?;
    fields.ended((kind, parties))
}

fn queue_line(line: &[u8]) -> Option<(u64, u32)> {
    let mut fields = Fields::of(line);
    if fields.word()? != b"queue" {
        return None;
    }
    let request = fields.number()?;
    let position = fields.number()?;
    if position > u32::MAX as u64 {
        return None;
    }
    fields.ended((request, position as u32))
}

enum Line {
    Begin(u64, Call),
    Step(u64, Mark),
}

fn later_line(line: &[u8]) -> Option<Line> {
    let mut fields = Fields::of(line);
    match fields.word()? {
        b"step" => step_line(fields),
        b"begin" => begin_line(fields),
        _ => None,
    }
}

fn step_line(mut fields: Fields) -> Option<Line> {
    let party = fields.number()?;
    if fields.rest.is_none() {
        return Some(Line::Step(party, Mark::Plain));
    }
    let mark = match fields.word()? {
        b"weak" => Mark::Weak,
        b"end" => Mark::End,
        b"given" => Mark::Given(fields.number()?),
        _ => return None,
    };
    fields.ended(Line::Step(party, mark))
}

fn begin_line(mut fields: Fields) -> Option<Line> {
    let party = fields.number()?;
    let call = match fields.word()? {
        b"push" => Call::Push(fields.number()?),
        b"pop" => Call::Pop,
        b"extend" => Call::Extend,
        b"drain" => Call::Drain(fields.rule()?),
        b"next" => Call::Next,
        b"drop" => Call::Drop,
        b"steal" => Call::Steal(fields.number()?, fields.rule()?),
        b"take" => Call::Take(fields.number()?, fields.rule()?),
        b"spare" => Call::Spare,
        b"empty" => Call::Empty,
        _ => return None,
    };
    fields.ended(Line::Begin(party, call))
}

/// Reads the opening lines; a code refuses the line that was read last.
fn open(lines: &mut Lines) -> io::Result<Result<Option<Machine>, u8>> {
    if !lines.advance()? {
        return Ok(Ok(None));
    }
    let (kind, parties) = match machine_line(&lines.line) {
        None => return Ok(Err(MALFORMED)),
        Some((_, parties)) if parties < 1 || parties > machine::PARTIES => return Ok(Err(1)),
        Some(read) => read,
    };
    let mut queues = Vec::new();
    let mut total = 0;
    for _ in 0..parties {
        if !lines.advance()? {
            return Ok(Ok(None));
        }
        match queue_line(&lines.line) {
            None => return Ok(Err(MALFORMED)),
            Some((request, _)) if request > machine::LARGEST => return Ok(Err(7)),
            Some((request, position)) => {
                total += machine::capacity(request);
                queues.push((request, position));
            }
        }
    }
    if total > machine::ITEMS {
        return Ok(Err(8));
    }
    Ok(Ok(Some(Machine::open(kind, &queues))))
}

fn run(input: &mut dyn BufRead, out: &mut dyn Write, trace: bool) -> io::Result<()> {
    let mut lines = Lines { input, line: Vec::with_capacity(LONGEST + 1), number: 0 };
    let mut text = Vec::with_capacity(LONGEST);
    let mut machine = match open(&mut lines)? {
        Ok(Some(machine)) => machine,
        Ok(None) => return Ok(()),
        Err(code) => {
            put_refused(&mut text, lines.number, code);
            return out.write_all(&text);
        }
    };
    while lines.advance()? {
        text.clear();
        take_line(&mut machine, &lines, trace, &mut text);
        out.write_all(&text)?;
    }
    text.clear();
    for q in 0..machine.queues().len() {
        put_rest(&mut text, &machine, q);
    }
    out.write_all(&text)
}

/// Takes one line after the opening and puts what is to be printed.
fn take_line(machine: &mut Machine, lines: &Lines, trace: bool, text: &mut Vec<u8>) {
    let outcome = match later_line(&lines.line) {
        None => Err(MALFORMED),
        Some(Line::Begin(party, call)) => machine.begin(party, call),
        Some(Line::Step(party, mark)) => machine.step(party, mark).map(|answer| {
            if let Some(answer) = answer {
                put_answer(text, party, answer);
            }
            if trace {
                put_state(text, machine);
            }
        }),
    };
    if let Err(code) = outcome {
        put_refused(text, lines.number, code);
    }
}

fn put_number(text: &mut Vec<u8>, mut number: u64) {
    let mut digits = [0; 20];
    let mut first = digits.len();
    loop {
        first -= 1;
        digits[first] = b'0' + (number % 10) as u8;
        number /= 10;
        if number == 0 {
            break;
        }
    }
    text.extend_from_slice(&digits[first..]);
}

fn put_field(text: &mut Vec<u8>, number: u64) {
    text.push(b'\t');
    put_number(text, number);
}

fn put_refused(text: &mut Vec<u8>, line: u64, code: u8) {
    text.extend_from_slice(b"refused");
    put_field(text, line);
    put_field(text, code as u64);
    text.push(b'\n');
}

fn put_answer(text: &mut Vec<u8>, party: u64, answer: Answer) {
    text.extend_from_slice(b"answer");
    put_field(text, party);
    text.push(b'\t');
    let (word, first, second): (&[u8], _, _) = match answer {
        Answer::Pushed => (b"pushed", None, None),
        Answer::Full(token) => (b"full", Some(token), None),
        Answer::Popped(token) => (b"popped", Some(token), None),
        Answer::None => (b"none", None, None),
        Answer::Extended(count) => (b"extended", Some(count as u64), None),
        Answer::Stolen(count) => (b"stolen", Some(count as u64), None),
        Answer::Taken(token, count) => (b"taken", Some(token), Some(count as u64)),
        Answer::Drain(count) => (b"drain", Some(count as u64), None),
        Answer::Item(token) => (b"item", Some(token), None),
        Answer::Done => (b"done", None, None),
        Answer::Closed => (b"closed", None, None),
        Answer::Busy => (b"busy", None, None),
        Answer::Empty => (b"empty", None, None),
        Answer::Spare(count) => (b"spare", Some(count as u64), None),
        Answer::Yes => (b"yes", None, None),
        Answer::No => (b"no", None, None),
    };
    text.extend_from_slice(word);
    for number in first.into_iter().chain(second) {
        put_field(text, number);
    }
    text.push(b'\n');
}

fn put_rest(text: &mut Vec<u8>, machine: &Machine, q: usize) {
    text.extend_from_slice(b"rest");
    put_field(text, q as u64);
    for token in machine.resting(q) {
        put_field(text, token);
    }
    text.push(b'\n');
}

fn put_state(text: &mut Vec<u8>, machine: &Machine) {
    for (q, queue) in machine.queues().iter().enumerate() {
        text.extend_from_slice(b"state");
        put_field(text, q as u64);
        put_field(text, queue.capacity as u64);
        put_field(text, queue.count as u64);
        put_field(text, queue.packed);
        put_field(text, queue.done as u64);
        for &token in machine.slots(q) {
            put_field(text, token);
        }
        text.push(b'\n');
    }
}
