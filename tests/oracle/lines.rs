//! The line reader of the oracle's side. The queues have no text; this is the
//! project's own, written apart from the plain program's so that a damaged
//! line is judged twice.

#[derive(Clone, Copy, PartialEq, Eq, Debug)]
pub enum Kind {
    Lifo,
    Fifo,
}

#[derive(Clone, Copy, PartialEq, Eq, Debug)]
pub enum Rule {
    All,
    Half,
    Fixed(u64),
    Given,
}

#[derive(Clone, Copy, PartialEq, Eq, Debug)]
pub enum Call {
    Push(u64),
    Extend,
    Pop,
    Steal(u64, Rule),
    Take(u64, Rule),
    Drain(Rule),
    Next,
    Drop,
    Spare,
    Empty,
}

#[derive(Clone, Copy, PartialEq, Eq, Debug)]
pub enum Mark {
    Plain,
    Weak,
    Given(u64),
    End,
}

pub enum Line {
    Machine(Kind, u64),
    Queue(u64, u32),
    Begin(u64, Call),
    Step(u64, Mark),
}

const LONGEST: usize = 120;

/// Reads a whole line; `None` is malformed.
pub fn read(line: &[u8]) -> Option<Line> {
    if line.len() > LONGEST {
        return None;
    }
    let fields: Vec<&[u8]> = line.split(|&byte| byte == b'\t').collect();
    match fields.as_slice() {
        [b"machine", b"lifo", parties] => Some(Line::Machine(Kind::Lifo, number(parties)?)),
        [b"machine", b"fifo", parties] => Some(Line::Machine(Kind::Fifo, number(parties)?)),
        [b"queue", request, position] => Some(Line::Queue(number(request)?, short(position)?)),
        [b"begin", party, call @ ..] => Some(Line::Begin(number(party)?, read_call(call)?)),
        [b"step", party, mark @ ..] => Some(Line::Step(number(party)?, read_mark(mark)?)),
        _ => None,
    }
}

fn read_call(fields: &[&[u8]]) -> Option<Call> {
    match fields {
        [b"push", token] => Some(Call::Push(number(token)?)),
        [b"pop"] => Some(Call::Pop),
        [b"extend"] => Some(Call::Extend),
        [b"drain", rule @ ..] => Some(Call::Drain(read_rule(rule)?)),
        [b"next"] => Some(Call::Next),
        [b"drop"] => Some(Call::Drop),
        [b"steal", source, rule @ ..] => Some(Call::Steal(number(source)?, read_rule(rule)?)),
        [b"take", source, rule @ ..] => Some(Call::Take(number(source)?, read_rule(rule)?)),
        [b"spare"] => Some(Call::Spare),
        [b"empty"] => Some(Call::Empty),
        _ => None,
    }
}

fn read_rule(fields: &[&[u8]]) -> Option<Rule> {
    match fields {
        [b"all"] => Some(Rule::All),
        [b"half"] => Some(Rule::Half),
        [b"given"] => Some(Rule::Given),
        [b"fixed", count] => Some(Rule::Fixed(number(count)?)),
        _ => None,
    }
}

fn read_mark(fields: &[&[u8]]) -> Option<Mark> {
    match fields {
        [] => Some(Mark::Plain),
        [b"weak"] => Some(Mark::Weak),
        [b"end"] => Some(Mark::End),
        [b"given", value] => Some(Mark::Given(number(value)?)),
        _ => None,
    }
}

/// Decimal digits, at least one, of a 64-bit value.
fn number(field: &[u8]) -> Option<u64> {
    let text = std::str::from_utf8(field).ok()?;
    // The standard reader would also take a sign.
    if text.bytes().any(|byte| !(b'0'..=b'9').contains(&byte)) {
        return None;
    }
    text.parse().ok()
}

fn short(field: &[u8]) -> Option<u32> {
    u32::try_from(number(field)?).ok()
}
