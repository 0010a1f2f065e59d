//! Plays a schedule in document 01's text by the Rust module: standard input to standard output, as the schedule program does.
//! With `--trace` the words and slots of each queue follow each step, as the test programs of tests/ print them.

use ragnulois::{Answer, Call, Kind, Machine, Mark, Refusal, Rule};
use std::io::{self, Read, Write};

const LENT: usize = 4096;
/// The longest line that is read, newline apart.
const LONGEST: usize = 120;

#[derive(Clone, Copy)]
enum Line {
    Machine(Kind, u64),
    Queue(u64, u32),
    Begin(u64, Call),
    Step(u64, Mark),
    /// Refused here and not by the library.
    Malformed,
}

/// Digits only: `parse` would take a sign too.
fn number(field: &str) -> Option<u64> {
    field.parse().ok().filter(|_| field.bytes().all(|byte| byte.is_ascii_digit()))
}

fn kind_of(field: &str) -> Option<Kind> {
    match field {
        "lifo" => Some(Kind::Lifo),
        "fifo" => Some(Kind::Fifo),
        _ => None,
    }
}

fn rule_of(fields: &[&str]) -> Option<Rule> {
    match fields {
        ["all"] => Some(Rule::All),
        ["half"] => Some(Rule::Half),
        ["given"] => Some(Rule::Given),
        ["fixed", count] => Some(Rule::Fixed(number(count)?)),
        _ => None,
    }
}

fn call_of(fields: &[&str]) -> Option<Call> {
    match fields {
        ["push", token] => Some(Call::Push(number(token)?)),
        ["extend"] => Some(Call::Extend),
        ["spare"] => Some(Call::Spare),
        ["steal", source, rule @ ..] => Some(Call::Steal { source: number(source)?, rule: rule_of(rule)? }),
        ["take", source, rule @ ..] => Some(Call::Take { source: number(source)?, rule: rule_of(rule)? }),
        ["drain", rule @ ..] => Some(Call::Drain(rule_of(rule)?)),
        ["next"] => Some(Call::Next),
        ["drop"] => Some(Call::Drop),
        ["pop"] => Some(Call::Pop),
        ["empty"] => Some(Call::Empty),
        _ => None,
    }
}

fn mark_of(fields: &[&str]) -> Option<Mark> {
    match fields {
        [] => Some(Mark::Plain),
        ["weak"] => Some(Mark::Weak),
        ["given", carried] => Some(Mark::Given(number(carried)?)),
        ["end"] => Some(Mark::End),
        _ => None,
    }
}

fn line_of(fields: &[&str]) -> Option<Line> {
    match fields {
        ["machine", kind, parties] => Some(Line::Machine(kind_of(kind)?, number(parties)?)),
        ["queue", request, position] => Some(Line::Queue(number(request)?, number(position)?.try_into().ok()?)),
        ["begin", party, call @ ..] => Some(Line::Begin(number(party)?, call_of(call)?)),
        ["step", party, mark @ ..] => Some(Line::Step(number(party)?, mark_of(mark)?)),
        _ => None,
    }
}

fn read_line(bytes: &[u8]) -> Line {
    let text = std::str::from_utf8(bytes).ok().filter(|text| text.len() <= LONGEST);
    let fields: Vec<&str> = text.unwrap_or("").split('\t').collect();
    line_of(&fields).unwrap_or(Line::Malformed)
}

/// A last line without newline counts.
fn read_lines(input: &[u8]) -> Vec<Line> {
    let mut lines: Vec<&[u8]> = input.split(|&byte| byte == b'\n').collect();
    if lines.last() == Some(&&b""[..]) {
        lines.pop();
    }
    lines.into_iter().map(read_line).collect()
}

/// A line's number and the code that refuses it.
struct Refused(usize, Refusal);

/// What the opening lines have asked for so far.
struct Asked {
    kind: Kind,
    parties: usize,
    queues: Vec<(u64, u32)>,
}

impl Asked {
    /// The library judges the parties, by queues of one slot.
    fn by_machine_line(line: Line) -> Result<Asked, Refusal> {
        match line {
            Line::Machine(kind, parties) => {
                let parties = parties.min(17) as usize;
                Machine::open(kind, &vec![(0, 0); parties], vec![0; LENT])?;
                Ok(Asked { kind, parties, queues: Vec::new() })
            }
            _ => Err(Refusal::Malformed),
        }
    }

    /// The machine at the last queue line, and only there the refusal for too few items.
    fn queue_line(&mut self, line: Line) -> Result<Option<Machine>, Refusal> {
        match line {
            Line::Queue(request, position) => self.queues.push((request, position)),
            _ => return Err(Refusal::Malformed),
        }
        let last = self.queues.len() == self.parties;
        match Machine::open(self.kind, &self.queues, vec![0; LENT]) {
            Err(Refusal::Lent) if !last => Ok(None),
            opened => opened.map(|machine| Some(machine).filter(|_| last)),
        }
    }
}

/// No machine where the opening lines end too soon.
fn opening(lines: &[Line]) -> Result<Option<Machine>, Refused> {
    let mut lines = (1..).zip(lines.iter().copied());
    let mut asked = match lines.next() {
        Some((number, line)) => Asked::by_machine_line(line).map_err(|refusal| Refused(number, refusal))?,
        None => return Ok(None),
    };
    for (number, line) in lines {
        let opened = asked.queue_line(line).map_err(|refusal| Refused(number, refusal))?;
        if opened.is_some() {
            return Ok(opened);
        }
    }
    Ok(None)
}

/// An answer as the program writes it.
fn text(answer: Answer) -> Option<String> {
    Some(match answer {
        Answer::Pending => return None,
        Answer::Pushed => "pushed".into(),
        Answer::Full(token) => format!("full\t{token}"),
        Answer::Popped(token) => format!("popped\t{token}"),
        Answer::None => "none".into(),
        Answer::Extended(count) => format!("extended\t{count}"),
        Answer::Stolen(count) => format!("stolen\t{count}"),
        Answer::Taken { token, count } => format!("taken\t{token}\t{count}"),
        Answer::Drain(count) => format!("drain\t{count}"),
        Answer::Item(token) => format!("item\t{token}"),
        Answer::Done => "done".into(),
        Answer::Closed => "closed".into(),
        Answer::Busy => "busy".into(),
        Answer::Empty => "empty".into(),
        Answer::Spare(count) => format!("spare\t{count}"),
        Answer::Yes => "yes".into(),
        Answer::No => "no".into(),
    })
}

/// What a line prints of an answer, if it came to one.
fn played(machine: &mut Machine, line: Line) -> Result<Option<String>, Refusal> {
    match line {
        Line::Begin(party, call) => machine.begin(party, call).map(|()| None),
        Line::Step(party, mark) => {
            let outcome = machine.step(party, mark)?;
            Ok(text(outcome.answer).map(|answer| format!("answer\t{party}\t{answer}\n")))
        }
        _ => Err(Refusal::Malformed),
    }
}

/// The text has 9 for a line that is malformed or misplaced.
fn code(refusal: Refusal) -> u8 {
    match refusal {
        Refusal::Malformed => 9,
        other => other.number(),
    }
}

fn print_refused(out: &mut impl Write, Refused(line, refusal): Refused) -> io::Result<()> {
    writeln!(out, "refused\t{line}\t{}", code(refusal))
}

/// Each queue's words, then its stretch of the items.
fn print_state(out: &mut impl Write, machine: &Machine) -> io::Result<()> {
    let mut slots = machine.items();
    for queue in 0..machine.parties() {
        let words = machine.words(queue);
        write!(out, "state\t{queue}\t{}\t{}\t{}\t{}", words.capacity, words.pushes, words.packed, words.completed)?;
        let (own, others) = slots.split_at(words.capacity as usize);
        for token in own {
            write!(out, "\t{token}")?;
        }
        writeln!(out)?;
        slots = others;
    }
    Ok(())
}

fn play(out: &mut impl Write, mut machine: Machine, lines: &[Line], trace: bool) -> io::Result<()> {
    for (number, &line) in (1..).zip(lines).skip(1 + machine.parties() as usize) {
        match played(&mut machine, line) {
            Ok(answer) => out.write_all(answer.unwrap_or_default().as_bytes())?,
            Err(refusal) => {
                print_refused(out, Refused(number, refusal))?;
                continue;
            }
        }
        if trace && matches!(line, Line::Step(..)) {
            print_state(out, &machine)?;
        }
    }
    for queue in 0..machine.parties() {
        write!(out, "rest\t{queue}")?;
        for token in machine.tokens(queue) {
            write!(out, "\t{token}")?;
        }
        writeln!(out)?;
    }
    Ok(())
}

fn main() -> io::Result<()> {
    let mut input = Vec::new();
    io::stdin().read_to_end(&mut input)?;
    let lines = read_lines(&input);
    let mut out = io::BufWriter::new(io::stdout());
    match opening(&lines) {
        Ok(Some(machine)) => play(&mut out, machine, &lines, std::env::args().any(|word| word == "--trace"))?,
        Ok(None) => {}
        Err(refused) => print_refused(&mut out, refused)?,
    }
    out.flush()
}
