//! Feeds the schedules of a batch, on standard input, to two programs and
//! compares what they print, byte for byte.
//!
//!     compare [--trace] LEFT RIGHT             both keep reading batches
//!     compare --each [--trace] LEFT COMMAND..  COMMAND is run once a schedule
//!
//! Stops at the first difference and shows it; the exit status tells.

mod batch;

use batch::Entry;
use std::io::{self, BufReader, BufWriter, Read, Write};
use std::process::{exit, Child, ChildStdin, ChildStdout, Command, Stdio};

/// A program that answers a batch, schedule by schedule.
struct Reader {
    input: BufWriter<ChildStdin>,
    output: BufReader<ChildStdout>,
}

enum Side {
    Batch(Reader),
    Each(Vec<String>),
}

#[derive(Default)]
struct Counts {
    schedules: u64,
    lines: u64,
    answers: u64,
    refused: u64,
    states: u64,
}

fn piped(command: &[String]) -> io::Result<Child> {
    Command::new(&command[0]).args(&command[1..]).stdin(Stdio::piped()).stdout(Stdio::piped()).spawn()
}

impl Side {
    fn batch(program: &str, trace: bool) -> io::Result<Side> {
        let mut command = vec![program.to_string(), "--batch".to_string()];
        if trace {
            command.push("--trace".to_string());
        }
        let child = piped(&command)?;
        let input = BufWriter::with_capacity(1 << 16, child.stdin.expect("piped"));
        let output = BufReader::with_capacity(1 << 16, child.stdout.expect("piped"));
        Ok(Side::Batch(Reader { input, output }))
    }

    fn each(command: &[String], trace: bool) -> Side {
        let mut command = command.to_vec();
        if trace {
            command.push("--trace".to_string());
        }
        Side::Each(command)
    }

    fn answers(&mut self, schedule: &Entry) -> io::Result<Vec<u8>> {
        match self {
            Side::Batch(reader) => {
                batch::write_entry(&mut reader.input, &schedule.name, &schedule.bytes)?;
                reader.input.flush()?;
                match batch::read_entry(&mut reader.output)? {
                    Some(answers) => Ok(answers.bytes),
                    None => Err(io::Error::new(io::ErrorKind::UnexpectedEof, "the program ended")),
                }
            }
            Side::Each(command) => run_once(command, &schedule.bytes),
        }
    }

    /// A program that broke off is a difference like any other.
    fn answers_or_end(&mut self, schedule: &Entry) -> Vec<u8> {
        self.answers(schedule).unwrap_or_else(|error| format!("broke off: {}\n", error).into_bytes())
    }
}

/// Runs the command on one schedule; a bad exit status shows in the answers.
fn run_once(command: &[String], schedule: &[u8]) -> io::Result<Vec<u8>> {
    let mut child = piped(command)?;
    let mut input = child.stdin.take().expect("piped");
    let mut answers = Vec::new();
    std::thread::scope(|scope| {
        // A program may end before it has read everything.
        scope.spawn(move || input.write_all(schedule));
        child.stdout.take().expect("piped").read_to_end(&mut answers)
    })?;
    let status = child.wait()?;
    if !status.success() {
        answers.extend_from_slice(format!("{}\n", status).as_bytes());
    }
    Ok(answers)
}

impl Counts {
    fn add(&mut self, schedule: &[u8], answers: &[u8]) {
        self.schedules += 1;
        self.lines += schedule.split(|&byte| byte == b'\n').count() as u64 - 1;
        for line in answers.split(|&byte| byte == b'\n') {
            self.answers += line.starts_with(b"answer") as u64;
            self.refused += line.starts_with(b"refused") as u64;
            self.states += line.starts_with(b"state") as u64;
        }
    }

    fn show(&self) {
        println!(
            "{} schedules, {} lines, {} answers, {} refused, {} states: no difference",
            self.schedules, self.lines, self.answers, self.refused, self.states
        );
    }
}

/// Shows the schedule and the first line where the two part.
fn show_difference(name: &str, schedule: &[u8], left: &[u8], right: &[u8]) {
    println!("DIFFERENCE in {}", name);
    println!("--- schedule\n{}", String::from_utf8_lossy(schedule));
    let mut lefts = left.split(|&byte| byte == b'\n');
    let mut rights = right.split(|&byte| byte == b'\n');
    for number in 1.. {
        let (a, b) = (lefts.next(), rights.next());
        if a != b {
            let text = |line: Option<&[u8]>| match line {
                Some(line) => String::from_utf8_lossy(line).into_owned(),
                None => "(nothing)".to_string(),
            };
            println!("--- output line {}\nleft:  {}\nright: {}", number, text(a), text(b));
            return;
        }
    }
}

fn compare(left: &mut Side, right: &mut Side) -> io::Result<bool> {
    let stdin = io::stdin();
    let mut input = BufReader::with_capacity(1 << 16, stdin.lock());
    let mut counts = Counts::default();
    while let Some(entry) = batch::read_entry(&mut input)? {
        let expected = left.answers_or_end(&entry);
        let got = right.answers_or_end(&entry);
        if expected != got {
            show_difference(&entry.name, &entry.bytes, &expected, &got);
            println!("after {} schedules without", counts.schedules);
            return Ok(false);
        }
        counts.add(&entry.bytes, &expected);
    }
    counts.show();
    Ok(true)
}

fn main() -> io::Result<()> {
    let mut words: Vec<String> = std::env::args().skip(1).collect();
    let mut option = |name: &str| match words.first() {
        Some(word) if word == name => {
            words.remove(0);
            true
        }
        _ => false,
    };
    let each = option("--each");
    let trace = option("--trace");
    if words.len() < 2 {
        eprintln!("usage: compare [--each] [--trace] LEFT RIGHT..");
        exit(2);
    }
    let mut left = Side::batch(&words[0], trace)?;
    let mut right = if each { Side::each(&words[1..], trace) } else { Side::batch(&words[1], trace)? };
    let same = compare(&mut left, &mut right)?;
    exit(if same { 0 } else { 1 })
}
