//! Makes schedules for the comparison and writes them as a batch (batch.rs).
//!
//!     generate random SEED COUNT [FIRST]     valid and partly refused lines
//!     generate damaged SEED COUNT [FIRST]    damaged lines of every sort
//!     generate lone SEED COUNT [FIRST]       every call run alone, none refused
//!     generate systematic SWITCHES [EVERY]   all interleavings of two calls
//!     generate bench                         document 01's runs and named cases
//!     generate even SEED LINES KIND PARTIES  one long interleaved schedule, bare
//!
//! The schedule with number i of a seed is the same for every count. To know
//! which calls are under way and what they want, a script carries the plain
//! machine along; what the machines under test make of the text is not its
//! matter.

#[path = "batch.rs"]
#[allow(dead_code)] // Only written here, never read.
mod batch;
#[path = "generate/bench.rs"]
mod bench;
#[path = "generate/damage.rs"]
mod damage;
#[path = "plain/machine.rs"]
#[allow(dead_code)] // The script needs no slots and no words.
mod machine;
#[path = "generate/random.rs"]
mod random;
#[path = "generate/script.rs"]
mod script;
#[path = "generate/systematic.rs"]
mod systematic;

use machine::Kind;
use random::Random;
use std::io::{self, Write};

fn main() -> io::Result<()> {
    match generate() {
        // The comparison stops at its first difference.
        Err(error) if error.kind() == io::ErrorKind::BrokenPipe => Ok(()),
        done => done,
    }
}

fn generate() -> io::Result<()> {
    let arguments: Vec<String> = std::env::args().skip(1).collect();
    let mode = arguments.first().map_or("", |mode| mode.as_str());
    let number = |at: usize| arguments.get(at).and_then(|text| text.parse::<u64>().ok());
    let stdout = io::stdout();
    let mut out = io::BufWriter::with_capacity(1 << 16, stdout.lock());
    match (mode, number(1), number(2)) {
        ("random", Some(seed), Some(count)) => {
            seeded(&mut out, mode, seed, number(3).unwrap_or(0), count, random::schedule)?
        }
        ("damaged", Some(seed), Some(count)) => {
            seeded(&mut out, mode, seed, number(3).unwrap_or(0), count, damage::schedule)?
        }
        ("lone", Some(seed), Some(count)) => {
            seeded(&mut out, mode, seed, number(3).unwrap_or(0), count, random::lone_schedule)?
        }
        ("systematic", Some(switches), every) => {
            systematic::write_all(&mut out, switches as u32, every.unwrap_or(1).max(1))?
        }
        ("bench", _, _) => bench::write_all(&mut out)?,
        ("even", Some(seed), Some(lines)) => {
            let kind = if arguments.get(3).map_or(false, |word| word == "fifo") { Kind::Fifo } else { Kind::Lifo };
            let parties = number(4).unwrap_or(4).clamp(1, machine::PARTIES);
            out.write_all(&random::even_schedule(&mut Random::of(seed, 0), kind, parties, lines))?
        }
        _ => {
            eprintln!(
                "usage: generate random|damaged|lone SEED COUNT [FIRST] | systematic SWITCHES [EVERY] | bench \
                 | even SEED LINES KIND PARTIES"
            );
            std::process::exit(2);
        }
    }
    out.flush()
}

fn seeded(
    out: &mut impl Write,
    mode: &str,
    seed: u64,
    first: u64,
    count: u64,
    make: impl Fn(&mut Random) -> Vec<u8>,
) -> io::Result<()> {
    eprintln!("{}: seed {}, {} schedules from number {}", mode, seed, count, first);
    for index in first..first + count {
        let name = format!("{}-{}-{}", mode, seed, index);
        batch::write_entry(out, &name, &make(&mut Random::of(seed, index)))?;
    }
    Ok(())
}
