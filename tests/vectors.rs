//! Writes the schedules of a batch, on standard input, and a program's answers
//! to them: one file FAMILY.txt for each family of schedules.
//!
//!     vectors FOLDER PROGRAM LONGEST
//!
//! Schedules of more than LONGEST bytes are left out.
//!
//! A file begins with the line `schedules TAB COUNT`. Then comes for each
//! schedule a line `schedule TAB NAME TAB LENGTH TAB LENGTH`, so many bytes of
//! input and a newline, so many bytes of output and a newline. These newlines
//! are not counted; they help the eye, and show a length that is wrong.

mod batch;

use std::io::{self, BufReader, Write};
use std::path::Path;
use std::process::{Command, Stdio};

/// The files; a name that begins otherwise is one of the named cases.
const FAMILIES: [&str; 6] = ["bench", "text", "random", "damaged", "lone", "systematic"];
const CASES: &str = "cases";

struct Family {
    name: &'static str,
    count: usize,
    text: Vec<u8>,
}

fn main() -> io::Result<()> {
    let words: Vec<String> = std::env::args().skip(1).collect();
    let longest: Option<usize> = words.get(2).and_then(|word| word.parse().ok());
    let (folder, program, longest) = match (words.as_slice(), longest) {
        ([folder, program, _], Some(longest)) => (Path::new(folder), program, longest),
        _ => {
            eprintln!("usage: vectors FOLDER PROGRAM LONGEST");
            std::process::exit(2);
        }
    };

    let mut child = Command::new(program).arg("--batch").stdin(Stdio::piped()).stdout(Stdio::piped()).spawn()?;
    let mut input = child.stdin.take().expect("piped");
    let mut output = BufReader::new(child.stdout.take().expect("piped"));
    let stdin = io::stdin();
    let mut schedules = BufReader::new(stdin.lock());
    let mut families: Vec<Family> = Vec::new();
    while let Some(schedule) = batch::read_entry(&mut schedules)? {
        if schedule.bytes.len() > longest {
            continue;
        }
        batch::write_entry(&mut input, &schedule.name, &schedule.bytes)?;
        input.flush()?;
        let answers = batch::read_entry(&mut output)?.expect("an answer to each schedule");
        put(family_of(&mut families, &schedule.name), &schedule, &answers.bytes)?;
    }
    drop(input);
    assert!(child.wait()?.success(), "{} failed", program);

    for family in families {
        let mut file = std::fs::File::create(folder.join(format!("{}.txt", family.name)))?;
        write!(file, "schedules\t{}\n", family.count)?;
        file.write_all(&family.text)?;
        println!("{}: {} schedules", family.name, family.count);
    }
    Ok(())
}

fn family_of<'a>(families: &'a mut Vec<Family>, schedule: &str) -> &'a mut Family {
    let first = schedule.split('-').next();
    let name = FAMILIES.into_iter().find(|&family| Some(family) == first).unwrap_or(CASES);
    let at = families.iter().position(|family| family.name == name).unwrap_or_else(|| {
        families.push(Family { name, count: 0, text: Vec::new() });
        families.len() - 1
    });
    &mut families[at]
}

fn put(family: &mut Family, schedule: &batch::Entry, answers: &[u8]) -> io::Result<()> {
    family.count += 1;
    let text = &mut family.text;
    write!(text, "schedule\t{}\t{}\t{}\n", schedule.name, schedule.bytes.len(), answers.len())?;
    for bytes in [schedule.bytes.as_slice(), answers] {
        text.extend_from_slice(bytes);
        text.push(b'\n');
    }
    Ok(())
}
