//! The main loop that the test programs share: one schedule on standard
//! input, or with `--batch` a stream of them (see batch.rs).

use std::io::{self, BufRead, Write};

/// Runs `run(input, out, trace)` once, or once for each entry of a batch.
pub fn main_loop(mut run: impl FnMut(&mut dyn BufRead, &mut dyn Write, bool) -> io::Result<()>) -> io::Result<()> {
    let options: Vec<String> = std::env::args().skip(1).collect();
    if let Some(unknown) = options.iter().find(|o| *o != "--batch" && *o != "--trace") {
        return Err(io::Error::new(io::ErrorKind::InvalidInput, format!("unknown option {}", unknown)));
    }
    let trace = options.iter().any(|o| o == "--trace");
    let (stdin, stdout) = (io::stdin(), io::stdout());
    let mut input = io::BufReader::with_capacity(1 << 16, stdin.lock());
    let mut out = io::BufWriter::with_capacity(1 << 16, stdout.lock());
    if !options.iter().any(|o| o == "--batch") {
        run(&mut input, &mut out, trace)?;
        return out.flush();
    }
    while let Some(entry) = crate::batch::read_entry(&mut input)? {
        let mut answers = Vec::new();
        run(&mut entry.bytes.as_slice(), &mut answers, trace)?;
        crate::batch::write_entry(&mut out, &entry.name, &answers)?;
        out.flush()?;
    }
    Ok(())
}
