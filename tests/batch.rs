//! Many schedules in one stream: a header line `schedule TAB NAME TAB LENGTH`,
//! then so many bytes, any bytes. Answers go back in the same shape. A length
//! is needed because damaged schedules may hold every byte there is.

use std::io::{self, BufRead, Write};

pub struct Entry {
    pub name: String,
    pub bytes: Vec<u8>,
}

/// The next entry, or `None` at the end of the stream.
pub fn read_entry(input: &mut impl BufRead) -> io::Result<Option<Entry>> {
    let mut header = String::new();
    if input.read_line(&mut header)? == 0 {
        return Ok(None);
    }
    let mut fields = header.trim_end_matches('\n').split('\t');
    let (word, name, length) = (fields.next(), fields.next(), fields.next());
    let length = length.and_then(|text| text.parse().ok());
    match (word, name, length) {
        (Some("schedule"), Some(name), Some(length)) => {
            let mut bytes = vec![0; length];
            input.read_exact(&mut bytes)?;
            Ok(Some(Entry { name: name.to_string(), bytes }))
        }
        _ => Err(io::Error::new(io::ErrorKind::InvalidData, format!("no header: {:?}", header))),
    }
}

pub fn write_entry(out: &mut impl Write, name: &str, bytes: &[u8]) -> io::Result<()> {
    write!(out, "schedule\t{}\t{}\n", name, bytes.len())?;
    out.write_all(bytes)
}
