//! Damaged schedules: a random one with lines spoilt in every way we know.

use crate::machine::PARTIES;
use crate::random::{long_schedule, Random};

type Lines = Vec<Vec<u8>>;

/// Words that a line may hold, and some that it may not.
const WORDS: [&str; 30] = [
    "machine", "queue", "begin", "step", "lifo", "fifo", "push", "pop", "extend", "drain", "next", "drop", "steal",
    "take", "spare", "empty", "all", "half", "fixed", "given", "weak", "end", "none", "Push", "STEP", "steals", "ste",
    "answer", "refused", "",
];

/// Numbers at the edges of what may be written.
const NUMBERS: [&str; 24] = [
    "0",
    "1",
    "00",
    "007",
    "15",
    "16",
    "17",
    "4294967295",
    "4294967296",
    "2147483648",
    "2147483649",
    "18446744073709551615",
    "18446744073709551616",
    "18446744073709551620",
    "28446744073709551615",
    "99999999999999999999",
    "100000000000000000000",
    "340282366920938463463374607431768211456",
    "0000000000000000000000000000000018446744073709551615",
    "0000000000000000000000000000000018446744073709551616",
    "+1",
    "-1",
    "0x1",
    "1 ",
];

pub fn schedule(random: &mut Random) -> Vec<u8> {
    if random.chance(15) {
        return edge_opening(random);
    }
    let count = 5 + random.below(50);
    let mut lines = split(&long_schedule(random, count));
    let opening = opening_lines(&lines);
    // A damaged opening mostly ends the run, so most damage comes later.
    let spare_opening = random.chance(75) && lines.len() > opening;
    for _ in 0..1 + random.below(5) {
        let first = if spare_opening { opening.min(lines.len() - 1) } else { 0 };
        let at = first + random.below((lines.len() - first) as u64) as usize;
        if random.chance(80) {
            damage_line(random, &mut lines[at]);
        } else {
            damage_order(random, &mut lines, at);
        }
        if lines.is_empty() {
            lines.push(Vec::new());
        }
    }
    join(random, &lines)
}

fn split(text: &[u8]) -> Lines {
    text.split(|&byte| byte == b'\n').filter(|line| !line.is_empty()).map(|line| line.to_vec()).collect()
}

fn opening_lines(lines: &Lines) -> usize {
    lines.iter().take_while(|line| line[0] == b'm' || line[0] == b'q').count()
}

/// Puts the lines together; the newlines may suffer too.
fn join(random: &mut Random, lines: &Lines) -> Vec<u8> {
    let newline: &[u8] = if random.chance(3) { b"\r\n" } else { b"\n" };
    let mut text = lines.join(newline);
    match random.below(10) {
        0 => {}
        1 => text.extend_from_slice(b"\n\n"),
        _ => text.extend_from_slice(newline),
    }
    if random.chance(5) {
        let length = random.below(text.len() as u64 + 1) as usize;
        text.truncate(length);
    }
    text
}

/// Openings of the right shape with numbers at the edges.
fn edge_opening(random: &mut Random) -> Vec<u8> {
    let kind = random.pick(&["lifo", "fifo", "lifo", "fifo", "filo"]);
    let parties = random.pick(&[0, 1, 2, 3, 15, 16, 17, 1 << 32, u64::MAX]);
    let mut text = format!("machine\t{}\t{}\n", kind, parties);
    let usual = random.pick(&["256", "255", "257", "128", "1365", "2048", "1024"]);
    let odd = random.below(parties.clamp(1, PARTIES));
    let queues = parties.min(PARTIES) + random.pick(&[0, 0, 0, 1]) - random.pick(&[0, 0, 0, 1]).min(parties);
    for q in 0..queues {
        let request = if q == odd && random.chance(70) { random.pick(&NUMBERS) } else { usual };
        let position = if random.chance(5) { random.pick(&NUMBERS) } else { "4294967290" };
        text += &format!("queue\t{}\t{}\n", request, position);
    }
    text += "begin\t0\tspare\nstep\t0\nstep\t0\nstep\t0\n";
    text.into_bytes()
}

fn fields(line: &[u8]) -> Lines {
    line.split(|&byte| byte == b'\t').map(|field| field.to_vec()).collect()
}

fn damage_line(random: &mut Random, line: &mut Vec<u8>) {
    let at = random.below(line.len() as u64 + 1) as usize;
    let inside = at.min(line.len().saturating_sub(1));
    let mut parts = fields(line);
    let part = random.below(parts.len() as u64) as usize;
    match random.below(16) {
        0 if !line.is_empty() => line[inside] ^= 1 << random.below(8),
        1 => line.insert(at, random.pick(&[0, b'\t', b'\r', b' ', b'0', b'9', b':', b'/', b'a', 0xff, 0x0b])),
        2 if !line.is_empty() => {
            line.remove(inside);
        }
        3 => *line = parts.concat(),
        4 => *line = parts.join(&b"\t\t"[..]),
        5 => *line = parts.join(&b' '),
        6 => line.push(random.pick(&[b'\t', b'\r', b' '])),
        7 => line.insert(0, random.pick(&[b'\t', b' ', b'0'])),
        8 => {
            parts[part] = random.pick(&NUMBERS).as_bytes().to_vec();
            *line = parts.join(&b'\t');
        }
        9 => {
            parts[part] = random.pick(&WORDS).as_bytes().to_vec();
            *line = parts.join(&b'\t');
        }
        10 => {
            parts.remove(part);
            *line = parts.join(&b'\t');
        }
        11 => {
            let word = if random.chance(50) { random.pick(&WORDS) } else { random.pick(&NUMBERS) };
            parts.insert(part, word.as_bytes().to_vec());
            *line = parts.join(&b'\t');
        }
        12 => lengthen(random, line, parts),
        13 => line.truncate(at),
        14 => line.make_ascii_uppercase(),
        _ => line.clear(),
    }
}

/// Brings a line to the edge of what may be read: zeros before its last
/// number, if it has one, and far beyond.
fn lengthen(random: &mut Random, line: &mut Vec<u8>, mut parts: Lines) {
    let length = random.pick(&[119, 120, 121, 122, 300, 70_000]);
    let missing = length.max(line.len()) - line.len();
    let numeric = |part: &Vec<u8>| part.first().map_or(false, |byte| byte.is_ascii_digit());
    match parts.iter().rposition(numeric) {
        Some(part) => {
            parts[part].splice(0..0, std::iter::repeat(b'0').take(missing));
            *line = parts.join(&b'\t');
        }
        None => line.extend(std::iter::repeat(b'x').take(missing)),
    }
}

/// Lines doubled, lost, out of place.
fn damage_order(random: &mut Random, lines: &mut Lines, at: usize) {
    let other = random.below(lines.len() as u64) as usize;
    match random.below(5) {
        0 => {
            lines.remove(at);
        }
        1 => lines.insert(at, lines[other].clone()),
        2 => lines.swap(at, other),
        3 => {
            lines.insert(at, random.pick(&["machine\tlifo\t1", "queue\t4\t0", "machine\tfifo\t3"]).as_bytes().to_vec())
        }
        _ => lines.insert(at, Vec::new()),
    }
}
