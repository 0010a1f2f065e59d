//! Document 01's runs on the bench that are schedules, and a named case for
//! each point where the tables, the text or the Rust have an edge.

use crate::batch;
use crate::machine::{self, Call, Kind, Mark, Rule, Want};
use crate::script::Script;
use std::io::{self, Write};

const BOTH: [(Kind, &str); 2] = [(Kind::Lifo, "lifo"), (Kind::Fifo, "fifo")];

pub fn write_all(out: &mut impl Write) -> io::Result<()> {
    let mut all: Vec<(String, Vec<u8>)> = Vec::new();
    let mut add = |name: String, script: Script| all.push((name, script.text));
    add("whole-run".to_string(), whole_run());
    add("bench-b-capacities".to_string(), spares(Kind::Lifo, &[0, 1, 5]));
    add("bench-c-turnover".to_string(), turnover());
    add("bench-d-busy-after-failed-cas".to_string(), overtaken(Kind::Lifo, Rule::All));
    add("bench-e-retry-after-failed-cas".to_string(), overtaken(Kind::Fifo, Rule::Half));
    add("bench-h-steal-from-itself".to_string(), itself());
    add("bench-i-popped-under-booking".to_string(), popped_under_booking());
    add("trap-booked-head-in-push".to_string(), push_beside_booking());
    for (kind, word) in BOTH {
        add(format!("bench-f-full-destination-{}", word), full_destination(kind));
        add(format!("bench-g-half-of-one-{}", word), half_of_one(kind));
        add(format!("extend-when-full-{}", word), extend_when_full(kind));
        add(format!("extend-nothing-{}", word), extend_nothing(kind));
        add(format!("given-at-nothing-resting-{}", word), given_at_nothing(kind));
        add(format!("given-and-fixed-not-cut-{}", word), not_cut(kind));
        add(format!("nothing-open-{}", word), nothing_open(kind));
        add(format!("drain-beside-open-drain-{}", word), drain_beside_drain(kind));
        add(format!("drain-dropped-{}", word), drain_dropped(kind));
        add(format!("call-under-way-at-the-end-{}", word), under_way(kind));
        add(format!("marks-out-of-place-{}", word), marks(kind));
        add(format!("weak-everywhere-{}", word), weak_everywhere(kind));
        for requests in around_powers() {
            add(format!("requests-from-{}-{}", requests[0], word), spares(kind, &requests));
        }
    }
    all.extend(texts());
    eprintln!("bench: {} schedules", all.len());
    for (name, text) in all {
        batch::write_entry(out, &name, &text)?;
    }
    Ok(())
}

fn whole_run() -> Script {
    let mut script = Script::open(Kind::Lifo, &[(0, 0)]);
    script.call(0, Call::Push(7), &[]);
    script.call(0, Call::Push(8), &[]);
    script.call(0, Call::Pop, &[]);
    script
}

/// What each request is rounded up to: the spare room of a fresh queue.
fn spares(kind: Kind, requests: &[u64]) -> Script {
    let queues: Vec<(u64, u32)> = requests.iter().map(|&request| (request, 0)).collect();
    let mut script = Script::open(kind, &queues);
    for party in 0..queues.len() {
        script.call(party, Call::Spare, &[]);
    }
    script
}

/// Each power of two, the number before it and the one after, as many in a
/// machine as it has parties and slots for.
fn around_powers() -> Vec<Vec<u64>> {
    let near = |request: u64| (request.saturating_sub(1)..=request + 1).any(|n| n.is_power_of_two());
    let mut machines: Vec<Vec<u64>> = Vec::new();
    let (mut parties, mut slots) = (machine::PARTIES, 0);
    for request in (0..=machine::ITEMS).filter(|&request| near(request)) {
        (parties, slots) = (parties + 1, slots + machine::capacity(request));
        if parties > machine::PARTIES || slots > machine::ITEMS {
            machines.push(Vec::new());
            (parties, slots) = (1, machine::capacity(request));
        }
        machines.last_mut().expect("one was begun").push(request);
    }
    machines
}

fn turnover() -> Script {
    let mut script = Script::open(Kind::Lifo, &[(2, u32::MAX)]);
    script.call(0, Call::Push(7), &[]);
    script.call(0, Call::Push(8), &[]);
    script.call(0, Call::Pop, &[]);
    script
}

/// A machine of three parties, queue 0 filled.
fn three(kind: Kind, capacity: u64, tokens: &[u64]) -> Script {
    let mut script = Script::open(kind, &[(capacity, 0); 3]);
    script.call(0, Call::Extend, tokens);
    script
}

/// Party 1 reads n = 4, party 2 steals 2 and closes, then party 1's CAS.
fn overtaken(kind: Kind, rule: Rule) -> Script {
    let mut script = three(kind, 4, &[1, 2, 3, 4]);
    script.begin(1, Call::Steal(0, rule));
    let before_cas = match kind {
        Kind::Lifo => 6,
        Kind::Fifo => 4,
    };
    script.steps(1, before_cas);
    script.call(2, Call::Steal(0, Rule::Fixed(2)), &[]);
    script.finish(1, &[]);
    script
}

fn itself() -> Script {
    let mut script = Script::open(Kind::Lifo, &[(4, 0)]);
    script.call(0, Call::Extend, &[1, 2, 3]);
    script.call(0, Call::Steal(0, Rule::Fixed(1)), &[]);
    script
}

fn popped_under_booking() -> Script {
    let mut script = three(Kind::Fifo, 4, &[1, 2, 3, 4]);
    script.begin(1, Call::Steal(0, Rule::Fixed(2)));
    script.steps(1, 5);
    script.call(0, Call::Pop, &[]);
    script.call(0, Call::Push(5), &[]);
    script.finish(1, &[]);
    script.call(0, Call::Spare, &[]);
    script
}

/// A push that took the booked head for the head would overwrite token 1.
fn push_beside_booking() -> Script {
    let mut script = three(Kind::Lifo, 2, &[1, 2]);
    script.begin(1, Call::Steal(0, Rule::Fixed(1)));
    script.steps(1, 7);
    script.call(0, Call::Push(3), &[]);
    script.finish(1, &[]);
    script.call(0, Call::Push(4), &[]);
    script
}

fn full_destination(kind: Kind) -> Script {
    let mut script = three(kind, 2, &[1, 2]);
    script.call(1, Call::Extend, &[3, 4]);
    script.call(1, Call::Steal(0, Rule::All), &[]);
    script.call(1, Call::Take(0, Rule::All), &[]);
    script
}

fn half_of_one(kind: Kind) -> Script {
    let mut script = three(kind, 2, &[1]);
    script.call(1, Call::Steal(0, Rule::Half), &[]);
    script.call(1, Call::Take(0, Rule::Half), &[]);
    script.call(0, Call::Drain(Rule::Half), &[]);
    script
}

/// Capacity 1: after token 5 the store is next, and a further token refused.
fn extend_when_full(kind: Kind) -> Script {
    let mut script = Script::open(kind, &[(1, 0)]);
    script.begin(0, Call::Extend);
    let loads = match kind {
        Kind::Lifo => 3,
        Kind::Fifo => 2,
    };
    script.steps(0, loads);
    script.step(0, Mark::Given(5));
    script.step(0, Mark::Given(6));
    script.step(0, Mark::End);
    script.finish(0, &[]);
    script.call(0, Call::Extend, &[7]);
    script
}

fn extend_nothing(kind: Kind) -> Script {
    let mut script = Script::open(kind, &[(2, 0)]);
    script.call(0, Call::Extend, &[]);
    script
}

/// The number is wanted at n = 0 too.
fn given_at_nothing(kind: Kind) -> Script {
    let mut script = Script::open(kind, &[(1, 0); 2]);
    script.begin(0, Call::Drain(Rule::Given));
    let loads = match kind {
        Kind::Lifo => 2,
        Kind::Fifo => 1,
    };
    script.steps(0, loads + 1);
    script.finish(0, &[3]);
    script.call(1, Call::Steal(0, Rule::Given), &[1]);
    script.call(1, Call::Take(0, Rule::Given), &[1]);
    script
}

/// Numbers whose lower half is 0: a cut would make them empty.
fn not_cut(kind: Kind) -> Script {
    let mut script = three(kind, 4, &[1, 2, 3]);
    script.call(1, Call::Steal(0, Rule::Fixed(1 << 32)), &[]);
    script.call(0, Call::Extend, &[4, 5, 6]);
    script.call(2, Call::Take(0, Rule::Given), &[1 << 63]);
    script
}

fn nothing_open(kind: Kind) -> Script {
    let mut script = Script::open(kind, &[(2, 0)]);
    script.call(0, Call::Next, &[]);
    script.call(0, Call::Drop, &[]);
    script.call(0, Call::Extend, &[1]);
    script.call(0, Call::Drain(Rule::All), &[]);
    for _ in 0..2 {
        script.call(0, Call::Next, &[]);
    }
    script.call(0, Call::Drop, &[]);
    script
}

fn drain_beside_drain(kind: Kind) -> Script {
    let mut script = Script::open(kind, &[(4, 0)]);
    script.call(0, Call::Extend, &[1, 2, 3]);
    script.call(0, Call::Drain(Rule::Fixed(2)), &[]);
    script.call(0, Call::Drain(Rule::All), &[]);
    script.call(0, Call::Steal(0, Rule::All), &[]);
    script.call(0, Call::Next, &[]);
    script.call(0, Call::Push(4), &[]);
    script.call(0, Call::Pop, &[]);
    script.call(0, Call::Next, &[]);
    script.call(0, Call::Drain(Rule::All), &[]);
    script
}

fn drain_dropped(kind: Kind) -> Script {
    let mut script = Script::open(kind, &[(4, u32::MAX - 1)]);
    script.call(0, Call::Extend, &[1, 2, 3, 4]);
    script.call(0, Call::Drain(Rule::Fixed(3)), &[]);
    script.call(0, Call::Spare, &[]);
    script.call(0, Call::Drop, &[]);
    script.call(0, Call::Spare, &[]);
    script
}

fn under_way(kind: Kind) -> Script {
    let mut script = three(kind, 2, &[1, 2]);
    script.begin(0, Call::Pop);
    script.steps(0, 3);
    script.begin(1, Call::Steal(0, Rule::All));
    script.steps(1, 1);
    script.begin(2, Call::Push(9));
    script
}

/// At every step of some calls all marks that do not fit, then one that does.
fn marks(kind: Kind) -> Script {
    let mut script = three(kind, 4, &[1, 2, 3]);
    for call in [Call::Push(8), Call::Pop, Call::Extend, Call::Drain(Rule::Given), Call::Next, Call::Drop] {
        script.begin(0, call);
        while let Some(want) = script.want(0) {
            let (wrong, right): (&[Mark], Mark) = match want {
                Want::Bare => (&[Mark::Weak, Mark::End, Mark::Given(9)], Mark::Plain),
                Want::Cas => (&[Mark::End, Mark::Given(9)], Mark::Plain),
                Want::Number => (&[Mark::Plain, Mark::Weak, Mark::End], Mark::Given(2)),
                Want::TokenOrEnd => (&[Mark::Plain, Mark::Weak], Mark::Given(9)),
            };
            for &mark in wrong {
                script.step(0, mark);
            }
            script.step(0, right);
        }
    }
    script
}

/// Each CAS fails once before it succeeds.
fn weak_everywhere(kind: Kind) -> Script {
    let mut script = three(kind, 4, &[1, 2, 3, 4]);
    let calls = [
        (0, Call::Pop),
        (1, Call::Steal(0, Rule::Fixed(1))),
        (2, Call::Take(0, Rule::Fixed(1))),
        (0, Call::Drain(Rule::All)),
        (0, Call::Next),
    ];
    for (party, call) in calls {
        script.begin(party, call);
        let mut failed = false;
        while let Some(want) = script.want(party as usize) {
            let fail = want == Want::Cas && !failed;
            script.step(party, if fail { Mark::Weak } else { Mark::Plain });
            failed = fail || (failed && want != Want::Cas);
        }
    }
    script
}

/// Cases that are about the text alone.
fn texts() -> Vec<(String, Vec<u8>)> {
    let opened = "machine\tlifo\t1\nqueue\t1\t0\n";
    let longest = format!("{}begin\t0\tpush\t{:0107}\n", opened, 7);
    let too_long = format!("{}begin\t0\tpush\t{:0108}\n", opened, 7);
    let cases = [
        ("text-nothing", ""),
        ("text-empty-first-line", "\n"),
        ("text-no-last-newline", "machine\tlifo\t1\nqueue\t1\t0\nbegin\t9\tpop"),
        ("text-ends-in-opening", "machine\tlifo\t2\nqueue\t1\t0\n"),
        ("text-ends-after-opening", "machine\tfifo\t2\nqueue\t1\t0\nqueue\t1\t0"),
        ("text-no-parties", "machine\tlifo\t0\n"),
        ("text-seventeen-parties", "machine\tlifo\t17\nqueue\t1\t0\n"),
        ("text-parties-past-64-bits", "machine\tlifo\t18446744073709551616\n"),
        ("text-third-kind", "machine\tfilo\t1\nqueue\t1\t0\n"),
        ("text-first-request-too-large", "machine\tlifo\t2\nqueue\t2147483649\t0\nqueue\tx\t0\n"),
        ("text-request-past-64-bits", "machine\tlifo\t1\nqueue\t18446744073709551616\t0\n"),
        ("text-position-past-32-bits", "machine\tlifo\t1\nqueue\t1\t4294967296\n"),
        ("text-items-just-enough", "machine\tlifo\t2\nqueue\t2048\t0\nqueue\t2047\t0\n"),
        ("text-one-more-than-the-items", "machine\tlifo\t1\nqueue\t4097\t0\n"),
        ("text-too-many-items", "machine\tlifo\t2\nqueue\t4096\t0\nqueue\t0\t0\nstep\t0\n"),
        ("text-largest-request", "machine\tlifo\t1\nqueue\t2147483648\t0\n"),
        ("text-malformed-before-too-many", "machine\tlifo\t2\nqueue\t4096\t0\nqueue\t1\n"),
        ("text-longest-line", longest.as_str()),
        ("text-too-long-line", too_long.as_str()),
        (
            "text-refused-lines",
            "machine\tfifo\t2\nqueue\t1\t0\nqueue\t1\t0\n\nmachine\tfifo\t2\nqueue\t1\t0\nstep\t0\r\nstep\t0\t\n\
             step\t\t0\nstep\t0\tweak\t\nbegin\t0\tpush\nbegin\t0\tpush\t18446744073709551616\n\
             begin\t0\tpush\t+1\nbegin\t0\tsteal\t1\nbegin\t0\tsteal\t1\tfixed\nbegin\t0\tsteal\t2\tall\n\
             begin\t0\ttake\t18446744073709551615\thalf\nbegin\t2\tpop\nbegin\t18446744073709551615\tpop\n\
             step\t2\nstep\t0\nbegin\t0\tpop\nbegin\t0\tpop\nbegin\t0\tsteal\t7\tall\nstep\t0\tgiven\t1\n\
             step\t0\tend\nstep\t0\tweak\nstep\t000\nstep\t1\nbegin 0 pop\n\tstep\t0\n",
        ),
    ];
    cases.iter().map(|&(name, text)| (name.to_string(), text.as_bytes().to_vec())).collect()
}
