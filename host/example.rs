//! Document 01's "One run whole" by the Rust module, then what a host could do wrong. Prints host/example.out.

use ragnulois::{Answer, Call, Kind, Machine, Mark, Refusal};

/// The answers that this run has.
fn print_answer(answer: Answer) {
    match answer {
        Answer::Pushed => println!("answer\t0\tpushed"),
        Answer::Full(token) => println!("answer\t0\tfull\t{token}"),
        Answer::Popped(token) => println!("answer\t0\tpopped\t{token}"),
        _ => {}
    }
}

fn whole_call(machine: &mut Machine, call: Call, steps: u32) -> Result<(), Refusal> {
    machine.begin(0, call)?;
    for _ in 0..steps {
        print_answer(machine.step(0, Mark::Plain)?.answer);
    }
    Ok(())
}

fn print_rest(machine: &Machine) {
    print!("rest\t0");
    for token in machine.tokens(0) {
        print!("\t{token}");
    }
    println!();
}

fn one_run() -> Result<Machine, Refusal> {
    let mut machine = Machine::open(Kind::Lifo, &[(0, 0)], vec![0])?;
    whole_call(&mut machine, Call::Push(7), 5)?;
    whole_call(&mut machine, Call::Push(8), 3)?;
    whole_call(&mut machine, Call::Pop, 4)?;
    print_rest(&machine);
    Ok(machine)
}

fn print_refused<T>(what: &str, tried: Result<T, Refusal>) {
    println!("refused\t{what}\t{}", tried.err().map_or(0, Refusal::number));
}

/// Each is refused, and leaves the machine as it was.
fn wrong_uses(machine: &mut Machine) {
    let block = machine.block().to_vec();
    let items = machine.items().to_vec();
    let mut other = block.clone();
    other[0] += 1;
    print_refused("zeros for a block", Machine::resume(&vec![0; block.len()], items.clone()));
    print_refused("a block with another seal", Machine::resume(&other, items.clone()));
    print_refused("a block one word short", Machine::resume(&block[..block.len() - 1], items.clone()));
    print_refused("items one short", Machine::resume(&block, items[1..].to_vec()));
    print_refused("party 1 of 1", machine.begin(1, Call::Pop));
    print_refused("call 10", machine.begin_numbered(0, 10, 0, 0, 0));
}

fn main() -> Result<(), Refusal> {
    let mut machine = one_run()?;
    let before = machine.clone();
    wrong_uses(&mut machine);
    assert_eq!(machine, before);
    println!("unchanged");
    Ok(())
}
