//! Shows, on the unchanged Rust as it is, each point where document 01's
//! tables cannot be put in step with it; how the oracle bridges each is said
//! in oracle.rs. Fails if the Rust does otherwise than said here.

use std::cell::Cell;

/// An iterator that counts what is taken out of it.
struct Counted<'a> {
    tokens: std::ops::RangeInclusive<u64>,
    taken: &'a Cell<u32>,
}

impl Iterator for Counted<'_> {
    type Item = u64;

    fn next(&mut self) -> Option<u64> {
        let token = self.tokens.next()?;
        self.taken.set(self.taken.get() + 1);
        Some(token)
    }
}

macro_rules! differences {
    ($kind:ident) => {
        // Extend takes a token out of its iterator before it sees that the
        // queue is full; that one is lost. The tables go on to the store.
        let worker = st3::$kind::Worker::<u64>::new(1);
        let taken = Cell::new(0);
        worker.extend(Counted { tokens: 5..=9, taken: &taken });
        assert_eq!((taken.get(), worker.pop(), worker.pop()), (2, Some(5), None));

        // The closure is not asked at n = 0, where the tables still want the
        // number of the rule given.
        let asked = Cell::new(0);
        let ask = |n: usize| {
            asked.set(asked.get() + 1);
            n
        };
        assert!(worker.drain(ask).is_err());
        assert!(worker.stealer().steal(&worker, ask).is_err());
        assert_eq!(asked.get(), 0);

        // A drain that gave its last token says None, and its drop does
        // nothing; before the first drain there is nothing to ask at all. The
        // tables answer done and closed by a step that touches nothing.
        worker.push(1).unwrap();
        let mut drain = worker.drain(|n| n).unwrap();
        assert_eq!((drain.next(), drain.next()), (Some(1), None));
        drop(drain);

        // A request above 2^31 is a panic, where the tables refuse with 7.
        let made = std::panic::catch_unwind(|| st3::$kind::Worker::<u64>::new((1 << 31) + 1));
        assert!(made.is_err());
    };
}

fn main() {
    std::panic::set_hook(Box::new(|panic| {
        if !panic.to_string().contains("capacity of the queue cannot exceed") {
            eprintln!("{}", panic);
        }
    }));
    differences!(lifo);
    differences!(fifo);
    println!("the Rust differs from the tables where and as it is said to");
}
