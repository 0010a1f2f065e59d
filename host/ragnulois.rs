//! The work-stealing machine of libhost.a for Rust. docs/HOST.md says what is proved of the library; ragnulois.h has the same
//! functions for C.
//!
//! A `Machine` owns its block and its items, so the slices of a call are valid and apart from each other, which is all that
//! the library asks of a caller. It tests the rest itself: any number here is safe, and gets a result or a refusal.

/// The library as it is linked: a slice is a pointer, not null, and a length in elements.
mod library {
    extern "C" {
        pub fn ragnulois_words() -> u64;
        pub fn ragnulois_open(
            block: *mut u64,
            words: usize,
            kind: u64,
            parties: u64,
            requests: *const u64,
            request_count: usize,
            positions: *const u32,
            position_count: usize,
            items: *const u64,
            lent: usize,
        ) -> u8;
        pub fn ragnulois_begin(
            block: *mut u64,
            words: usize,
            items: *mut u64,
            lent: usize,
            party: u64,
            call: u64,
            source: u64,
            rule: u64,
            number: u64,
        ) -> u8;
        pub fn ragnulois_step(
            block: *mut u64,
            words: usize,
            items: *mut u64,
            lent: usize,
            party: u64,
            mark: u64,
            number: u64,
        ) -> u8;
        pub fn ragnulois_run_alone(
            block: *mut u64,
            words: usize,
            items: *mut u64,
            lent: usize,
            party: u64,
            budget: u64,
        ) -> u8;
        pub fn ragnulois_parties(block: *const u64, words: usize) -> u64;
        pub fn ragnulois_word(block: *const u64, words: usize, queue: u64, which: u64) -> u64;
        pub fn ragnulois_reply(block: *const u64, words: usize, which: u64) -> u64;
        pub fn ragnulois_resting(block: *const u64, words: usize, queue: u64) -> u64;
        pub fn ragnulois_token(
            block: *const u64,
            words: usize,
            items: *const u64,
            lent: usize,
            queue: u64,
            i: u64,
        ) -> u64;
    }
}

#[derive(Clone, Copy, Debug, PartialEq, Eq)]
pub enum Kind {
    Lifo = 0,
    Fifo = 1,
}

/// How many of those that rest a booking asks for.
#[derive(Clone, Copy, Debug, PartialEq, Eq)]
pub enum Rule {
    All,
    Half,
    Fixed(u64),
    /// The step that reads the count carries the number.
    Given,
}

#[derive(Clone, Copy, Debug, PartialEq, Eq)]
pub enum Call {
    Push(u64),
    Extend,
    Spare,
    Steal { source: u64, rule: Rule },
    Take { source: u64, rule: Rule },
    Drain(Rule),
    Next,
    Drop,
    Pop,
    Empty,
}

#[derive(Clone, Copy, Debug, PartialEq, Eq)]
pub enum Mark {
    Plain,
    /// The CAS fails anyway.
    Weak,
    /// The number or token that the step wants.
    Given(u64),
    End,
}

#[derive(Clone, Copy, Debug, PartialEq, Eq)]
pub enum Answer {
    /// The call is still under way.
    Pending,
    Pushed,
    Full(u64),
    Popped(u64),
    None,
    Extended(u64),
    Stolen(u64),
    Taken {
        token: u64,
        count: u64,
    },
    Drain(u64),
    Item(u64),
    Done,
    Closed,
    Busy,
    Empty,
    Spare(u64),
    Yes,
    No,
}

#[derive(Clone, Copy, Debug, PartialEq, Eq)]
pub enum Change {
    Nothing,
    Offered(u64),
    Accepted,
    Popped,
    Booked(u64),
    Landed(u64),
    /// As many landed, and one more is in hand.
    TakeLanded(u64),
    Drained,
    Dropped(u64),
    Closed,
}

#[derive(Clone, Copy, Debug, PartialEq, Eq)]
pub struct Effect {
    pub party: u64,
    pub queue: u64,
    pub change: Change,
}

/// What a step or a run alone came to.
#[derive(Clone, Debug, PartialEq, Eq)]
pub struct Outcome {
    pub answer: Answer,
    /// The steps of a run alone.
    pub steps: u64,
    /// Three at most.
    pub effects: Vec<Effect>,
}

/// The words of a queue, as the tables name them.
#[derive(Clone, Copy, Debug, PartialEq, Eq)]
pub struct Words {
    pub capacity: u64,
    pub pushes: u64,
    pub packed: u64,
    pub completed: u64,
}

#[derive(Clone, Copy, Debug, PartialEq, Eq)]
pub enum Refusal {
    /// No block, or words that no machine has, or too few items for it; opening: no 1 to 16 parties.
    Machine = 1,
    Party = 2,
    UnderWay = 3,
    NoCall = 4,
    Source = 5,
    Mark = 6,
    Request = 7,
    Lent = 8,
    /// A number that is no call, rule or mark: none of document 01's refusals.
    Malformed = 100,
}

impl Refusal {
    pub fn number(self) -> u8 {
        self as u8
    }
}

impl std::fmt::Display for Refusal {
    fn fmt(&self, f: &mut std::fmt::Formatter) -> std::fmt::Result {
        write!(f, "refused with {}", self.number())
    }
}

impl std::error::Error for Refusal {}

/// The library returns 0 to 8, or 100.
fn refused(number: u8) -> Result<(), Refusal> {
    Err(match number {
        0 => return Ok(()),
        1 => Refusal::Machine,
        2 => Refusal::Party,
        3 => Refusal::UnderWay,
        4 => Refusal::NoCall,
        5 => Refusal::Source,
        6 => Refusal::Mark,
        7 => Refusal::Request,
        8 => Refusal::Lent,
        _ => Refusal::Malformed,
    })
}

/// A rule's number, and the number that a fixed one has.
fn rule_numbers(rule: Rule) -> (u64, u64) {
    match rule {
        Rule::All => (0, 0),
        Rule::Half => (1, 0),
        Rule::Fixed(number) => (2, number),
        Rule::Given => (3, 0),
    }
}

/// The call, its source, its rule and its number.
fn call_numbers(call: Call) -> (u64, u64, u64, u64) {
    let ruled = |call, source, rule| {
        let (rule, number) = rule_numbers(rule);
        (call, source, rule, number)
    };
    match call {
        Call::Push(token) => (0, 0, 0, token),
        Call::Extend => (1, 0, 0, 0),
        Call::Spare => (2, 0, 0, 0),
        Call::Steal { source, rule } => ruled(3, source, rule),
        Call::Take { source, rule } => ruled(4, source, rule),
        Call::Drain(rule) => ruled(5, 0, rule),
        Call::Next => (6, 0, 0, 0),
        Call::Drop => (7, 0, 0, 0),
        Call::Pop => (8, 0, 0, 0),
        Call::Empty => (9, 0, 0, 0),
    }
}

fn mark_numbers(mark: Mark) -> (u64, u64) {
    match mark {
        Mark::Plain => (0, 0),
        Mark::Weak => (1, 0),
        Mark::Given(number) => (2, number),
        Mark::End => (3, 0),
    }
}

/// An answer is numbered 0 to 16; a number past them would be no answer.
fn answer_of(number: u64, token: u64, count: u64) -> Answer {
    match number {
        1 => Answer::Pushed,
        2 => Answer::Full(token),
        3 => Answer::Popped(token),
        4 => Answer::None,
        5 => Answer::Extended(count),
        6 => Answer::Stolen(count),
        7 => Answer::Taken { token, count },
        8 => Answer::Drain(count),
        9 => Answer::Item(token),
        10 => Answer::Done,
        11 => Answer::Closed,
        12 => Answer::Busy,
        13 => Answer::Empty,
        14 => Answer::Spare(count),
        15 => Answer::Yes,
        16 => Answer::No,
        _ => Answer::Pending,
    }
}

/// A change is numbered 0 to 9; a number past them would be none.
fn change_of(number: u64, value: u64) -> Change {
    match number {
        1 => Change::Offered(value),
        2 => Change::Accepted,
        3 => Change::Popped,
        4 => Change::Booked(value),
        5 => Change::Landed(value),
        6 => Change::TakeLanded(value),
        7 => Change::Drained,
        8 => Change::Dropped(value),
        9 => Change::Closed,
        _ => Change::Nothing,
    }
}

/// Its block's words are the library's own, from `open` or from a block that `resume` had tested.
#[derive(Clone, Debug, PartialEq, Eq)]
pub struct Machine {
    block: Vec<u64>,
    items: Vec<u64>,
}

impl Machine {
    /// A fresh machine with a party for each (request, position). Opening writes no item.
    pub fn open(kind: Kind, queues: &[(u64, u32)], items: Vec<u64>) -> Result<Machine, Refusal> {
        let (requests, positions): (Vec<u64>, Vec<u32>) = queues.iter().copied().unzip();
        let words = unsafe { library::ragnulois_words() };
        let mut block = vec![0; words as usize];
        let number = unsafe {
            library::ragnulois_open(
                block.as_mut_ptr(),
                block.len(),
                kind as u64,
                queues.len() as u64,
                requests.as_ptr(),
                requests.len(),
                positions.as_ptr(),
                positions.len(),
                items.as_ptr(),
                items.len(),
            )
        };
        refused(number).map(|()| Machine { block, items })
    }

    /// A machine from a block that was kept, with its items. Refusal 1 is tested before all others, so a begin that must be
    /// refused tells a block by any other refusal.
    pub fn resume(block: &[u64], items: Vec<u64>) -> Result<Machine, Refusal> {
        let mut machine = Machine { block: block.to_vec(), items };
        match machine.begin(u64::MAX, Call::Empty) {
            Err(Refusal::Machine) => Err(Refusal::Machine),
            _ => Ok(machine),
        }
    }

    /// Begins a call; it makes no access yet.
    pub fn begin(&mut self, party: u64, call: Call) -> Result<(), Refusal> {
        let (call, source, rule, number) = call_numbers(call);
        self.begin_numbered(party, call, source, rule, number)
    }

    /// Begins a call by the numbers of ragnulois.h; those that name nothing are malformed.
    pub fn begin_numbered(
        &mut self,
        party: u64,
        call: u64,
        source: u64,
        rule: u64,
        number: u64,
    ) -> Result<(), Refusal> {
        refused(unsafe {
            library::ragnulois_begin(
                self.block.as_mut_ptr(),
                self.block.len(),
                self.items.as_mut_ptr(),
                self.items.len(),
                party,
                call,
                source,
                rule,
                number,
            )
        })
    }

    /// One step of the call that the party has under way.
    pub fn step(&mut self, party: u64, mark: Mark) -> Result<Outcome, Refusal> {
        let (mark, number) = mark_numbers(mark);
        refused(unsafe {
            library::ragnulois_step(
                self.block.as_mut_ptr(),
                self.block.len(),
                self.items.as_mut_ptr(),
                self.items.len(),
                party,
                mark,
                number,
            )
        })
        .map(|()| self.outcome())
    }

    /// Steps a party until its answer, until a step wants a number or an end, or until the budget is used up.
    pub fn run_alone(&mut self, party: u64, budget: u64) -> Result<Outcome, Refusal> {
        refused(unsafe {
            library::ragnulois_run_alone(
                self.block.as_mut_ptr(),
                self.block.len(),
                self.items.as_mut_ptr(),
                self.items.len(),
                party,
                budget,
            )
        })
        .map(|()| self.outcome())
    }

    pub fn parties(&self) -> u64 {
        unsafe { library::ragnulois_parties(self.block.as_ptr(), self.block.len()) }
    }

    /// A queue's words; zeros where there is no such queue.
    pub fn words(&self, queue: u64) -> Words {
        let word = |which| unsafe { library::ragnulois_word(self.block.as_ptr(), self.block.len(), queue, which) };
        Words { capacity: word(0), pushes: word(1), packed: word(2), completed: word(3) }
    }

    /// How many tokens rest in a queue.
    pub fn resting(&self, queue: u64) -> u64 {
        unsafe { library::ragnulois_resting(self.block.as_ptr(), self.block.len(), queue) }
    }

    /// The tokens that rest in a queue, head first. They are read as they are asked for: a block that was resumed may hold any
    /// head and tail.
    pub fn tokens(&self, queue: u64) -> impl Iterator<Item = u64> + '_ {
        (0..self.resting(queue)).map(move |i| self.token(queue, i))
    }

    /// The lent items: queue 0's slots first, then queue 1's, with no gaps.
    pub fn items(&self) -> &[u64] {
        &self.items
    }

    /// The block, to be kept and resumed.
    pub fn block(&self) -> &[u64] {
        &self.block
    }

    fn token(&self, queue: u64, i: u64) -> u64 {
        unsafe {
            library::ragnulois_token(
                self.block.as_ptr(),
                self.block.len(),
                self.items.as_ptr(),
                self.items.len(),
                queue,
                i,
            )
        }
    }

    fn reply(&self, which: u64) -> u64 {
        unsafe { library::ragnulois_reply(self.block.as_ptr(), self.block.len(), which) }
    }

    fn effect(&self, at: u64) -> Effect {
        Effect {
            party: self.reply(at),
            queue: self.reply(at + 1),
            change: change_of(self.reply(at + 2), self.reply(at + 3)),
        }
    }

    /// What the last act replied. A reply has room for three effects.
    fn outcome(&self) -> Outcome {
        Outcome {
            answer: answer_of(self.reply(0), self.reply(1), self.reply(2)),
            steps: self.reply(3),
            effects: (0..self.reply(4).min(3)).map(|i| self.effect(5 + 4 * i)).collect(),
        }
    }
}
