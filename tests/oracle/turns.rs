//! Atomics and cells whose every access waits for a turn.
//!
//! Each party runs the queues' code on a thread of its own. At an access the
//! thread reports what it is about to do and sleeps; the driver wakes it with
//! a turn, the thread makes that one access, runs on to the next and reports
//! again, or comes back with an answer. Only one thread is ever awake, so the
//! run is exactly the schedule's.
//!
//! Words and slots live in tables here, not in the queues, so that the driver
//! can set them at the opening and read them after each step. There is one
//! machine at a time.

use std::cell::{Cell, UnsafeCell as CoreCell};
use std::marker::PhantomData;
use std::sync::atomic::{AtomicU64 as CoreU64, AtomicUsize, Ordering, Ordering::SeqCst};
use std::sync::{Condvar, Mutex};

pub const PARTIES: usize = 16;
pub const ITEMS: usize = 4096;

/// A queue's words: push count or tail, packed, and LIFO's completed head.
#[derive(Clone, Copy, PartialEq, Eq, Debug)]
pub enum Word {
    Count,
    Packed,
    Done,
}

const WORDS: usize = 3;

/// What a party is about to do.
#[derive(Clone, Copy, PartialEq, Eq, Debug)]
pub enum Access {
    Load(Word),
    Store,
    Cas,
    Read,
    Write,
    /// Extend's iterator is asked for a token; the write belongs to it.
    Token,
    /// A step of the tables that the queues have no access for.
    Nothing,
}

#[derive(Clone, Copy, PartialEq, Eq, Debug)]
pub enum Turn {
    Plain,
    /// The compare-and-exchange fails whatever it finds.
    Weak,
    Given(u64),
    End,
    /// The schedule is over: finish the call without further turns.
    Free,
}

pub enum Report {
    Waiting(Access),
    Answer(String),
}

/// Messages in order; the taker sleeps until there is one.
pub struct Mailbox<T> {
    letters: Mutex<Vec<T>>,
    bell: Condvar,
}

impl<T> Mailbox<T> {
    pub const fn new() -> Self {
        Mailbox { letters: Mutex::new(Vec::new()), bell: Condvar::new() }
    }

    pub fn put(&self, letter: T) {
        self.letters.lock().unwrap().push(letter);
        self.bell.notify_one();
    }

    pub fn take(&self) -> T {
        let mut letters = self.letters.lock().unwrap();
        while letters.is_empty() {
            letters = self.bell.wait(letters).unwrap();
        }
        letters.remove(0)
    }
}

/// What goes between the driver and one party during a call.
pub struct Desk {
    pub turns: Mailbox<Turn>,
    pub reports: Mailbox<Report>,
}

#[allow(clippy::declare_interior_mutable_const)]
const DESK: Desk = Desk { turns: Mailbox::new(), reports: Mailbox::new() };
pub static DESKS: [Desk; PARTIES] = [DESK; PARTIES];

#[allow(clippy::declare_interior_mutable_const)]
const ZERO: CoreU64 = CoreU64::new(0);
static WORD_TABLE: [CoreU64; PARTIES * WORDS] = [ZERO; PARTIES * WORDS];

struct Items(CoreCell<[u64; ITEMS]>);
// Only the one thread that is awake touches the items, and waking goes
// through a mutex.
unsafe impl Sync for Items {}
static ITEM_TABLE: Items = Items(CoreCell::new([0; ITEMS]));

fn word_index(queue: usize, word: Word) -> usize {
    queue * WORDS + word as usize
}

fn item_pointer(index: usize) -> *mut u64 {
    assert!(index < ITEMS);
    unsafe { ITEM_TABLE.0.get().cast::<u64>().add(index) }
}

/// A word as it stands; for the driver while all parties sleep.
pub fn word(queue: usize, word: Word) -> u64 {
    WORD_TABLE[word_index(queue, word)].load(SeqCst)
}

/// An item as it stands; for the driver while all parties sleep.
pub fn item(index: usize) -> u64 {
    unsafe { item_pointer(index).read() }
}

// Opening: the queues' constructors ask for their words and slots in the
// order of their source, and get the places and first values noted here.

static OPENING_QUEUE: AtomicUsize = AtomicUsize::new(0);
static OPENING_SHORTS: AtomicUsize = AtomicUsize::new(0);
static OPENING_SHORT: CoreU64 = CoreU64::new(0);
static OPENING_LONG: CoreU64 = CoreU64::new(0);
static OPENING_ITEMS: AtomicUsize = AtomicUsize::new(0);

/// A new machine: items are handed out from the first again, words are 0.
pub fn open_machine() {
    OPENING_ITEMS.store(0, SeqCst);
    for word in &WORD_TABLE {
        word.store(0, SeqCst);
    }
}

/// The next queue made is `queue`: its short words begin as `short`, its long
/// word as `long`.
pub fn open_queue(queue: usize, short: u32, long: u64) {
    OPENING_QUEUE.store(queue, SeqCst);
    OPENING_SHORTS.store(0, SeqCst);
    OPENING_SHORT.store(short as u64, SeqCst);
    OPENING_LONG.store(long, SeqCst);
}

// What a party's thread knows about itself.
thread_local! {
    static PARTY: Cell<Option<usize>> = Cell::new(None);
    static FREE: Cell<bool> = Cell::new(false);
    /// Turns taken by the call under way.
    static TURNS: Cell<u64> = Cell::new(0);
    /// The number that came with the latest turn.
    static GIVEN: Cell<u64> = Cell::new(0);
    /// The call's latest loads of its words.
    static SEEN: Cell<[u64; WORDS]> = Cell::new([0; WORDS]);
    static TOKEN: Cell<Token> = Cell::new(Token::Settled);
}

/// The token that extend took out of its iterator.
#[derive(Clone, Copy, PartialEq, Eq, Debug)]
enum Token {
    /// Written, or none taken.
    Settled,
    /// Taken with a turn; its write needs no turn of its own.
    ToWrite,
    /// Taken without a turn because no room is left; must not be written.
    ToLose,
}

/// The calling thread is the party's from now on.
pub fn be_party(party: usize) {
    PARTY.with(|p| p.set(Some(party)));
}

/// A call begins on this party's thread.
pub fn call_begins() {
    FREE.with(|free| free.set(false));
    TURNS.with(|turns| turns.set(0));
    TOKEN.with(|token| token.set(Token::Settled));
}

/// From here to the next call the thread's accesses wait for nobody.
pub fn run_free() {
    FREE.with(|free| free.set(true));
}

/// Whether the call made no access so far.
pub fn untouched() -> bool {
    TURNS.with(Cell::get) == 0
}

/// The number that came with the latest turn.
pub fn given() -> u64 {
    GIVEN.with(Cell::get)
}

/// The call's latest load of `word`.
pub fn seen(word: Word) -> u64 {
    SEEN.with(|seen| seen.get()[word as usize])
}

/// Waits for a turn. Threads that are no party's, and free ones, never wait.
pub fn take_turn(access: Access) -> Turn {
    let party = match PARTY.with(Cell::get) {
        Some(party) if !FREE.with(Cell::get) => party,
        _ => return Turn::Free,
    };
    assert!(TOKEN.with(Cell::get) != Token::ToWrite, "a token was taken and not written");
    TOKEN.with(|token| token.set(Token::Settled));
    TURNS.with(|turns| turns.set(turns.get() + 1));
    DESKS[party].reports.put(Report::Waiting(access));
    let turn = DESKS[party].turns.take();
    match turn {
        Turn::Given(number) => GIVEN.with(|given| given.set(number)),
        Turn::Free => run_free(),
        _ => {}
    }
    turn
}

/// Extend's iterator hands out a token with a turn: the write comes with it.
pub fn token_to_write() {
    TOKEN.with(|token| token.set(Token::ToWrite));
}

/// Extend's iterator hands out a token that the queue has no room for.
pub fn token_to_lose() {
    TOKEN.with(|token| token.set(Token::ToLose));
}

fn load(place: usize) -> u64 {
    let word = [Word::Count, Word::Packed, Word::Done][place % WORDS];
    take_turn(Access::Load(word));
    let value = WORD_TABLE[place].load(SeqCst);
    SEEN.with(|seen| {
        let mut all = seen.get();
        all[word as usize] = value;
        seen.set(all);
    });
    value
}

/// Stands for both of a queue's short words; which, is told by the order in
/// which they are made.
#[derive(Debug)]
pub struct AtomicU32 {
    place: usize,
}

impl AtomicU32 {
    pub fn new(value: u32) -> Self {
        assert_eq!(value, 0, "the queues' own first value");
        let word = match OPENING_SHORTS.fetch_add(1, SeqCst) {
            0 => Word::Count,
            _ => Word::Done,
        };
        let place = word_index(OPENING_QUEUE.load(SeqCst), word);
        WORD_TABLE[place].store(OPENING_SHORT.load(SeqCst), SeqCst);
        AtomicU32 { place }
    }

    pub fn load(&self, _: Ordering) -> u32 {
        load(self.place) as u32
    }

    pub fn store(&self, value: u32, _: Ordering) {
        take_turn(Access::Store);
        WORD_TABLE[self.place].store(value as u64, SeqCst);
    }
}

/// A queue's packed word.
#[derive(Debug)]
pub struct AtomicU64 {
    place: usize,
}

impl AtomicU64 {
    pub fn new(value: u64) -> Self {
        assert_eq!(value, 0, "the queues' own first value");
        let place = word_index(OPENING_QUEUE.load(SeqCst), Word::Packed);
        WORD_TABLE[place].store(OPENING_LONG.load(SeqCst), SeqCst);
        AtomicU64 { place }
    }

    pub fn load(&self, _: Ordering) -> u64 {
        load(self.place)
    }

    pub fn compare_exchange_weak(&self, current: u64, new: u64, _: Ordering, _: Ordering) -> Result<u64, u64> {
        let word = &WORD_TABLE[self.place];
        match take_turn(Access::Cas) {
            Turn::Weak => Err(word.load(SeqCst)),
            _ => word.compare_exchange(current, new, SeqCst, SeqCst),
        }
    }
}

/// A slot. It begins as 0 whatever it is made of, as the lent items do.
#[derive(Debug)]
pub struct UnsafeCell<T> {
    index: usize,
    content: PhantomData<CoreCell<T>>,
}

impl<T> UnsafeCell<T> {
    pub fn new(_: T) -> Self {
        assert_eq!(std::mem::size_of::<T>(), std::mem::size_of::<u64>());
        let index = OPENING_ITEMS.fetch_add(1, SeqCst);
        unsafe { item_pointer(index).write(0) };
        UnsafeCell { index, content: PhantomData }
    }

    pub fn with<R>(&self, f: impl FnOnce(*const T) -> R) -> R {
        take_turn(Access::Read);
        f(item_pointer(self.index).cast::<T>())
    }

    pub fn with_mut<R>(&self, f: impl FnOnce(*mut T) -> R) -> R {
        match TOKEN.with(|token| token.replace(Token::Settled)) {
            Token::Settled => {
                take_turn(Access::Write);
            }
            Token::ToWrite => {}
            Token::ToLose => panic!("a token was written where no room is left"),
        }
        f(item_pointer(self.index).cast::<T>())
    }
}
