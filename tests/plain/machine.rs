//! Document 01's access tables, written straight as a state machine.
//!
//! One call of `Machine::step` is one line of a table. Nothing here is taken
//! from the Rust queues; the oracle in `../oracle` runs those.

/// The largest number of parties.
pub const PARTIES: u64 = 16;
/// The number of item slots that the program has.
pub const ITEMS: u64 = 4096;
/// The largest request and the largest capacity.
pub const LARGEST: u64 = 1 << 31;

#[derive(Clone, Copy, PartialEq, Eq, Debug)]
pub enum Kind {
    Lifo,
    Fifo,
}

#[derive(Clone, Copy, PartialEq, Eq, Debug)]
pub enum Rule {
    All,
    Half,
    Fixed(u64),
    Given,
}

/// A call with its arguments; sources are as written, judged by `begin`.
#[derive(Clone, Copy, PartialEq, Eq, Debug)]
pub enum Call {
    Push(u64),
    Extend,
    Pop,
    Steal(u64, Rule),
    Take(u64, Rule),
    Drain(Rule),
    Next,
    Drop,
    Spare,
    Empty,
}

/// What a step line carries beside its party.
#[derive(Clone, Copy, PartialEq, Eq, Debug)]
pub enum Mark {
    Plain,
    Weak,
    Given(u64),
    End,
}

#[derive(Clone, Copy, PartialEq, Eq, Debug)]
pub enum Answer {
    Pushed,
    Full(u64),
    Popped(u64),
    None,
    Extended(u32),
    Stolen(u32),
    Taken(u64, u32),
    Drain(u32),
    Item(u64),
    Done,
    Closed,
    Busy,
    Empty,
    Spare(u32),
    Yes,
    No,
}

/// What the next step of a call wants of its mark.
#[derive(Clone, Copy, PartialEq, Eq, Debug)]
pub enum Want {
    /// Nothing beside the party.
    Bare,
    /// Nothing, or `weak`.
    Cas,
    /// The number of the rule `given`.
    Number,
    /// A token for extend, or `end`.
    TokenOrEnd,
}

/// The access that a party makes next.
#[derive(Clone, Copy, PartialEq, Eq, Debug)]
enum Place {
    Idle,
    /// Loads of the own queue: push, extend, spare, empty, and the
    /// destination of steal and take.
    OwnCount,
    OwnPacked,
    OwnDone,
    PushWrite,
    PushStore,
    ExtendWrite,
    ExtendStore,
    PopPacked,
    PopCount,
    PopCas,
    PopRead,
    BookPacked,
    BookDone,
    BookCount,
    BookCas,
    MoveRead,
    MoveWrite,
    LastRead,
    Land,
    CloseLoad,
    /// A store in LIFO, a CAS in FIFO.
    Close,
    DrainRead,
    /// Next or drop with nothing open: a step that touches nothing.
    Nothing,
}

/// A party: the call under way, where it stands, what it remembers.
#[derive(Clone, Copy, Debug)]
struct Party {
    place: Place,
    call: Call,
    /// The queue that is booked: the source, or the own queue for a drain.
    source: usize,
    /// The own queue as loaded: count, packed, and from these tail and head.
    own_count: u32,
    own_packed: u64,
    own_tail: u32,
    own_head: u32,
    /// The packed and completed head that a pop, booking or closing compares.
    packed: u64,
    done: u32,
    /// The most that a booking may take.
    limit: u32,
    /// Tokens written by extend, or items moved by steal and take.
    moved: u32,
    /// First position booked, and how many.
    from: u32,
    booked: u32,
    /// The item read and not yet put down.
    item: u64,
    /// The open drain: positions not yet read; open exactly when they differ.
    drain_at: u32,
    drain_end: u32,
}

const IDLE: Party = Party {
    place: Place::Idle,
    call: Call::Empty,
    source: 0,
    own_count: 0,
    own_packed: 0,
    own_tail: 0,
    own_head: 0,
    packed: 0,
    done: 0,
    limit: 0,
    moved: 0,
    from: 0,
    booked: 0,
    item: 0,
    drain_at: 0,
    drain_end: 0,
};

/// A queue's words and where its stretch of the items begins.
#[derive(Clone, Copy, Debug)]
pub struct Queue {
    pub capacity: u32,
    /// Push count (LIFO) or tail (FIFO).
    pub count: u32,
    /// (pop count, booked head) or (worker head, stealer head).
    pub packed: u64,
    /// Completed head (LIFO); 0 in FIFO.
    pub done: u32,
    base: usize,
}

#[derive(Clone, Debug)]
pub struct Machine {
    kind: Kind,
    parties: Vec<Party>,
    queues: Vec<Queue>,
    items: Vec<u64>,
}

fn pack(high: u32, low: u32) -> u64 {
    (high as u64) << 32 | low as u64
}

fn high(packed: u64) -> u32 {
    (packed >> 32) as u32
}

fn low(packed: u64) -> u32 {
    packed as u32
}

/// The capacity for a request that is at most `LARGEST`.
pub fn capacity(request: u64) -> u64 {
    request.next_power_of_two()
}

impl Queue {
    fn open(kind: Kind, request: u64, position: u32, base: usize) -> Queue {
        let (packed, done) = match kind {
            Kind::Lifo => (pack(0, position), position),
            Kind::Fifo => (pack(position, position), 0),
        };
        Queue { capacity: capacity(request) as u32, count: position, packed, done, base }
    }

    fn place(&self, position: u32) -> usize {
        self.base + (position & (self.capacity - 1)) as usize
    }
}

impl Machine {
    /// Opens a machine; the requests were judged by the caller.
    pub fn open(kind: Kind, queues: &[(u64, u32)]) -> Machine {
        let mut opened = Vec::new();
        let mut base = 0;
        for &(request, position) in queues {
            opened.push(Queue::open(kind, request, position, base));
            base += capacity(request) as usize;
        }
        Machine { kind, parties: vec![IDLE; queues.len()], queues: opened, items: vec![0; base] }
    }

    pub fn queues(&self) -> &[Queue] {
        &self.queues
    }

    /// The slots of queue `q`, by slot number.
    pub fn slots(&self, q: usize) -> &[u64] {
        let queue = &self.queues[q];
        &self.items[queue.base..queue.base + queue.capacity as usize]
    }

    /// The resting tokens of queue `q`, head first, read off the words.
    pub fn resting(&self, q: usize) -> impl Iterator<Item = u64> + '_ {
        let queue = &self.queues[q];
        let (head, tail) = self.stretch(queue);
        (0..tail.wrapping_sub(head)).map(move |i| self.items[queue.place(head.wrapping_add(i))])
    }

    /// Head and tail of what may be popped or booked.
    fn stretch(&self, queue: &Queue) -> (u32, u32) {
        match self.kind {
            Kind::Lifo => (low(queue.packed), queue.count.wrapping_sub(high(queue.packed))),
            Kind::Fifo => (high(queue.packed), queue.count),
        }
    }

    fn number(&self, party: u64) -> Option<usize> {
        if party < self.parties.len() as u64 {
            Some(party as usize)
        } else {
            None
        }
    }

    /// What the party's next step wants, if it has a call under way.
    pub fn want(&self, party: usize) -> Option<Want> {
        let p = &self.parties[party];
        match p.place {
            Place::Idle => None,
            Place::ExtendWrite => Some(Want::TokenOrEnd),
            Place::BookCount if rule(p.call) == Rule::Given => Some(Want::Number),
            Place::PopCas | Place::BookCas => Some(Want::Cas),
            Place::Close if self.kind == Kind::Fifo => Some(Want::Cas),
            _ => Some(Want::Bare),
        }
    }

    /// Whether the party has an open drain.
    pub fn draining(&self, party: usize) -> bool {
        self.parties[party].drain_at != self.parties[party].drain_end
    }

    pub fn begin(&mut self, party: u64, call: Call) -> Result<(), u8> {
        let p = self.number(party).ok_or(2)?;
        if self.parties[p].place != Place::Idle {
            return Err(3);
        }
        let source = match call {
            Call::Steal(source, _) | Call::Take(source, _) => self.number(source).ok_or(5)?,
            _ => p,
        };
        let place = self.first(p, call);
        let party = &mut self.parties[p];
        party.place = place;
        party.call = call;
        party.source = source;
        party.moved = 0;
        if let Call::Drain(_) = call {
            party.limit = u32::MAX;
        }
        Ok(())
    }

    fn first(&self, p: usize, call: Call) -> Place {
        match call {
            Call::Push(_) | Call::Extend | Call::Spare | Call::Empty => match self.kind {
                Kind::Lifo => Place::OwnCount,
                Kind::Fifo => Place::OwnPacked,
            },
            Call::Steal(..) | Call::Take(..) => Place::OwnCount,
            Call::Pop => Place::PopPacked,
            Call::Drain(_) => Place::BookPacked,
            Call::Next | Call::Drop => {
                if self.draining(p) {
                    Place::DrainRead
                } else {
                    Place::Nothing
                }
            }
        }
    }

    pub fn step(&mut self, party: u64, mark: Mark) -> Result<Option<Answer>, u8> {
        let p = self.number(party).ok_or(2)?;
        let want = self.want(p).ok_or(4)?;
        if !fits(want, mark) {
            return Err(6);
        }
        let answer = self.access(p, mark);
        if answer.is_some() {
            self.parties[p].place = Place::Idle;
        }
        Ok(answer)
    }

    /// Makes the access at the party's place and moves on to the next place.
    fn access(&mut self, p: usize, mark: Mark) -> Option<Answer> {
        match self.parties[p].place {
            Place::Idle => None,
            Place::OwnCount => {
                self.parties[p].own_count = self.queues[p].count;
                self.after_own_count(p)
            }
            Place::OwnPacked => {
                self.parties[p].own_packed = self.queues[p].packed;
                self.after_own_packed(p)
            }
            Place::OwnDone => {
                self.parties[p].done = self.queues[p].done;
                self.own_loaded(p)
            }
            Place::PushWrite => {
                if let Call::Push(token) = self.parties[p].call {
                    self.write_own(p, token);
                }
                self.go(p, Place::PushStore)
            }
            Place::PushStore => {
                self.queues[p].count = self.parties[p].own_count.wrapping_add(1);
                Some(Answer::Pushed)
            }
            Place::ExtendWrite => self.extend_write(p, mark),
            Place::ExtendStore => {
                let party = &self.parties[p];
                let pops = match self.kind {
                    Kind::Lifo => high(party.own_packed),
                    Kind::Fifo => 0,
                };
                let tail = party.own_tail.wrapping_add(party.moved);
                self.queues[p].count = tail.wrapping_add(pops);
                Some(Answer::Extended(party.moved))
            }
            Place::PopPacked => {
                self.parties[p].packed = self.queues[p].packed;
                self.go(p, Place::PopCount)
            }
            Place::PopCount => {
                let popper = &mut self.parties[p];
                popper.own_tail = match self.kind {
                    Kind::Lifo => self.queues[p].count.wrapping_sub(high(popper.packed)),
                    Kind::Fifo => self.queues[p].count,
                };
                self.pop_or_none(p)
            }
            Place::PopCas => self.pop_cas(p, mark),
            Place::PopRead => {
                let party = &self.parties[p];
                let position = match self.kind {
                    Kind::Lifo => party.own_tail.wrapping_sub(1),
                    Kind::Fifo => high(party.packed),
                };
                Some(Answer::Popped(self.items[self.queues[p].place(position)]))
            }
            Place::BookPacked => {
                self.load_source_packed(p);
                match self.kind {
                    Kind::Lifo => self.go(p, Place::BookDone),
                    Kind::Fifo => self.busy_or_count(p),
                }
            }
            Place::BookDone => {
                self.parties[p].done = self.queues[self.parties[p].source].done;
                self.busy_or_count(p)
            }
            Place::BookCount => self.book_count(p, mark),
            Place::BookCas => self.book_cas(p, mark),
            Place::MoveRead => {
                self.read_booked(p);
                self.go(p, Place::MoveWrite)
            }
            Place::MoveWrite => {
                self.write_own(p, self.parties[p].item);
                self.parties[p].moved += 1;
                self.move_or_land(p)
            }
            Place::LastRead => {
                self.read_booked(p);
                self.go(p, Place::Land)
            }
            Place::Land => {
                let party = &self.parties[p];
                self.queues[p].count = party.own_count.wrapping_add(party.moved);
                self.closing(p)
            }
            Place::CloseLoad => {
                self.load_source_packed(p);
                self.go(p, Place::Close)
            }
            Place::Close => self.close(p, mark),
            Place::DrainRead => self.drain_read(p),
            Place::Nothing => match self.parties[p].call {
                Call::Next => Some(Answer::Done),
                _ => Some(Answer::Closed),
            },
        }
    }

    fn go(&mut self, p: usize, place: Place) -> Option<Answer> {
        self.parties[p].place = place;
        None
    }

    /// LIFO loads count, packed, completed head; FIFO packed, count, but
    /// count, packed for a destination.
    fn after_own_count(&mut self, p: usize) -> Option<Answer> {
        let packed_next = self.kind == Kind::Lifo || moves(self.parties[p].call);
        if packed_next {
            self.go(p, Place::OwnPacked)
        } else {
            self.own_loaded(p)
        }
    }

    fn after_own_packed(&mut self, p: usize) -> Option<Answer> {
        let call = self.parties[p].call;
        match self.kind {
            Kind::Lifo if call == Call::Empty => self.own_loaded(p),
            Kind::Lifo => self.go(p, Place::OwnDone),
            Kind::Fifo if moves(call) => self.own_loaded(p),
            Kind::Fifo => self.go(p, Place::OwnCount),
        }
    }

    /// All loads of the own queue are made: tail, head and what follows.
    fn own_loaded(&mut self, p: usize) -> Option<Answer> {
        let capacity = self.queues[p].capacity;
        let party = &mut self.parties[p];
        let resting_head;
        match self.kind {
            Kind::Lifo => {
                party.own_tail = party.own_count.wrapping_sub(high(party.own_packed));
                party.own_head = party.done;
                resting_head = low(party.own_packed);
            }
            Kind::Fifo => {
                party.own_tail = party.own_count;
                party.own_head = low(party.own_packed);
                resting_head = high(party.own_packed);
            }
        }
        let used = party.own_tail.wrapping_sub(party.own_head);
        let room = capacity.wrapping_sub(used);
        match party.call {
            Call::Push(token) if used > capacity - 1 => Some(Answer::Full(token)),
            Call::Push(_) => self.go(p, Place::PushWrite),
            Call::Extend => self.extend_or_store(p),
            Call::Spare => Some(Answer::Spare(room)),
            Call::Empty if party.own_tail == resting_head => Some(Answer::Yes),
            Call::Empty => Some(Answer::No),
            Call::Take(..) => {
                party.limit = room.wrapping_add(1);
                self.go(p, Place::BookPacked)
            }
            _ => {
                party.limit = room;
                self.go(p, Place::BookPacked)
            }
        }
    }

    /// Writes to the own queue, as far behind the loaded tail as was moved.
    fn write_own(&mut self, p: usize, token: u64) {
        let party = &self.parties[p];
        let position = party.own_tail.wrapping_add(party.moved);
        self.items[self.queues[p].place(position)] = token;
    }

    fn extend_or_store(&mut self, p: usize) -> Option<Answer> {
        let party = &self.parties[p];
        let tail = party.own_tail.wrapping_add(party.moved);
        if tail == party.own_head.wrapping_add(self.queues[p].capacity) {
            self.go(p, Place::ExtendStore)
        } else {
            self.go(p, Place::ExtendWrite)
        }
    }

    fn extend_write(&mut self, p: usize, mark: Mark) -> Option<Answer> {
        match mark {
            Mark::Given(token) => {
                self.write_own(p, token);
                self.parties[p].moved += 1;
                self.extend_or_store(p)
            }
            _ => self.go(p, Place::ExtendStore),
        }
    }

    /// The pop's test for none, after its count load or LIFO's failed CAS.
    fn pop_or_none(&mut self, p: usize) -> Option<Answer> {
        let party = &self.parties[p];
        let head = match self.kind {
            Kind::Lifo => low(party.packed),
            Kind::Fifo => high(party.packed),
        };
        if party.own_tail == head {
            Some(Answer::None)
        } else {
            self.go(p, Place::PopCas)
        }
    }

    fn pop_cas(&mut self, p: usize, mark: Mark) -> Option<Answer> {
        let (up, down) = (high(self.parties[p].packed), low(self.parties[p].packed));
        let new = match self.kind {
            Kind::Lifo => pack(up.wrapping_add(1), down),
            // The stealer head moves along only when no booking is open.
            Kind::Fifo if up == down => pack(up.wrapping_add(1), down.wrapping_add(1)),
            Kind::Fifo => pack(up.wrapping_add(1), down),
        };
        if self.cas(p, p, new, mark) {
            return self.go(p, Place::PopRead);
        }
        match self.kind {
            // The tail is kept and the new head tested in this same step.
            Kind::Lifo => self.pop_or_none(p),
            Kind::Fifo => self.go(p, Place::PopCount),
        }
    }

    /// Compares the remembered packed word; a failure remembers the word as
    /// it is.
    fn cas(&mut self, p: usize, q: usize, new: u64, mark: Mark) -> bool {
        let now = self.queues[q].packed;
        if now == self.parties[p].packed && mark != Mark::Weak {
            self.queues[q].packed = new;
            return true;
        }
        self.parties[p].packed = now;
        false
    }

    fn load_source_packed(&mut self, p: usize) {
        self.parties[p].packed = self.queues[self.parties[p].source].packed;
    }

    /// The booking's test for busy. LIFO compares the completed head that
    /// was loaded once, also after a failed CAS.
    fn busy_or_count(&mut self, p: usize) -> Option<Answer> {
        let party = &self.parties[p];
        let other = match self.kind {
            Kind::Lifo => party.done,
            Kind::Fifo => high(party.packed),
        };
        if other != low(party.packed) {
            Some(Answer::Busy)
        } else {
            self.go(p, Place::BookCount)
        }
    }

    fn book_count(&mut self, p: usize, mark: Mark) -> Option<Answer> {
        let party = &mut self.parties[p];
        let count = self.queues[party.source].count;
        let n = match self.kind {
            Kind::Lifo => count.wrapping_sub(high(party.packed)).wrapping_sub(low(party.packed)),
            Kind::Fifo => count.wrapping_sub(high(party.packed)),
        };
        let asked = asked(rule(party.call), n, mark);
        party.booked = asked.min(party.limit as u64).min(n as u64) as u32;
        if party.booked == 0 {
            Some(Answer::Empty)
        } else {
            self.go(p, Place::BookCas)
        }
    }

    fn book_cas(&mut self, p: usize, mark: Mark) -> Option<Answer> {
        let party = self.parties[p];
        let (up, down) = (high(party.packed), low(party.packed));
        let new = match self.kind {
            Kind::Lifo => pack(up, down.wrapping_add(party.booked)),
            Kind::Fifo => pack(up.wrapping_add(party.booked), down),
        };
        if !self.cas(p, party.source, new, mark) {
            return self.busy_or_count(p);
        }
        self.parties[p].from = down;
        if let Call::Drain(_) = party.call {
            self.parties[p].drain_at = down;
            self.parties[p].drain_end = down.wrapping_add(party.booked);
            return Some(Answer::Drain(party.booked));
        }
        self.move_or_land(p)
    }

    fn move_or_land(&mut self, p: usize) -> Option<Answer> {
        let party = &self.parties[p];
        let left = party.booked - party.moved;
        match party.call {
            Call::Take(..) if left == 1 => self.go(p, Place::LastRead),
            _ if left == 0 => self.go(p, Place::Land),
            _ => self.go(p, Place::MoveRead),
        }
    }

    fn read_booked(&mut self, p: usize) {
        let party = &mut self.parties[p];
        let position = party.from.wrapping_add(party.moved);
        party.item = self.items[self.queues[party.source].place(position)];
    }

    fn closing(&mut self, p: usize) -> Option<Answer> {
        match self.kind {
            Kind::Lifo => self.go(p, Place::Close),
            Kind::Fifo => self.go(p, Place::CloseLoad),
        }
    }

    fn close(&mut self, p: usize, mark: Mark) -> Option<Answer> {
        let party = self.parties[p];
        match self.kind {
            Kind::Lifo => {
                let end = match party.call {
                    Call::Next | Call::Drop => party.drain_end,
                    _ => party.from.wrapping_add(party.booked),
                };
                self.queues[party.source].done = end;
            }
            Kind::Fifo => {
                let worker = high(party.packed);
                if !self.cas(p, party.source, pack(worker, worker), mark) {
                    return None;
                }
            }
        }
        Some(match party.call {
            Call::Next => Answer::Item(party.item),
            Call::Drop => Answer::Closed,
            Call::Take(..) => Answer::Taken(party.item, party.booked - 1),
            _ => Answer::Stolen(party.booked),
        })
    }

    fn drain_read(&mut self, p: usize) -> Option<Answer> {
        let party = &mut self.parties[p];
        party.item = self.items[self.queues[p].place(party.drain_at)];
        party.drain_at = party.drain_at.wrapping_add(1);
        if party.drain_at == party.drain_end {
            return self.closing(p);
        }
        match party.call {
            Call::Next => Some(Answer::Item(party.item)),
            _ => None,
        }
    }
}

fn fits(want: Want, mark: Mark) -> bool {
    match (want, mark) {
        (Want::Bare, Mark::Plain) => true,
        (Want::Cas, Mark::Plain | Mark::Weak) => true,
        (Want::Number, Mark::Given(_)) => true,
        (Want::TokenOrEnd, Mark::Given(_) | Mark::End) => true,
        _ => false,
    }
}

/// Steal and take, which move items to the own queue.
fn moves(call: Call) -> bool {
    matches!(call, Call::Steal(..) | Call::Take(..))
}

fn rule(call: Call) -> Rule {
    match call {
        Call::Steal(_, rule) | Call::Take(_, rule) | Call::Drain(rule) => rule,
        _ => Rule::All,
    }
}

fn asked(rule: Rule, n: u32, mark: Mark) -> u64 {
    match (rule, mark) {
        (Rule::Half, _) => n as u64 / 2,
        (Rule::Fixed(k), _) => k,
        (Rule::Given, Mark::Given(k)) => k,
        _ => n as u64,
    }
}
