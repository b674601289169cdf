//! The tracker: reservations that are open, deltas that wait, and the checkpoint over both.

use core::{fmt, iter};

use crate::{
    sys::{self, RawLeast, RawProgress},
    Refusal,
};

/// A tracker's shards, from 0 to 15.
pub const SHARDS: usize = 16;

/// The deltas that one shard has room for.
pub const WAITING: usize = 32;

/// The limit that a checkpoint tells where no slot is open. Every waiting number of a sound tracker is below it.
pub const NO_LIMIT: u64 = u64::MAX;

/// A reservation's number, and the place that it holds: the file's ordinal and the offset. Number 0 is an idle slot.
#[repr(C)]
#[derive(Clone, Copy, Debug, Default, PartialEq, Eq, Hash)]
pub struct Slot {
    /// The reservation's number, or 0.
    pub number: u64,
    /// The ordinal of the file in which space is reserved.
    pub ordinal: u64,
    /// Where in that file it is.
    pub offset: u64,
}

/// A tracker's own cells, as the library lays them out. Any of them may hold anything: where they are no sound tracker, every
/// call gives [`Refusal::NotSound`].
///
/// Shard `s` waits at the places from `32 * s` on of `numbers` and `deltas`, as many as `lengths[s]` says, in the order of
/// their numbers. What lies past a queue's length is no state.
#[repr(C)]
#[derive(Clone, Debug, PartialEq, Eq, Hash)]
pub struct Cells {
    /// A slot for each shard.
    pub slots: [Slot; SHARDS],
    /// The numbers under which deltas wait.
    pub numbers: [u64; SHARDS * WAITING],
    /// Those deltas.
    pub deltas: [i8; SHARDS * WAITING],
    /// How many deltas wait on each shard.
    pub lengths: [u64; SHARDS],
    /// The number that is given next.
    pub next: u64,
}

/// The file that is written to, as a reservation has to know it. The tracker keeps none of this but the ordinal and the place
/// of what is reserved.
#[derive(Clone, Copy, Debug, Default, PartialEq, Eq, Hash)]
pub struct ActiveFile {
    /// Its ordinal.
    pub ordinal: u64,
    /// Its used count, at which space is reserved.
    pub used: u64,
    /// Its capacity, at most 268,435,456.
    pub capacity: u64,
    /// Whether nothing more may be written to it.
    pub sealed: bool,
}

/// What a reservation tells.
#[repr(C)]
#[derive(Clone, Copy, Debug, Default, PartialEq, Eq, Hash)]
pub struct Reserved {
    /// Its number, by which it is completed or abandoned.
    pub number: u64,
    /// Its place, the used count from before.
    pub place: u64,
    /// The used count afterwards.
    pub used: u64,
}

/// What a checkpoint tells.
#[derive(Clone, Copy, Debug, PartialEq, Eq, Hash)]
pub struct Progress {
    /// The cursor's file: with `offset` the least place over the open slots, else the active ordinal and the used count.
    pub ordinal: u64,
    /// The cursor's place in that file.
    pub offset: u64,
    /// The sum of every waiting delta whose number is below the limit.
    pub sum: i64,
    /// The least open number, else [`NO_LIMIT`].
    pub limit: u64,
    /// Whether a slot is open or a delta waits.
    pub pending: bool,
}

/// What a search along slots tells.
#[derive(Clone, Copy, Debug, PartialEq, Eq, Hash)]
pub struct Least {
    /// Whether a slot is open.
    pub any: bool,
    /// The least place's file, else the ordinal that was passed.
    pub ordinal: u64,
    /// The least place in that file, else the used count that was passed.
    pub offset: u64,
    /// The least open number, else [`NO_LIMIT`].
    pub limit: u64,
}

/// A delta that waits, and the number under which it does.
#[derive(Clone, Copy, Debug, PartialEq, Eq, Hash)]
pub struct Delta {
    /// The number of the reservation or the record that it came with.
    pub number: u64,
    /// The delta.
    pub delta: i8,
}

/// Whether a reservation was there to be finished.
#[derive(Clone, Copy, Debug, PartialEq, Eq, Hash)]
pub enum Finished {
    /// The slot had the number and is idle now.
    Done,
    /// The slot has another number or none, or the number is 0; nothing changed.
    Stale,
}

impl Finished {
    fn from_number(done: u64) -> Finished {
        match done {
            0 => Finished::Stale,
            _ => Finished::Done,
        }
    }
}

impl Slot {
    /// Whether a reservation holds it.
    pub fn is_open(&self) -> bool {
        self.number != 0
    }

    /// Makes the slot idle if it has that number and the number isn't 0; only its number changes. Refuses nothing.
    pub fn abandon(&mut self, number: u64) -> Finished {
        let mut done = 0;
        // SAFETY: a slot that is lent for writing, and a number of our own.
        let answer = unsafe { sys::locker_slot_abandon(self, number, &mut done) };
        debug_assert_eq!(answer, 0);
        Finished::from_number(done)
    }
}

/// The least place and the least open number along a run of slots of any length, as a checkpoint has them. Refuses nothing.
pub fn least_along(slots: &[Slot], ordinal: u64, used: u64) -> Least {
    let mut least = RawLeast::default();
    // SAFETY: one slice, and a place to write to of our own.
    let answer = unsafe { sys::locker_least_along(slots.as_ptr(), slots.len(), ordinal, used, &mut least) };
    debug_assert_eq!(answer, 0);
    Least { any: least.any, ordinal: least.ordinal, offset: least.offset, limit: least.limit }
}

/// Sixteen slots for reservations and, for each, room for thirty-two waiting deltas. A value of 5,128 bytes that owns nothing
/// else: a copy goes its own way.
///
/// A refusal leaves it as it was, every cell. Two trackers are equal if their states are; what lies past a queue's length is
/// none.
///
/// ```
/// use locker_log::{append_data, ActiveFile, Finished, Header, Kind, Refusal, Tracker, NO_LIMIT};
///
/// let header = Header { version: 2, ordinal: 7 };
/// let mut region = [0u8; 32];
/// let mut file = ActiveFile { ordinal: header.ordinal, used: 0, capacity: 32, sealed: false };
/// let mut tracker = Tracker::new();
///
/// let reserved = tracker.reserve(3, &file, 16)?;
/// file.used = reserved.used;
/// assert_eq!(tracker.checkpoint(file.ordinal, file.used)?.offset, 0);
///
/// append_data(&mut region, header, reserved.place as usize, Kind::Insert, 1, b"A7", b"9")?;
/// assert_eq!(tracker.complete(3, reserved.number, 1)?, Finished::Done);
///
/// let progress = tracker.checkpoint(file.ordinal, file.used)?;
/// assert_eq!((progress.offset, progress.sum, progress.limit), (16, 1, NO_LIMIT));
/// assert_eq!(tracker.drain(progress.limit)?, 1);
/// assert!(!tracker.checkpoint(file.ordinal, file.used)?.pending);
/// # Ok::<(), Refusal>(())
/// ```
#[derive(Clone)]
pub struct Tracker {
    cells: Cells,
}

impl Tracker {
    /// A fresh one: every slot idle, nothing waiting, and 1 as its next number.
    pub fn new() -> Tracker {
        let mut tracker = Tracker::from_cells(Cells {
            slots: [Slot::default(); SHARDS],
            numbers: [0; SHARDS * WAITING],
            deltas: [0; SHARDS * WAITING],
            lengths: [0; SHARDS],
            next: 0,
        });
        // SAFETY: cells of our own.
        let answer = unsafe { sys::locker_tracker_fresh(&mut tracker.cells) };
        debug_assert_eq!(answer, 0);
        tracker
    }

    /// These cells, whatever they hold; [`is_sound`](Tracker::is_sound) tells whether they are of use.
    pub fn from_cells(cells: Cells) -> Tracker {
        Tracker { cells }
    }

    /// Its cells, to look at.
    pub fn cells(&self) -> &Cells {
        &self.cells
    }

    /// Its cells, to keep.
    pub fn into_cells(self) -> Cells {
        self.cells
    }

    /// Its slots, by shard.
    pub fn slots(&self) -> &[Slot; SHARDS] {
        &self.cells.slots
    }

    /// The deltas that wait on a shard, from the front of its queue on, which is the order of their numbers in a sound tracker:
    /// none for a shard over 15, and at most thirty-two, even where an unsound tracker's length says more.
    pub fn waiting(&self, shard: usize) -> impl DoubleEndedIterator<Item = Delta> + ExactSizeIterator + '_ {
        let length = self.cells.lengths.get(shard).map_or(0, |length| (*length).min(WAITING as u64) as usize);
        let from = if length == 0 { 0 } else { shard * WAITING };
        let numbers = &self.cells.numbers[from..from + length];
        let deltas = &self.cells.deltas[from..from + length];
        iter::zip(numbers, deltas).map(|(&number, &delta)| Delta { number, delta })
    }

    /// The number that is given next.
    pub fn next_number(&self) -> u64 {
        self.cells.next
    }

    /// Whether each queue length is at most 32, and at most 31 beside an open slot, the next number is at least 1, every open
    /// or waiting number is below it, and the numbers of each queue ascend, of which some may be equal. Calls on a sound tracker
    /// leave it sound, and on any other give 28.
    pub fn is_sound(&self) -> bool {
        // SAFETY: cells of our own.
        unsafe { sys::locker_tracker_is_sound(&self.cells) }
    }

    /// Reserves that many bytes for a shard at the file's used count, which the caller then sets to [`Reserved::used`]. A
    /// reservation that was open on the shard is given up. Refuses 28, 14, 16, 15 (32 deltas wait), 5, 3, 13.
    pub fn reserve(&mut self, shard: usize, file: &ActiveFile, length: u64) -> Result<Reserved, Refusal> {
        let mut reserved = Reserved::default();
        let &ActiveFile { ordinal, used, capacity, sealed } = file;
        // SAFETY: cells that are ours to change, and a place to write to of our own.
        let number = unsafe {
            sys::locker_tracker_reserve(&mut self.cells, shard, ordinal, used, capacity, sealed, length, &mut reserved)
        };
        Refusal::check(number).map(|()| reserved)
    }

    /// Takes the next number, has the delta wait under it on the shard, even a delta of 0, and answers it. Refuses 28, 14, 16,
    /// 15 (32 deltas wait, or 31 beside an open slot).
    pub fn record(&mut self, shard: usize, delta: i8) -> Result<u64, Refusal> {
        let mut taken = 0;
        // SAFETY: cells that are ours to change, and a number of our own.
        let number = unsafe { sys::locker_tracker_record(&mut self.cells, shard, delta, &mut taken) };
        Refusal::check(number).map(|()| taken)
    }

    /// Finishes the reservation with that number: its slot becomes idle, and a delta that isn't 0 waits in the shard's queue
    /// under that number, behind its equals and before what is larger. Refuses 28, 14.
    pub fn complete(&mut self, shard: usize, number: u64, delta: i8) -> Result<Finished, Refusal> {
        let mut done = 0;
        // SAFETY: cells that are ours to change, and a number of our own.
        let answer = unsafe { sys::locker_tracker_complete(&mut self.cells, shard, number, delta, &mut done) };
        Refusal::check(answer).map(|()| Finished::from_number(done))
    }

    /// The same without a delta: nothing waits. Refuses 28, 14.
    pub fn abandon(&mut self, shard: usize, number: u64) -> Result<Finished, Refusal> {
        let mut done = 0;
        // SAFETY: cells that are ours to change, and a number of our own.
        let answer = unsafe { sys::locker_tracker_abandon(&mut self.cells, shard, number, &mut done) };
        Refusal::check(answer).map(|()| Finished::from_number(done))
    }

    /// Cursor, sum, limit and whether anything is pending, with the active file's ordinal and used count. Refuses 28.
    pub fn checkpoint(&self, ordinal: u64, used: u64) -> Result<Progress, Refusal> {
        let mut told = RawProgress::default();
        // SAFETY: cells to be read, and a place to write to of our own.
        let number = unsafe { sys::locker_tracker_checkpoint(&self.cells, ordinal, used, &mut told) };
        let RawProgress { ordinal, offset, sum, limit, pending } = told;
        Refusal::check(number).map(|()| Progress { ordinal, offset, sum, limit, pending: pending != 0 })
    }

    /// Removes every waiting delta whose number is below the limit, and answers their sum: with a checkpoint's limit, the
    /// checkpoint's sum. Refuses 28.
    pub fn drain(&mut self, limit: u64) -> Result<i64, Refusal> {
        let mut sum = 0;
        // SAFETY: cells that are ours to change, and a number of our own.
        let number = unsafe { sys::locker_tracker_drain(&mut self.cells, limit, &mut sum) };
        Refusal::check(number).map(|()| sum)
    }

    /// Zeroes every slot and empties every queue; the next number stays, so that earlier ones are stale. Refuses 28.
    pub fn clear(&mut self) -> Result<(), Refusal> {
        // SAFETY: cells that are ours to change.
        Refusal::check(unsafe { sys::locker_tracker_clear(&mut self.cells) })
    }
}

impl Default for Tracker {
    fn default() -> Tracker {
        Tracker::new()
    }
}

impl PartialEq for Tracker {
    fn eq(&self, other: &Tracker) -> bool {
        let (a, b) = (&self.cells, &other.cells);
        a.next == b.next
            && a.slots == b.slots
            && a.lengths == b.lengths
            && (0..SHARDS).all(|shard| self.waiting(shard).eq(other.waiting(shard)))
    }
}

impl Eq for Tracker {}

/// The next number, the slots that aren't all zero and the queues that aren't empty, each by its shard.
impl fmt::Debug for Tracker {
    fn fmt(&self, f: &mut fmt::Formatter<'_>) -> fmt::Result {
        f.debug_struct("Tracker")
            .field("next", &self.cells.next)
            .field("slots", &Slots(self))
            .field("waiting", &Queues(self))
            .finish()
    }
}

struct Slots<'a>(&'a Tracker);

impl fmt::Debug for Slots<'_> {
    fn fmt(&self, f: &mut fmt::Formatter<'_>) -> fmt::Result {
        let slots = self.0.slots().iter().enumerate();
        f.debug_map().entries(slots.filter(|(_, slot)| **slot != Slot::default())).finish()
    }
}

struct Queues<'a>(&'a Tracker);

impl fmt::Debug for Queues<'_> {
    fn fmt(&self, f: &mut fmt::Formatter<'_>) -> fmt::Result {
        let filled = (0..SHARDS).filter(|shard| self.0.cells.lengths[*shard] != 0);
        f.debug_map().entries(filled.map(|shard| (shard, Queue(self.0, shard)))).finish()
    }
}

struct Queue<'a>(&'a Tracker, usize);

impl fmt::Debug for Queue<'_> {
    fn fmt(&self, f: &mut fmt::Formatter<'_>) -> fmt::Result {
        let Queue(tracker, shard) = *self;
        let length = tracker.cells.lengths[shard];
        if length > WAITING as u64 {
            return write!(f, "length {length}, over {WAITING}");
        }
        f.debug_map().entries(tracker.waiting(shard).map(|waits| (waits.number, waits.delta))).finish()
    }
}
