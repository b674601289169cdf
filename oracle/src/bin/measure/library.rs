//! The proved library's calls, through its C interface (include/locker_log.h).

use locker_log::{
    sys::{self, RawEffort, RawProgress},
    Cells, Reserved,
};
use original::State;

use crate::cells::{cells_of, state_of};

/// Files of version 1 are measured, in which the ordinal has no effect. The original is built without any other marks.
const VERSION: u64 = 1;
const ORDINAL: u64 = 7;

/// The answer, or the number of document 01's table as an error.
fn answered<T>(number: u32, answer: T) -> Result<T, String> {
    if number == 0 {
        Ok(answer)
    } else {
        Err(format!("the library refuses with {number}"))
    }
}

pub fn hash(bytes: &[u8]) -> u64 {
    // SAFETY (here and below): the library's contract: any bytes and any numbers, and places to write to.
    unsafe { sys::locker_hash(bytes.as_ptr(), bytes.len()) }.into()
}

/// An insert, or a tombstone where there is no value. The new used count.
pub fn append(region: &mut [u8], used: u64, ns: u64, key: &[u8], value: Option<&[u8]>) -> Result<u64, String> {
    let (lent, length, mut next) = (region.as_mut_ptr(), region.len(), 0);
    let number = match value {
        Some(value) => unsafe {
            let (key, klen, value, vlen) = (key.as_ptr(), key.len(), value.as_ptr(), value.len());
            let used = used as usize;
            sys::locker_append_data(lent, length, VERSION, ORDINAL, used, 0, ns, key, klen, value, vlen, &mut next)
        },
        None => unsafe {
            let (key, klen, used) = (key.as_ptr(), key.len(), used as usize);
            sys::locker_append_tombstone(lent, length, VERSION, ORDINAL, used, ns, key, klen, &mut next)
        },
    };
    answered(number, next)
}

pub fn used_bound(region: &[u8]) -> Result<u64, String> {
    let mut bound = 0;
    answered(unsafe { sys::locker_used_bound(region.as_ptr(), region.len(), &mut bound) }, ())?;
    Ok(bound)
}

/// The durable end, and what it took.
pub fn durable_end(region: &[u8], bound: u64) -> Result<(u64, RawEffort), String> {
    let (mut end, mut place, mut effort) = (0, 0, RawEffort::default());
    let (lent, length, bound) = (region.as_ptr(), region.len(), bound as usize);
    let number =
        unsafe { sys::locker_durable_end(lent, length, VERSION, ORDINAL, bound, &mut end, &mut place, &mut effort) };
    answered(number, (end, effort))
}

/// The entries of each type in each namespace, up to the used bound.
pub fn count_entries(region: &[u8]) -> Result<[[u32; 64]; 3], String> {
    let (mut grid, mut place) = ([[0; 64]; 3], 0);
    let (lent, length) = (region.as_ptr(), region.len());
    let number = unsafe { sys::locker_count_entries(lent, length, VERSION, ORDINAL, &mut grid, &mut place) };
    answered(number, grid)
}

pub struct Tracker(Box<Cells>);

impl Tracker {
    pub fn of(state: &State) -> Self {
        Tracker(cells_of(state))
    }

    pub fn state(&self) -> State {
        state_of(&self.0)
    }

    /// A reservation of `length` bytes and its completion with delta 0, `count` times from used count 0 on. The used
    /// count afterwards.
    pub fn reserve_and_complete_again(
        &mut self,
        shard: usize,
        ordinal: u64,
        capacity: u32,
        length: u64,
        count: u64,
    ) -> Result<u64, String> {
        let t: &mut Cells = &mut self.0;
        let (mut reserved, mut done) = (Reserved::default(), 0);
        let mut number = 0;
        for _ in 0..count {
            let used = reserved.used;
            // SAFETY: as above.
            unsafe {
                let room = capacity.into();
                number |= sys::locker_tracker_reserve(t, shard, ordinal, used, room, false, length, &mut reserved);
                number |= sys::locker_tracker_complete(t, shard, reserved.number, 0, &mut done);
            }
        }
        answered(number, reserved.used)
    }

    /// A delta recorded and everything drained, `count` times. All drained sums together.
    pub fn record_and_drain_again(&mut self, shard: usize, delta: i8, count: u64) -> Result<i64, String> {
        let t: &mut Cells = &mut self.0;
        let (mut number, mut total, mut sum, mut recorded) = (0, 0, 0, 0);
        for _ in 0..count {
            // SAFETY: as above.
            unsafe {
                number |= sys::locker_tracker_record(t, shard, delta, &mut recorded);
                number |= sys::locker_tracker_drain(t, u64::MAX, &mut sum);
            }
            total += sum;
        }
        answered(number, total)
    }

    /// A checkpoint, `count` times, the `shard`'s slot at another place each time. All answered numbers together.
    pub fn checkpoint_again(&mut self, ordinal: u64, shard: usize, count: u64) -> Result<u64, String> {
        let t: &mut Cells = &mut self.0;
        let (mut number, mut total, mut progress) = (0, 0u64, RawProgress::default());
        for i in 0..count {
            t.slots[shard].offset = 16 * i;
            // SAFETY: as above.
            number |= unsafe { sys::locker_tracker_checkpoint(t, ordinal, 0, &mut progress) };
            let RawProgress { ordinal, offset, sum, limit, pending } = progress;
            for number in [ordinal, offset, sum as u64, limit, pending] {
                total = total.wrapping_add(number);
            }
        }
        answered(number, total)
    }
}
