//! The tracker's calls.
use locker_log::{
    sys::{self, RawLeast, RawProgress},
    Cells, Reserved,
};

use super::{UNTOUCHED, WROTE};
use crate::{
    calls::{Said, State, Step},
    cells::{cells_of, state_of},
};

const UNTOUCHED_RESERVED: Reserved = Reserved { number: UNTOUCHED, place: UNTOUCHED, used: UNTOUCHED };
const UNTOUCHED_PROGRESS: RawProgress =
    RawProgress { ordinal: UNTOUCHED, offset: UNTOUCHED, sum: UNTOUCHED as i64, limit: UNTOUCHED, pending: UNTOUCHED };

/// What the library makes fresh, from cells that aren't.
pub fn fresh() -> State {
    let mut cells = cells_of(&State { next: UNTOUCHED, ..crate::draw::fresh_state() });
    cells.lengths.fill(UNTOUCHED);
    // SAFETY: the library's contract: a tracker of any cells.
    let number = unsafe { sys::locker_tracker_fresh(&mut *cells) };
    assert_eq!(number, 0, "a fresh tracker is refused");
    state_of(&cells)
}

/// A call that writes one number, as the values of an answer.
fn one(call: impl FnOnce(&mut u64) -> u32) -> (u32, Vec<u64>, bool) {
    let mut out = UNTOUCHED;
    let number = call(&mut out);
    (number, vec![out], out == UNTOUCHED)
}

/// The judge holds the original's used count to place + length, and an answer has number and place alone: another used
/// count than that goes along, so that the answers differ.
fn reserve(used: Option<u64>, call: impl FnOnce(&mut Reserved) -> u32) -> (u32, Vec<u64>, bool) {
    let mut out = UNTOUCHED_RESERVED;
    let number = call(&mut out);
    let mut values = vec![out.number, out.place];
    values.extend((Some(out.used) != used).then_some(out.used));
    (number, values, out == UNTOUCHED_RESERVED)
}

fn checkpoint(call: impl FnOnce(&mut RawProgress) -> u32) -> (u32, Vec<u64>, bool) {
    let mut out = UNTOUCHED_PROGRESS;
    let number = call(&mut out);
    let RawProgress { ordinal, offset, sum, limit, pending } = out;
    (number, vec![ordinal, offset, sum as u64, limit, pending], out == UNTOUCHED_PROGRESS)
}

/// The lent form of abandon, one slot cleared in place, is held to the call that was just made.
fn slot_agrees(before: &Cells, after: &Cells, shard: u64, number: u64, done: u64) -> bool {
    let mut slot = before.slots[shard as usize];
    let mut told = UNTOUCHED;
    // SAFETY: a slot of any cells, any number, and a number to write to.
    let answer = unsafe { sys::locker_slot_abandon(&mut slot, number, &mut told) };
    answer == 0 && told == done && slot == after.slots[shard as usize]
}

/// The search along the sixteen slots has to tell the checkpoint's cursor and limit, and whether a slot is open.
fn search_agrees(cells: &Cells, ordinal: u64, used: u64, checkpoint: &[u64]) -> bool {
    let mut least = RawLeast::default();
    // SAFETY: the library's contract: a run of that many slots, and a place to write to.
    let answer = unsafe { sys::locker_least_along(cells.slots.as_ptr(), cells.slots.len(), ordinal, used, &mut least) };
    let open = cells.slots.iter().any(|slot| slot.number != 0);
    answer == 0 && least.any == open && [least.ordinal, least.offset] == checkpoint[..2] && least.limit == checkpoint[3]
}

/// A call that answers numbers. Every cell has to stay on a refusal, on Stale and in a checkpoint, and on a refusal every
/// out parameter too; the library's own word on soundness has to go with its answer.
pub fn track(state: &State, step: &Step) -> Said {
    let before = cells_of(state);
    let mut cells = before.clone();
    let t: *mut Cells = &mut *cells;
    // SAFETY (all of these): the library's contract: a tracker of any cells, any numbers, and places to write to.
    let (number, values, outs_left) = match *step {
        Step::Reserve { shard, ordinal, used, capacity, sealed, length } => {
            reserve(used.checked_add(length), |out| unsafe {
                sys::locker_tracker_reserve(t, shard as usize, ordinal, used, capacity, sealed, length, out)
            })
        }
        Step::Complete { shard, number, delta } => {
            one(|done| unsafe { sys::locker_tracker_complete(t, shard as usize, number, delta, done) })
        }
        Step::Abandon { shard, number } => {
            one(|done| unsafe { sys::locker_tracker_abandon(t, shard as usize, number, done) })
        }
        Step::Record { shard, delta } => {
            one(|number| unsafe { sys::locker_tracker_record(t, shard as usize, delta, number) })
        }
        Step::Checkpoint { ordinal, used } => {
            checkpoint(|out| unsafe { sys::locker_tracker_checkpoint(t, ordinal, used, out) })
        }
        Step::Drain { limit } => {
            let mut sum = UNTOUCHED as i64;
            let number = unsafe { sys::locker_tracker_drain(t, limit, &mut sum) };
            (number, vec![sum as u64], sum == UNTOUCHED as i64)
        }
        Step::Clear => (unsafe { sys::locker_tracker_clear(t) }, vec![], true),
    };
    let sound = unsafe { sys::locker_tracker_is_sound(&*before) };
    let stays = cells == before;
    let kept = match (number, step) {
        (0, &Step::Abandon { shard, number }) => {
            (stays || values == [1]) && slot_agrees(&before, &cells, shard, number, values[0])
        }
        (0, Step::Complete { .. }) => stays || values == [1],
        (0, &Step::Checkpoint { ordinal, used }) => stays && search_agrees(&before, ordinal, used, &values),
        (0, _) => true,
        _ => stays && outs_left,
    };
    if sound == (number == 28) || !kept {
        return Said { number: WROTE, state: Some(Box::new(state.clone())), ..Default::default() };
    }
    if number == 0 {
        return Said { values, state: Some(Box::new(state_of(&cells))), ..Default::default() };
    }
    Said { number, state: Some(Box::new(state.clone())), ..Default::default() }
}
