//! The tracker at its limits and refusals, and document 01's own trial. A refusal leaves every cell.

use locker_log::{ActiveFile, Cells, Delta, Finished, Progress, Refusal, Slot, Tracker, NO_LIMIT, SHARDS, WAITING};

const LARGEST: u64 = 268_435_456;
const FILE: ActiveFile = ActiveFile { ordinal: 7, used: 32, capacity: 48, sealed: false };

/// Every slot idle and nothing waiting; what is no state has numbers that would be noticed.
fn cells(next: u64) -> Cells {
    Cells {
        slots: [Slot::default(); SHARDS],
        numbers: [u64::MAX; SHARDS * WAITING],
        deltas: [77; SHARDS * WAITING],
        lengths: [0; SHARDS],
        next,
    }
}

/// So many deltas wait on a shard, numbers from 1 on, beside slot 40 or an idle one; 50 is next.
fn with(shard: usize, count: usize, open: bool) -> Cells {
    let mut cells = cells(50);
    for i in 0..count {
        cells.numbers[shard * WAITING + i] = i as u64 + 1;
        cells.deltas[shard * WAITING + i] = i as i8 + 1;
    }
    cells.lengths[shard] = count as u64;
    cells.slots[shard] = Slot { number: if open { 40 } else { 0 }, ordinal: 6, offset: 96 };
    cells
}

/// Trackers that aren't sound, each by one cell.
fn unsound() -> Vec<Cells> {
    let mut all = vec![cells(0), with(0, 32, true), with(15, 32, true)];
    for shard in [0, 15] {
        for length in [33, 1 << 32, 1 << 63, u64::MAX] {
            let mut cells = with(shard, 3, false);
            cells.numbers = [0; SHARDS * WAITING];
            cells.lengths[shard] = length;
            all.push(cells);
        }
        for number in [50, 51, u64::MAX] {
            let mut open = with(shard, 3, false);
            open.slots[shard].number = number;
            let mut waits = with(shard, 3, false);
            waits.numbers[shard * WAITING + 2] = number;
            all.extend([open, waits]);
        }
        for (place, number) in [(0, 3), (1, 4), (2, 0)] {
            let mut falls = with(shard, 3, false);
            falls.numbers[shard * WAITING + place] = number;
            all.push(falls);
        }
    }
    all
}

/// The call refuses, and leaves every cell.
fn refuses<T: std::fmt::Debug>(cells: &Cells, refusal: Refusal, call: impl FnOnce(&mut Tracker) -> Result<T, Refusal>) {
    let mut tracker = Tracker::from_cells(cells.clone());
    assert_eq!(call(&mut tracker).unwrap_err(), refusal);
    assert!(tracker.cells() == cells, "a refusal changes no cell");
}

fn waits(tracker: &Tracker, shard: usize) -> Vec<(u64, i8)> {
    tracker.waiting(shard).map(|Delta { number, delta }| (number, delta)).collect()
}

#[test]
fn fresh() {
    let tracker = Tracker::new();
    assert!(tracker.is_sound());
    assert_eq!(tracker, Tracker::from_cells(cells(1)));
    assert_eq!(tracker, Tracker::default());
    assert_eq!(tracker.next_number(), 1);
    assert_eq!(tracker.slots(), &[Slot::default(); SHARDS]);
    assert!((0..SHARDS).all(|shard| tracker.waiting(shard).len() == 0));
    let nothing = Progress { ordinal: 9, offset: 160, sum: 0, limit: NO_LIMIT, pending: false };
    assert_eq!(tracker.checkpoint(9, 160), Ok(nothing));
}

#[test]
fn document_01s_trial() {
    let mut tracker = Tracker::new();
    let mut file = ActiveFile { ordinal: 1, used: 0, capacity: 64, sealed: false };
    let first = tracker.reserve(0, &file, 16).unwrap();
    assert_eq!((first.number, first.place, first.used), (1, 0, 16));
    file.used = first.used;
    let second = tracker.reserve(1, &file, 16).unwrap();
    assert_eq!((second.number, second.place, second.used), (2, 16, 32));
    assert_eq!(tracker.record(0, 5), Ok(3));
    assert_eq!(tracker.complete(0, 1, 1), Ok(Finished::Done));
    assert_eq!(waits(&tracker, 0), [(1, 1), (3, 5)]);
    let progress = tracker.checkpoint(1, 32).unwrap();
    // document 02's request 6: the delta of number 1 counts
    assert_eq!(progress, Progress { ordinal: 1, offset: 16, sum: 1, limit: 2, pending: true });
    assert_eq!(tracker.drain(progress.limit), Ok(1));
    assert_eq!(tracker.abandon(1, 2), Ok(Finished::Done));
    let progress = tracker.checkpoint(1, 32).unwrap();
    assert_eq!(progress, Progress { ordinal: 1, offset: 32, sum: 5, limit: NO_LIMIT, pending: true });
    assert_eq!(tracker.drain(progress.limit), Ok(5));
    assert!(!tracker.checkpoint(1, 32).unwrap().pending);
}

#[test]
fn reserve_at_its_limits() {
    let used_up = Cells { next: u64::MAX, ..with(15, 32, false) };
    let far = u64::MAX - 15;
    let refusals = [
        (with(15, 3, true), 16, FILE, 16, Refusal::ShardTooLarge),
        (used_up.clone(), 16, FILE, 16, Refusal::ShardTooLarge),
        (used_up, 15, FILE, 16, Refusal::NumbersUsedUp),
        (with(15, 32, false), 15, ActiveFile { used: 8, ..FILE }, 16, Refusal::NoWaitingRoom),
        (with(15, 31, true), 15, ActiveFile { used: 8, capacity: LARGEST + 1, ..FILE }, 16, Refusal::NotOnLine),
        (with(15, 31, true), 15, ActiveFile { capacity: LARGEST + 1, ..FILE }, 0, Refusal::NotOnLine),
        (with(15, 31, true), 15, ActiveFile { capacity: LARGEST + 1, ..FILE }, 8, Refusal::NotOnLine),
        (
            with(15, 31, true),
            15,
            ActiveFile { capacity: LARGEST + 1, sealed: true, ..FILE },
            16,
            Refusal::RegionTooLarge,
        ),
        (with(15, 31, true), 15, ActiveFile { sealed: true, ..FILE }, 16, Refusal::NoSpace),
        (with(15, 31, true), 15, FILE, 32, Refusal::NoSpace),
        (with(15, 31, true), 15, ActiveFile { capacity: 47, ..FILE }, 16, Refusal::NoSpace),
        (with(15, 31, true), 15, ActiveFile { used: far, capacity: LARGEST, ..FILE }, 16, Refusal::NoSpace),
        (with(15, 31, true), 15, ActiveFile { used: 16, capacity: LARGEST, ..FILE }, far, Refusal::NoSpace),
    ];
    for (cells, shard, file, length, refusal) in refusals {
        refuses(&cells, refusal, |tracker| tracker.reserve(shard, &file, length));
    }
    // the queue may be one short of full, and an open slot is overwritten
    let mut tracker = Tracker::from_cells(with(15, 31, true));
    let reserved = tracker.reserve(15, &FILE, 16).unwrap();
    assert_eq!((reserved.number, reserved.place, reserved.used), (50, 32, 48));
    assert_eq!(tracker.slots()[15], Slot { number: 50, ordinal: 7, offset: 32 });
    assert_eq!((tracker.next_number(), tracker.waiting(15).len()), (51, 31));
    let all = ActiveFile { used: 0, capacity: LARGEST, ..FILE };
    assert_eq!(tracker.reserve(0, &all, LARGEST).unwrap().used, LARGEST);
    // the last number
    let mut tracker = Tracker::from_cells(cells(u64::MAX - 1));
    assert_eq!(tracker.reserve(0, &FILE, 16).unwrap().number, u64::MAX - 1);
    let last = tracker.into_cells();
    refuses(&last, Refusal::NumbersUsedUp, |tracker| tracker.reserve(0, &FILE, 16));
    refuses(&last, Refusal::NumbersUsedUp, |tracker| tracker.record(0, 1));
}

#[test]
fn record_at_its_limits() {
    let used_up = Cells { next: u64::MAX, ..with(15, 32, false) };
    refuses(&used_up, Refusal::ShardTooLarge, |tracker| tracker.record(16, 1));
    refuses(&used_up, Refusal::NumbersUsedUp, |tracker| tracker.record(15, 1));
    refuses(&with(15, 32, false), Refusal::NoWaitingRoom, |tracker| tracker.record(15, 1));
    refuses(&with(15, 31, true), Refusal::NoWaitingRoom, |tracker| tracker.record(15, 1));
    for (cells, delta) in [(with(15, 31, false), -128), (with(15, 30, true), 127), (with(15, 0, true), 0)] {
        let mut tracker = Tracker::from_cells(cells);
        let before = waits(&tracker, 15);
        assert_eq!(tracker.record(15, delta), Ok(50));
        assert_eq!(waits(&tracker, 15), [before, vec![(50, delta)]].concat());
        assert_eq!(tracker.next_number(), 51);
    }
}

#[test]
fn complete_and_abandon_at_their_limits() {
    for shard in [16, usize::MAX] {
        refuses(&with(15, 3, true), Refusal::ShardTooLarge, |tracker| tracker.complete(shard, 40, 1));
        refuses(&with(15, 3, true), Refusal::ShardTooLarge, |tracker| tracker.abandon(shard, 40));
    }
    // stale: no cell changes, and number 0 is nobody's
    for (cells, number) in [(with(15, 32, false), 0), (with(15, 31, true), 0), (with(15, 31, true), 41)] {
        let mut tracker = Tracker::from_cells(cells.clone());
        assert_eq!(tracker.complete(15, number, 1), Ok(Finished::Stale));
        assert_eq!(tracker.abandon(15, number), Ok(Finished::Stale));
        assert_eq!(tracker.cells(), &cells);
    }
    // done: only the slot's number changes, and a delta that isn't 0 waits
    for (delta, length) in [(-128, 32), (0, 31), (127, 32)] {
        let mut tracker = Tracker::from_cells(with(15, 31, true));
        assert_eq!(tracker.complete(15, 40, delta), Ok(Finished::Done));
        assert_eq!(tracker.slots()[15], Slot { number: 0, ordinal: 6, offset: 96 });
        assert_eq!(tracker.waiting(15).len(), length);
        assert_eq!(tracker.waiting(15).last().map(|last| last.delta), Some(if delta == 0 { 31 } else { delta }));
        assert!(tracker.is_sound());
        assert_eq!(tracker.complete(15, 40, delta), Ok(Finished::Stale));
    }
    let mut tracker = Tracker::from_cells(with(15, 31, true));
    assert_eq!(tracker.abandon(15, 40), Ok(Finished::Done));
    assert_eq!(tracker, Tracker::from_cells(with(15, 31, false)));
}

#[test]
fn a_completed_delta_waits_behind_its_equals() {
    for number in 1..=9 {
        let mut cells = cells(50);
        let before = [(2, 1), (4, 2), (4, 3), (4, 4), (8, 5)];
        for (i, (number, delta)) in before.into_iter().enumerate() {
            cells.numbers[15 * WAITING + i] = number;
            cells.deltas[15 * WAITING + i] = delta;
        }
        cells.lengths[15] = 5;
        cells.slots[15].number = number;
        let mut tracker = Tracker::from_cells(cells);
        assert_eq!(tracker.complete(15, number, -1), Ok(Finished::Done));
        let mut wanted = before.to_vec();
        wanted.push((number, -1));
        // a stable sort: what came last stands last among its equals
        wanted.sort_by_key(|&(number, _)| number);
        assert_eq!(waits(&tracker, 15), wanted);
        assert!(tracker.is_sound());
    }
}

#[test]
fn checkpoint_and_drain_take_every_number_below_the_limit() {
    let mut cells = cells(50);
    for (shard, waiting) in [(0, [(3, 4), (9, 1), (10, 2)]), (15, [(0, 8), (9, 16), (11, 32)])] {
        for (i, (number, delta)) in waiting.into_iter().enumerate() {
            cells.numbers[shard * WAITING + i] = number;
            cells.deltas[shard * WAITING + i] = delta;
        }
        cells.lengths[shard] = 3;
    }
    for (shard, number, ordinal, offset) in [(2, 10, 5, 16), (3, 20, 4, 96), (4, 30, 4, 80), (5, 40, 5, 0)] {
        cells.slots[shard] = Slot { number, ordinal, offset };
    }
    let mut tracker = Tracker::from_cells(cells.clone());
    let progress = tracker.checkpoint(9, 160).unwrap();
    assert_eq!(progress, Progress { ordinal: 4, offset: 80, sum: 29, limit: 10, pending: true });
    assert_eq!(tracker.cells(), &cells);
    assert_eq!(tracker.drain(progress.limit), Ok(29));
    assert_eq!(waits(&tracker, 0), [(10, 2)]);
    assert_eq!(waits(&tracker, 15), [(11, 32)]);
    assert_eq!(tracker.slots(), &cells.slots);
    assert_eq!(tracker.drain(0), Ok(0));
    assert_eq!(tracker.drain(NO_LIMIT), Ok(34));
    assert_eq!(tracker.waiting(0).len() + tracker.waiting(15).len(), 0);
    // the least and the greatest sum
    for (delta, sum) in [(-128, -65_536), (127, 65_024)] {
        let mut full = Cells { lengths: [32; SHARDS], next: u64::MAX, ..cells.clone() };
        full.slots = [Slot::default(); SHARDS];
        full.numbers = [u64::MAX - 1; SHARDS * WAITING];
        full.deltas = [delta; SHARDS * WAITING];
        let mut tracker = Tracker::from_cells(full);
        assert_eq!(tracker.checkpoint(0, 0).unwrap().sum, sum);
        assert_eq!(tracker.drain(u64::MAX - 1), Ok(0));
        assert_eq!(tracker.drain(u64::MAX), Ok(sum));
    }
}

#[test]
fn clear_keeps_the_next_number() {
    let mut tracker = Tracker::from_cells(Cells { next: u64::MAX, ..with(3, 31, true) });
    assert_eq!(tracker.clear(), Ok(()));
    assert_eq!(tracker, Tracker::from_cells(cells(u64::MAX)));
    assert_eq!(tracker.complete(3, 40, 1), Ok(Finished::Stale));
}

#[test]
fn unsound_trackers_are_refused_by_every_call() {
    for cells in unsound() {
        assert!(!Tracker::from_cells(cells.clone()).is_sound());
        refuses(&cells, Refusal::NotSound, |tracker| tracker.reserve(16, &ActiveFile::default(), 0));
        refuses(&cells, Refusal::NotSound, |tracker| tracker.record(16, 1));
        refuses(&cells, Refusal::NotSound, |tracker| tracker.complete(16, 40, 1));
        refuses(&cells, Refusal::NotSound, |tracker| tracker.abandon(16, 40));
        refuses(&cells, Refusal::NotSound, |tracker| tracker.checkpoint(9, 160));
        refuses(&cells, Refusal::NotSound, |tracker| tracker.drain(u64::MAX));
        refuses(&cells, Refusal::NotSound, |tracker| tracker.clear());
    }
    for cells in [with(0, 32, false), with(15, 31, true), cells(u64::MAX)] {
        assert!(Tracker::from_cells(cells).is_sound());
    }
    assert_eq!(Refusal::NotSound.number(), 28);
}

#[test]
fn one_slot_abandoned_in_place() {
    for number in [1, 40, u64::MAX] {
        let mut slot = Slot { number, ordinal: 5, offset: u64::MAX };
        assert!(slot.is_open());
        assert_eq!(slot.abandon(0), Finished::Stale);
        assert_eq!(slot.abandon(number - 1), Finished::Stale);
        assert_eq!(slot, Slot { number, ordinal: 5, offset: u64::MAX });
        assert_eq!(slot.abandon(number), Finished::Done);
        assert_eq!(slot, Slot { number: 0, ordinal: 5, offset: u64::MAX });
        assert!(!slot.is_open());
        assert_eq!(slot.abandon(0), Finished::Stale);
        assert_eq!(slot.abandon(number), Finished::Stale);
    }
}

#[test]
fn what_is_state_and_how_it_is_shown() {
    let tracker = Tracker::from_cells(with(3, 2, true));
    let mut other = with(3, 2, true);
    other.numbers[3 * WAITING + 2] = 1;
    other.deltas[3 * WAITING + 2] = 1;
    assert_eq!(tracker, Tracker::from_cells(other.clone()), "past a queue's length is no state");
    other.deltas[3 * WAITING + 1] = 1;
    assert_ne!(tracker, Tracker::from_cells(other));
    for change in [|c: &mut Cells| c.next = 51, |c: &mut Cells| c.slots[3].offset = 0, |c: &mut Cells| c.lengths[3] = 1]
    {
        let mut other = with(3, 2, true);
        change(&mut other);
        assert_ne!(tracker, Tracker::from_cells(other));
    }
    let shown =
        "Tracker { next: 50, slots: {3: Slot { number: 40, ordinal: 6, offset: 96 }}, waiting: {3: {1: 1, 2: 2}} }";
    assert_eq!(format!("{tracker:?}"), shown);
    let mut other = cells(1);
    other.lengths[15] = u64::MAX;
    let unsound = Tracker::from_cells(other);
    assert_eq!(unsound.waiting(15).len(), 32);
    assert_eq!(unsound.waiting(16).len(), 0);
    assert_eq!(unsound.waiting(usize::MAX).len(), 0);
    assert_eq!(
        format!("{unsound:?}"),
        "Tracker { next: 1, slots: {}, waiting: {15: length 18446744073709551615, over 32} }"
    );
    let mut copy = tracker.clone();
    assert_eq!(copy.clear(), Ok(()));
    assert_ne!(copy, tracker);
}
