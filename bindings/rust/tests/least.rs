//! The search along a run of slots.

use locker_log::{least_along, ActiveFile, Least, Slot, Tracker, NO_LIMIT};

#[test]
fn along_runs_of_any_length() {
    let slot = |number, ordinal, offset| Slot { number, ordinal, offset };
    let run = [slot(0, 0, 0), slot(30, 5, 16), slot(20, 4, 96), slot(40, 4, 80), slot(10, 5, 0), slot(0, 1, 1)];
    let nothing = Least { any: false, ordinal: 9, offset: 160, limit: NO_LIMIT };
    let least = |ordinal, offset, limit| Least { any: true, ordinal, offset, limit };
    let wanted = [nothing, nothing, least(5, 16, 30), least(4, 96, 20), least(4, 80, 20), least(4, 80, 10)];
    for (count, wanted) in wanted.into_iter().enumerate() {
        assert_eq!(least_along(&run[..count], 9, 160), wanted, "{count} slots");
    }
    assert_eq!(least_along(&run, 9, 160), least(4, 80, 10));
    let top = slot(u64::MAX, u64::MAX, u64::MAX);
    assert_eq!(least_along(&[top; 1000], 0, 0), least(u64::MAX, u64::MAX, u64::MAX));
}

#[test]
fn as_a_checkpoint_has_it() {
    let mut tracker = Tracker::new();
    for (shard, ordinal, used) in [(3, 7, 32), (0, 6, 48), (15, 7, 0)] {
        let file = ActiveFile { ordinal, used, capacity: 64, sealed: false };
        tracker.reserve(shard, &file, 16).unwrap();
        let (least, progress) = (least_along(tracker.slots(), 9, 160), tracker.checkpoint(9, 160).unwrap());
        assert_eq!(
            (least.any, least.ordinal, least.offset, least.limit),
            (progress.pending, progress.ordinal, progress.offset, progress.limit)
        );
    }
}
