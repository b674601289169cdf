//! The raw interface: the library's own functions and structs as include/locker_log.h declares them, which says what each
//! does. For those who compare or measure; everybody else has the safe interface around it.
#![allow(missing_docs)]

use crate::tracker::{Cells, Reserved, Slot};

/// An entry as the library tells it: `struct locker_entry`.
#[repr(C)]
#[derive(Clone, Copy, Debug, Default, PartialEq, Eq)]
pub struct RawEntry {
    pub offset: u64,
    pub kind: u64,
    pub ns: u64,
    pub klen: u64,
    pub vlen: u64,
    pub vplace: u64,
    pub kplace: u64,
    pub end: u64,
}

/// What a durable end took, as the library tells it: `struct locker_effort`.
#[repr(C)]
#[derive(Clone, Copy, Debug, Default, PartialEq, Eq)]
pub struct RawEffort {
    pub lines: u64,
    pub bytes: u64,
}

/// A checkpoint as the library tells it: `struct locker_progress`.
#[repr(C)]
#[derive(Clone, Copy, Debug, Default, PartialEq, Eq)]
pub struct RawProgress {
    pub ordinal: u64,
    pub offset: u64,
    pub sum: i64,
    pub limit: u64,
    pub pending: u64,
}

/// A search along slots as the library tells it: `struct locker_least`.
#[repr(C)]
#[derive(Clone, Copy, Debug, Default, PartialEq, Eq)]
pub struct RawLeast {
    pub any: bool,
    pub ordinal: u64,
    pub offset: u64,
    pub limit: u64,
}

const _: () = {
    use core::mem::{offset_of, size_of};
    assert!(size_of::<usize>() == 8);
    assert!(size_of::<RawEntry>() == 64);
    assert!(offset_of!(RawEntry, offset) == 0);
    assert!(offset_of!(RawEntry, kind) == 8);
    assert!(offset_of!(RawEntry, ns) == 16);
    assert!(offset_of!(RawEntry, klen) == 24);
    assert!(offset_of!(RawEntry, vlen) == 32);
    assert!(offset_of!(RawEntry, vplace) == 40);
    assert!(offset_of!(RawEntry, kplace) == 48);
    assert!(offset_of!(RawEntry, end) == 56);
    assert!(size_of::<RawEffort>() == 16);
    assert!(offset_of!(RawEffort, lines) == 0);
    assert!(offset_of!(RawEffort, bytes) == 8);
    // struct locker_counts
    assert!(size_of::<[[u32; 64]; 3]>() == 768);
    // struct locker_slot
    assert!(size_of::<Slot>() == 24);
    assert!(offset_of!(Slot, number) == 0);
    assert!(offset_of!(Slot, ordinal) == 8);
    assert!(offset_of!(Slot, offset) == 16);
    // struct locker_tracker
    assert!(size_of::<Cells>() == 5128);
    assert!(offset_of!(Cells, slots) == 0);
    assert!(offset_of!(Cells, numbers) == 384);
    assert!(offset_of!(Cells, deltas) == 4480);
    assert!(offset_of!(Cells, lengths) == 4992);
    assert!(offset_of!(Cells, next) == 5120);
    // struct locker_reserved
    assert!(size_of::<Reserved>() == 24);
    assert!(offset_of!(Reserved, number) == 0);
    assert!(offset_of!(Reserved, place) == 8);
    assert!(offset_of!(Reserved, used) == 16);
    assert!(size_of::<RawProgress>() == 40);
    assert!(offset_of!(RawProgress, ordinal) == 0);
    assert!(offset_of!(RawProgress, offset) == 8);
    assert!(offset_of!(RawProgress, sum) == 16);
    assert!(offset_of!(RawProgress, limit) == 24);
    assert!(offset_of!(RawProgress, pending) == 32);
    assert!(size_of::<RawLeast>() == 32);
    assert!(offset_of!(RawLeast, any) == 0);
    assert!(offset_of!(RawLeast, ordinal) == 8);
    assert!(offset_of!(RawLeast, offset) == 16);
    assert!(offset_of!(RawLeast, limit) == 24);
};

extern "C" {
    pub fn locker_hash(bytes: *const u8, length: usize) -> u16;
    pub fn locker_update(state: u16, bytes: *const u8, length: usize) -> u16;
    pub fn locker_read_header(header: *const u8, length: usize, version: *mut u64, ordinal: *mut u64) -> u32;
    pub fn locker_write_header(lent: *mut u8, length: usize, version: u64, ordinal: u64) -> u32;
    pub fn locker_read_at(
        region: *const u8,
        length: usize,
        version: u64,
        ordinal: u64,
        p: usize,
        hint: usize,
        entry: *mut RawEntry,
    ) -> u32;
    pub fn locker_append_data(
        region: *mut u8,
        length: usize,
        version: u64,
        ordinal: u64,
        used: usize,
        kind: u64,
        ns: u64,
        key: *const u8,
        klen: usize,
        value: *const u8,
        vlen: usize,
        next: *mut u64,
    ) -> u32;
    pub fn locker_append_tombstone(
        region: *mut u8,
        length: usize,
        version: u64,
        ordinal: u64,
        used: usize,
        ns: u64,
        key: *const u8,
        klen: usize,
        next: *mut u64,
    ) -> u32;
    pub fn locker_walk(
        region: *const u8,
        length: usize,
        version: u64,
        ordinal: u64,
        bound: usize,
        offset: usize,
        entry: *mut RawEntry,
        found: *mut u64,
        place: *mut u64,
    ) -> u32;
    pub fn locker_part(region: *const u8, length: usize, at: usize, len: usize, start: *mut u64, count: *mut u64);
    pub fn locker_used_bound(region: *const u8, length: usize, bound: *mut u64) -> u32;
    pub fn locker_durable_end(
        region: *const u8,
        length: usize,
        version: u64,
        ordinal: u64,
        bound: usize,
        end: *mut u64,
        place: *mut u64,
        effort: *mut RawEffort,
    ) -> u32;
    pub fn locker_count_entries(
        region: *const u8,
        length: usize,
        version: u64,
        ordinal: u64,
        grid: *mut [[u32; 64]; 3],
        place: *mut u64,
    ) -> u32;
    pub fn locker_replay_data(klen: usize, vlen: usize, maximum: usize) -> u32;
    pub fn locker_replay_tombstone(klen: usize, maximum: usize) -> u32;
    pub fn locker_start_file(ordinals: *const u64, count: usize, cursor: u64, place: *mut u64, found: *mut u64) -> u32;
    pub fn locker_tracker_fresh(t: *mut Cells) -> u32;
    pub fn locker_tracker_is_sound(t: *const Cells) -> bool;
    pub fn locker_tracker_reserve(
        t: *mut Cells,
        shard: usize,
        ordinal: u64,
        used: u64,
        capacity: u64,
        sealed: bool,
        length: u64,
        reserved: *mut Reserved,
    ) -> u32;
    pub fn locker_tracker_record(t: *mut Cells, shard: usize, delta: i8, number: *mut u64) -> u32;
    pub fn locker_tracker_complete(t: *mut Cells, shard: usize, number: u64, delta: i8, done: *mut u64) -> u32;
    pub fn locker_tracker_abandon(t: *mut Cells, shard: usize, number: u64, done: *mut u64) -> u32;
    pub fn locker_tracker_checkpoint(t: *const Cells, ordinal: u64, used: u64, progress: *mut RawProgress) -> u32;
    pub fn locker_tracker_drain(t: *mut Cells, limit: u64, sum: *mut i64) -> u32;
    pub fn locker_tracker_clear(t: *mut Cells) -> u32;
    pub fn locker_slot_abandon(slot: *mut Slot, number: u64, done: *mut u64) -> u32;
    pub fn locker_least_along(slots: *const Slot, count: usize, ordinal: u64, used: u64, least: *mut RawLeast) -> u32;
}
