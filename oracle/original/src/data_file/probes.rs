//! Calls of the original's functions, private ones too, on a file that is kept and set up anew for each call.
use std::{
    os::unix::fs::FileExt,
    panic::{catch_unwind, AssertUnwindSafe},
};

use super::*;
use crate::types::Failure;

mod again;

thread_local! {
    static INSIDE: std::cell::Cell<bool> = const { std::cell::Cell::new(false) };
}

/// The original's panics are answers, and aren't shown; others are.
pub fn show_other_panics() {
    let shown = std::panic::take_hook();
    std::panic::set_hook(Box::new(move |info| {
        if !INSIDE.get() {
            shown(info);
        }
    }));
}

/// The function's answer; an error or a panic as a failure.
pub fn caught<T>(call: impl FnOnce() -> Result<T>) -> std::result::Result<T, Failure> {
    INSIDE.set(true);
    let answer = catch_unwind(AssertUnwindSafe(call));
    INSIDE.set(false);
    match answer {
        Ok(Ok(answer)) => Ok(answer),
        Ok(Err(error)) => Err(error.into()),
        Err(payload) => Err(Failure::Panicked(
            payload
                .downcast_ref::<String>()
                .cloned()
                .or_else(|| payload.downcast_ref::<&str>().map(|words| words.to_string()))
                .unwrap_or_default(),
        )),
    }
}

type Answer<T> = std::result::Result<T, Failure>;

/// An entry as the original tells it.
#[derive(Debug, Clone, PartialEq, Eq)]
pub struct Found {
    pub kind: u32,
    pub ns: u8,
    pub key: Vec<u8>,
    pub value: Vec<u8>,
    pub offset: u64,
    pub end: u64,
}

/// The read buffer that a listing keeps from one entry to the next.
#[derive(Default)]
pub struct Buffer {
    bytes: Vec<u8>,
    file_offset: u64,
}

const HEADER: u64 = PAGE_SIZE as u64;

/// A data file whose region is put in place before each call.
pub struct File {
    data: DataFile,
    length: u64,
    appends: InflightTracker,
}

impl File {
    pub fn new(file: std::fs::File) -> Self {
        let data = DataFile {
            file,
            file_offset: AtomicU64::new(0),
            dirty: AtomicBool::new(false),
            sync_lock: Mutex::new(()),
            sealed_for_rotation: AtomicBool::new(false),
            config: Arc::new(Config { max_data_file_size: 0 }),
            file_idx: 0,
            file_ordinal: 0,
            retained_tombstone_bytes: AtomicU64::new(0),
            tombstone_retention_generation: AtomicU64::new(u64::MAX),
            preallocated: true,
            recovery_tail_upper_bound: 0,
        };
        File { data, length: u64::MAX, appends: InflightTracker::new(1) }
    }

    /// Makes the region `length` bytes long.
    pub fn set_length(&mut self, length: u64) {
        if self.length != length {
            self.data.file.set_len(HEADER + length).expect("the file's length");
            self.length = length;
        }
    }

    /// Puts bytes over the region.
    pub fn put(&self, at: u64, bytes: &[u8]) {
        self.data.file.write_all_at(bytes, HEADER + at).expect("the file's bytes");
    }

    /// Bytes of the region.
    pub fn get(&self, at: u64, count: usize) -> Vec<u8> {
        let mut bytes = vec![0; count];
        self.data.file.read_exact_at(&mut bytes, HEADER + at).expect("the file's bytes");
        bytes
    }

    /// The used count after a call.
    pub fn used_now(&self) -> u64 {
        self.data.used_bytes()
    }

    /// The region's length as the file has it after a call.
    pub fn length_now(&self) -> u64 {
        self.data.file.metadata().expect("the file's length").len() - HEADER
    }

    fn set_up(&mut self, used: u64, sealed: bool, capacity: u32, ordinal: u64) {
        self.data.file_offset.store(used, Ordering::Relaxed);
        self.data.sealed_for_rotation.store(sealed, Ordering::Relaxed);
        Arc::get_mut(&mut self.data.config).expect("one owner").max_data_file_size = capacity;
        self.data.file_ordinal = ordinal;
    }

    /// `read_kv_into` and `read_kv`, which have to agree.
    pub fn read_at(&self, place: u64, hint: usize) -> Answer<Found> {
        let mut buf = Vec::new();
        let lent = caught(|| {
            let kv = self.data.read_kv_into(place, hint, &mut buf)?;
            let (key, value) = (kv.key().to_vec(), kv.value().to_vec());
            Ok((kv.entry_type as u32, kv.ns, key, value))
        });
        let owned = caught(|| {
            let kv = self.data.read_kv(place, hint)?;
            let (key, value) = (kv.key().to_vec(), kv.value().to_vec());
            Ok((kv.entry_type as u32, kv.ns, key, value))
        });
        assert_eq!(lent, owned, "read_kv_into and read_kv differ");
        lent.map(|(kind, ns, key, value)| {
            let end = place + 10 + (key.len() + value.len()) as u64;
            Found { kind, ns, key, value, offset: place, end }
        })
    }

    /// `append_kv`, or `append_tombstone` where there is no value: the place and the aligned length.
    pub fn append(
        &mut self,
        used: u64,
        capacity: u32,
        kind: u8,
        ns: u8,
        key: &[u8],
        value: Option<&[u8]>,
    ) -> Answer<(u64, u64)> {
        self.set_up(used, false, capacity, 0);
        let kind = match kind {
            0 => EntryType::Insert,
            1 => EntryType::Update,
            2 => EntryType::Tombstone,
            _ => EntryType::Extended,
        };
        caught(|| {
            let (place, length, guard) = match value {
                Some(value) => self.data.append_kv(kind, ns, key, value, 0, &self.appends)?,
                None => self.data.append_tombstone(ns, key, 0, &self.appends)?,
            };
            drop(guard);
            assert_eq!(self.data.used_bytes(), place + length as u64, "the used count isn't the entry's end");
            Ok((place, length as u64))
        })
    }

    /// `read_next_entry_ref`: the next entry, or none at the end.
    pub fn walk(&mut self, bound: u64, offset: u64, buffer: &mut Buffer) -> Answer<Option<Found>> {
        self.data.file_offset.store(bound, Ordering::Relaxed);
        caught(|| {
            let next = self.data.read_next_entry_ref(offset, &mut buffer.bytes, &mut buffer.file_offset)?;
            Ok(next.map(|(kv, offset, end)| Found {
                key: kv.key().to_vec(),
                value: kv.value().to_vec(),
                ns: kv.ns,
                kind: kv.entry_type as u32,
                offset,
                end,
            }))
        })
    }

    /// `used_data_upper_bound`.
    pub fn used_bound(&self, length: u64) -> Answer<u64> {
        caught(|| DataFile::used_data_upper_bound(&self.data.file, length))
    }

    /// `detect_used_bytes`.
    pub fn durable_end(&self, bound: u64) -> Answer<u64> {
        caught(|| self.data.detect_used_bytes(bound))
    }
}

/// `read_header`: the ordinal.
pub fn read_header(file: &std::fs::File) -> Answer<u64> {
    caught(|| Ok(DataFile::read_header(file)?.ordinal))
}

/// `create`: makes the file number 0 of the folder.
pub fn create(folder: &Path, ordinal: u64, capacity: u32) -> Answer<()> {
    caught(|| DataFile::create(folder, Arc::new(Config { max_data_file_size: capacity }), 0, ordinal).map(drop))
}

/// What `open` finds out of a file.
#[derive(Debug, Clone, PartialEq, Eq)]
pub struct Opened {
    pub ordinal: u64,
    pub bound: u64,
    pub used: u64,
}

/// `open` of the file number 0 of the folder, with its tail validated.
pub fn open(folder: &Path, capacity: u32) -> Answer<Opened> {
    caught(|| {
        let data = DataFile::open(folder, Arc::new(Config { max_data_file_size: capacity }), 0, true)?;
        Ok(Opened { ordinal: data.file_ordinal, bound: data.recovery_tail_upper_bound(), used: data.used_bytes() })
    })
}

#[derive(Debug, Clone, Copy, PartialEq, Eq, Default)]
pub struct Slot {
    pub number: u64,
    pub ordinal: u64,
    pub offset: u64,
}

/// All that a tracker of sixteen shards holds.
#[derive(Debug, Clone, PartialEq, Eq)]
pub struct State {
    pub slots: [Slot; 16],
    pub queues: [Vec<(u64, i64)>; 16],
    pub next: u64,
}

pub struct Tracker(InflightTracker);

impl Tracker {
    pub fn new() -> Self {
        Tracker(InflightTracker::new(16))
    }

    pub fn state(&self) -> State {
        State {
            slots: std::array::from_fn(|shard| {
                let slot = &self.0.slots[shard];
                Slot {
                    number: slot.seq.load(Ordering::Relaxed),
                    ordinal: slot.ordinal.load(Ordering::Relaxed),
                    offset: slot.offset.load(Ordering::Relaxed),
                }
            }),
            queues: std::array::from_fn(|shard| self.0.completed_deltas[shard].lock().iter().copied().collect()),
            next: self.0.next_seq.load(Ordering::Relaxed),
        }
    }

    pub fn set_state(&self, state: &State) {
        for (slot, from) in self.0.slots.iter().zip(&state.slots) {
            slot.seq.store(from.number, Ordering::Relaxed);
            slot.ordinal.store(from.ordinal, Ordering::Relaxed);
            slot.offset.store(from.offset, Ordering::Relaxed);
        }
        for (queue, from) in self.0.completed_deltas.iter().zip(&state.queues) {
            *queue.lock() = from.iter().copied().collect();
        }
        self.0.next_seq.store(state.next, Ordering::Relaxed);
    }

    /// `reserve`: number, place and the used count afterwards. The guard is kept from its end: the comparison makes its own.
    pub fn reserve(
        &self,
        file: &mut File,
        shard: usize,
        ordinal: u64,
        used: u64,
        capacity: u32,
        sealed: bool,
        length: u64,
    ) -> Answer<(u64, u64, u64)> {
        file.set_up(used, sealed, capacity, ordinal);
        caught(|| {
            let (place, guard) = self.0.reserve(&file.data, shard, length, 0)?;
            let number = guard.seq;
            std::mem::forget(guard);
            Ok((number, place, file.data.used_bytes()))
        })
    }

    fn guard(&self, shard: usize, number: u64) -> InflightGuard<'_> {
        InflightGuard { tracker: &self.0, shard_idx: shard, seq: number, delta: 0, armed: true }
    }

    /// A guard's `complete_with_delta`. For a shard that isn't there the function behind it: the guard would panic a
    /// second time while it is dropped, and end the process.
    pub fn complete(&self, shard: usize, number: u64, delta: i8) -> Answer<()> {
        caught(|| {
            if shard < 16 {
                self.guard(shard, number).complete_with_delta(delta);
            } else {
                self.0.complete_matching(shard, number, delta);
            }
            Ok(())
        })
    }

    /// A guard that is dropped.
    pub fn abandon(&self, shard: usize, number: u64) -> Answer<()> {
        caught(|| {
            drop(self.guard(shard, number));
            Ok(())
        })
    }

    pub fn record(&self, shard: usize, delta: i8) -> Answer<()> {
        caught(|| {
            self.0.record_index_delta(shard, delta);
            Ok(())
        })
    }

    /// `checkpoint_progress`: ordinal, offset, sum, limit, pending.
    pub fn checkpoint(&self, file: &mut File, ordinal: u64, used: u64) -> Answer<(u64, u64, i64, u64, bool)> {
        file.set_up(used, false, 0, ordinal);
        caught(|| Ok(self.0.checkpoint_progress(&file.data)))
    }

    pub fn drain(&self, limit: u64) -> Answer<i64> {
        caught(|| Ok(self.0.drain_completed_before(limit)))
    }

    pub fn clear(&self) -> Answer<()> {
        caught(|| {
            self.0.clear_all();
            Ok(())
        })
    }
}

impl Default for Tracker {
    fn default() -> Self {
        Self::new()
    }
}
