//! One call of the original again and again, for `bench/run`: what the comparison puts around each call (a file set up anew,
//! panics caught) stands around the whole row here.
use super::*;

impl File {
    /// `append_kv`, or `append_tombstone` where there is no value, `count` times from the region's start on, in the
    /// namespaces from 0 to 63 in turn; each guard is dropped. The used count afterwards.
    pub fn append_again(&mut self, capacity: u32, key: &[u8], value: Option<&[u8]>, count: u64) -> Answer<u64> {
        self.set_up(0, false, capacity, 0);
        caught(|| {
            for i in 0..count {
                let ns = (i % 64) as u8;
                let (_, _, guard) = match value {
                    Some(value) => self.data.append_kv(EntryType::Insert, ns, key, value, 0, &self.appends)?,
                    None => self.data.append_tombstone(ns, key, 0, &self.appends)?,
                };
                drop(guard);
            }
            Ok(self.data.used_bytes())
        })
    }

    /// `read_next_entry_ref` from the region's start on to `bound`, the read buffer kept, each entry counted by its type and
    /// namespace.
    pub fn count_listed(&mut self, bound: u64) -> Answer<[[u32; 64]; 3]> {
        self.data.file_offset.store(bound, Ordering::Relaxed);
        let mut kept = Buffer::default();
        caught(|| {
            let (mut counts, mut offset) = ([[0; 64]; 3], 0);
            while let Some((kv, _, end)) =
                self.data.read_next_entry_ref(offset, &mut kept.bytes, &mut kept.file_offset)?
            {
                counts[kv.entry_type as usize][kv.ns as usize] += 1;
                offset = end;
            }
            Ok(counts)
        })
    }

    /// `write_all_at` of the same bytes, `count` times from the region's start on: the system's part of an append.
    pub fn write_again(&self, bytes: &[u8], count: u64) -> Answer<()> {
        caught(|| {
            for i in 0..count {
                write_all_at(&self.data.file, bytes, HEADER + i * bytes.len() as u64).map_err(Error::IOError)?;
            }
            Ok(())
        })
    }

    /// `read_into_at` of the whole region by the read buffer's size: the system's part of a scan.
    pub fn read_all(&self, length: u64) -> Answer<()> {
        let mut buffer = Vec::new();
        caught(|| {
            let mut at = 0;
            while at < length {
                read_into_at(&self.data.file, &mut buffer, READ_BUFFER_SIZE, HEADER + at).map_err(Error::IOError)?;
                at += READ_BUFFER_SIZE as u64;
            }
            Ok(())
        })
    }
}

impl Tracker {
    /// `reserve` of `length` bytes and the guard's `complete_with_delta(0)`, `count` times from used count 0 on. The used
    /// count afterwards.
    pub fn reserve_and_complete_again(
        &self,
        file: &mut File,
        shard: usize,
        ordinal: u64,
        capacity: u32,
        length: u64,
        count: u64,
    ) -> Answer<u64> {
        file.set_up(0, false, capacity, ordinal);
        caught(|| {
            for _ in 0..count {
                let (_, guard) = self.0.reserve(&file.data, shard, length, 0)?;
                guard.complete_with_delta(0);
            }
            Ok(file.data.used_bytes())
        })
    }

    /// `record_index_delta` and a `drain_completed_before` of everything, `count` times. All drained sums together.
    pub fn record_and_drain_again(&self, shard: usize, delta: i8, count: u64) -> Answer<i64> {
        caught(|| {
            let mut total = 0;
            for _ in 0..count {
                self.0.record_index_delta(shard, delta);
                total += self.0.drain_completed_before(u64::MAX);
            }
            Ok(total)
        })
    }

    /// `checkpoint_progress`, `count` times, the `shard`'s slot at another place each time. All answered numbers together.
    pub fn checkpoint_again(&self, file: &mut File, ordinal: u64, shard: usize, count: u64) -> Answer<u64> {
        file.set_up(0, false, 0, ordinal);
        caught(|| {
            let mut total = 0u64;
            for i in 0..count {
                self.0.slots[shard].offset.store(16 * i, Ordering::Relaxed);
                let (ordinal, offset, sum, limit, pending) = self.0.checkpoint_progress(&file.data);
                for number in [ordinal, offset, sum as u64, limit, pending.into()] {
                    total = total.wrapping_add(number);
                }
            }
            Ok(total)
        })
    }
}
