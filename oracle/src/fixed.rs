//! Inputs that are the same in every run: short ones, all of them, and every limit with its neighbours.
use std::collections::BTreeSet;

use crate::{
    calls::{grid_bytes, up16, Call, Header, Region, Slot, State, Step, HEADER, MAX_REGION},
    draw::{
        self, fresh_state, mark_zero, put, put_claims, Claim, BUFFER_END, FILLING_ORDINAL, MOST_COVERED, NO_VERSIONS,
        WINDOW, WINDOW_STEP,
    },
    rng::Rng,
};

type Calls = Box<dyn Iterator<Item = Call>>;

/// Document 01: in version 1 the mark is 0 here.
const MARK_ZERO: usize = 173_966_336;

/// A file of version 1. Its ordinal must have no effect.
pub const FIRST: Header = Header { version: 1, ordinal: 0xfedc_ba98_7654_3210 };

pub fn second(ordinal: u64) -> Header {
    Header { version: 2, ordinal }
}

fn region(bytes: Vec<u8>) -> Region {
    Region::Dense(bytes)
}

fn entry(p: usize, kind: u32, ns: u32, tombstone: bool, key: &[u8], value: &[u8]) -> Vec<u8> {
    draw::entry(FIRST, p, kind, ns, tombstone, key, value)
}

/// Every string of at most two bytes.
fn sums() -> Calls {
    let one = (0..256u32).map(|a| vec![a as u8]);
    let two = (0..65_536u32).map(|ab| ab.to_le_bytes()[..2].to_vec());
    Box::new(std::iter::once(vec![]).chain(one).chain(two).map(|bytes| Call::Hash { bytes }))
}

/// Every checksum on the least tombstone and, at each 16th, on the least data entry: one of 65,536 verifies.
fn all_sums_of_one_entry() -> Calls {
    let tombstone = (0..65_536u32).map(|sum| {
        let mut bytes = entry(0, 2, 1, true, &[], &[]);
        bytes[6..8].copy_from_slice(&(sum as u16).to_le_bytes());
        Call::Walk { header: FIRST, region: region(bytes), bound: 8, offset: 0 }
    });
    let data = (0..65_536u32).step_by(16).flat_map(|low| {
        let right = entry(0, 0, 1, false, &[], &[]);
        let sum = low as u16 | u16::from(right[8] & 15);
        let mut bytes = right;
        bytes[8..10].copy_from_slice(&sum.to_le_bytes());
        [
            Call::ReadAt { header: FIRST, region: region(bytes.clone()), place: 0, hint: 10 },
            Call::Walk { header: FIRST, region: region(bytes), bound: 10, offset: 0 },
        ]
    });
    Box::new(tombstone.chain(data))
}

/// Every type and namespace in both layouts, with a right checksum and with a wrong one.
fn words() -> Calls {
    Box::new((0..1024u32).flat_map(|word| {
        let (kind, ns, tombstone, wrong) = (word & 3, word >> 2 & 63, word >> 8 & 1 == 1, word >> 9 == 1);
        let mut bytes = entry(0, kind, ns, tombstone, b"k", b"v");
        if wrong {
            bytes[5] ^= 0x80;
        }
        let place = Call::ReadAt { header: FIRST, region: region(bytes.clone()), place: 0, hint: 512 };
        let bound = bytes.len() as u64;
        [place, Call::Walk { header: FIRST, region: region(bytes), bound, offset: 0 }]
    }))
}

/// Short regions of a few patterns with every bound and offset, one past the end too.
fn short_walks() -> Calls {
    Box::new((0..5u32).flat_map(|pattern| {
        (0..=34usize).flat_map(move |length| {
            let mut bytes = vec![0; length];
            match pattern {
                1 => put(&mut bytes, 0, &entry(0, 0, 1, false, b"A7", b"9")),
                2 => put(&mut bytes, 16, &entry(16, 2, 1, true, &[], &[])),
                3 => {
                    put(&mut bytes, 0, &entry(0, 1, 1, false, b"A7", b"9")[..12]);
                    put(&mut bytes, 16, &entry(16, 3, 1, false, &[], &[]));
                }
                4 => {
                    put(&mut bytes, 0, &entry(0, 2, 9, true, b"nested", &[]));
                    put(&mut bytes, 16, &entry(16, 1, 1, false, &[], b"12345678"));
                }
                _ => {}
            }
            let n = length as u64;
            let walks = (0..=n + 1).flat_map(move |bound| (0..=n + 1).map(move |offset| (bound, offset)));
            let kept = bytes.clone();
            let ends =
                (0..=n + 1).map(move |bound| Call::DurableEnd { header: FIRST, region: region(kept.clone()), bound });
            walks
                .map(move |(bound, offset)| Call::Walk { header: FIRST, region: region(bytes.clone()), bound, offset })
                .chain(ends)
        })
    }))
}

/// One byte that isn't zero, at every place of every short region; and none.
fn short_bounds() -> Calls {
    Box::new((0..=66usize).flat_map(|length| {
        (0..=length).map(move |at| {
            let mut bytes = vec![0; length];
            put(&mut bytes, at, &[1]);
            Call::UsedBound { region: region(bytes) }
        })
    }))
}

/// A data entry read from every place near it with every hint.
fn short_reads() -> Calls {
    Box::new((0..=32usize).flat_map(|length| {
        let mut bytes = vec![0; length];
        put(&mut bytes, 0, &entry(0, 0, 1, false, b"A7", b"9"));
        put(&mut bytes, 16, &entry(16, 1, 63, false, &[], b"1"));
        (0..=length as u64 + 17).flat_map(move |place| {
            let bytes = bytes.clone();
            let hints = (0..=20).chain([u64::MAX >> 1, 1 << 63, u64::MAX]);
            hints.map(move |hint| Call::ReadAt { header: FIRST, region: region(bytes.clone()), place, hint })
        })
    }))
}

/// Small appends at every used count of every short region.
fn short_appends() -> Calls {
    Box::new((0..=50usize).flat_map(|length| {
        (0..=length as u64 + 17).filter(|used| used % 16 < 2).flat_map(move |used| {
            (0..=8usize).flat_map(move |klen| {
                let (lent, key) = (region(vec![7; length]), vec![b'k'; klen]);
                let tombstone =
                    Call::AppendTombstone { header: FIRST, region: lent.clone(), used, ns: 1, key: key.clone() };
                let data = [0usize, 1, 6].map(|vlen| Call::AppendData {
                    region: lent.clone(),
                    header: FIRST,
                    used,
                    kind: vlen as u64 % 2,
                    ns: 63,
                    key: key.clone(),
                    value: vec![b'v'; vlen],
                });
                std::iter::once(tombstone).chain(data)
            })
        })
    }))
}

/// Three appends in a row, over every order of the three types, read, walked and bounded after each.
fn small_logs() -> Calls {
    Box::new((0..27usize).flat_map(|order| {
        let mut bytes = vec![0; 64];
        let mut p = 0;
        for kind in [order % 3, order / 3 % 3, order / 9] {
            let written = entry(p, kind as u32, 1, kind == 2, b"A7", if kind == 1 { b"10" } else { b"9" });
            put(&mut bytes, p, &written);
            p += up16(written.len() as u64) as usize;
        }
        let lent = region(bytes);
        let reads =
            (0..4u64).map(|line| Call::ReadAt { header: FIRST, region: lent.clone(), place: 16 * line, hint: 512 });
        let mut calls: Vec<Call> = reads.collect();
        calls.push(Call::Listing { header: FIRST, region: lent.clone(), bound: 64 });
        calls.push(Call::DurableEnd { header: FIRST, region: lent.clone(), bound: 64 });
        calls.push(Call::UsedBound { region: lent });
        calls
    }))
}

/// Every trace of three calls over a small alphabet, on two shards, from a fresh tracker and from one near the last number.
fn short_traces() -> Vec<(State, Vec<Step>)> {
    let reserve =
        |shard, ordinal, used| Step::Reserve { shard, ordinal, used, capacity: 4096, sealed: false, length: 16 };
    let alphabet = [
        reserve(0, 2, 0),
        reserve(1, 1, 32),
        Step::Record { shard: 0, delta: 3 },
        Step::Record { shard: 1, delta: 0 },
        Step::Complete { shard: 0, number: 1, delta: 1 },
        Step::Complete { shard: 1, number: 2, delta: -1 },
        Step::Complete { shard: 0, number: 0, delta: 1 },
        Step::Abandon { shard: 0, number: 1 },
        Step::Checkpoint { ordinal: 3, used: 48 },
        Step::Drain { limit: 2 },
        Step::Drain { limit: u64::MAX },
        Step::Clear,
    ];
    let near_end = State { next: u64::MAX - 2, ..fresh_state() };
    let mut traces = Vec::new();
    for start in [fresh_state(), near_end] {
        for code in 0..12 * 12 * 12 {
            let steps = [code % 12, code / 12 % 12, code / 144].map(|i| alphabet[i].clone()).to_vec();
            traces.push((start.clone(), steps));
        }
    }
    traces
}

/// Each call of the tracker but clear, on shard 0 where it has one.
fn on_shard_0() -> [Step; 6] {
    [
        Step::Reserve { shard: 0, ordinal: 1, used: 0, capacity: 64, sealed: false, length: 16 },
        Step::Record { shard: 0, delta: 1 },
        Step::Complete { shard: 0, number: 1, delta: 1 },
        Step::Abandon { shard: 0, number: 1 },
        Step::Checkpoint { ordinal: 1, used: 0 },
        Step::Drain { limit: 20 },
    ]
}

/// The queue of one shard filled from empty, with its slot idle and open, and every call at each length.
fn full_queues() -> Calls {
    Box::new((0..=32usize).flat_map(|count| {
        [0u64, 1].into_iter().flat_map(move |number| {
            let mut state = State { next: 50, ..fresh_state() };
            state.queues[0] = (0..count).map(|i| (i as u64 + 2, 1)).collect();
            state.slots[0] = Slot { number, ordinal: 1, offset: 16 };
            on_shard_0().into_iter().map(move |step| Call::Track { state: Box::new(state.clone()), step })
        })
    }))
}

/// Into a queue of every length under 32, with the numbers 2, 4, 6 and so on, every number up to one above the last: each
/// place, and each place behind an equal.
fn completions() -> Calls {
    Box::new((0..32u64).flat_map(|count| {
        (1..2 * count + 2).map(move |number| {
            let mut state = State { next: 70, ..fresh_state() };
            state.queues[3] = (1..=count).map(|i| (2 * i, i as i64)).collect();
            state.slots[3] = Slot { number, ordinal: 1, offset: 16 };
            Call::Track { state: Box::new(state), step: Step::Complete { shard: 3, number, delta: -1 } }
        })
    }))
}

/// Queues of every length that ascend but for one pair, wherever it stands.
fn descents() -> Calls {
    Box::new((2..=32u64).flat_map(|count| {
        (1..count).flat_map(move |pair| {
            let mut state = State { next: 70, ..fresh_state() };
            state.queues[15] = (1..=count).map(|i| (i, 1)).collect();
            state.queues[15].swap(pair as usize - 1, pair as usize);
            let steps = on_shard_0().into_iter().chain([Step::Clear]);
            steps.map(move |step| Call::Track { state: Box::new(state.clone()), step })
        })
    }))
}

/// Space: used count, length and capacity around each other, and around 2^64.
fn reserve_limits() -> Calls {
    let numbers = [0, 1, 15, 16, 17, 32, 48, 1 << 63, u64::MAX - 31, u64::MAX - 15, u64::MAX];
    let capacities = [0, 15, 16, 31, 32, 48, 49, MAX_REGION as u64, MAX_REGION as u64 + 1, u32::MAX.into(), u64::MAX];
    Box::new(numbers.into_iter().flat_map(move |used| {
        numbers.into_iter().flat_map(move |length| {
            capacities.into_iter().flat_map(move |capacity| {
                [false, true].map(|sealed| Call::Track {
                    state: Box::new(fresh_state()),
                    step: Step::Reserve { shard: 15, ordinal: 7, used, capacity, sealed, length },
                })
            })
        })
    }))
}

/// A file's header; of its version the four bytes that it has.
fn head(header: Header) -> Vec<u8> {
    let mut head = vec![0; HEADER];
    head[..8].copy_from_slice(b"LOCKDAT1");
    head[8..12].copy_from_slice(&(header.version as u32).to_le_bytes());
    head[16..24].copy_from_slice(&header.ordinal.to_le_bytes());
    head
}

fn header_limits() -> Calls {
    let head = head(Header { version: 1, ordinal: u64::MAX });
    let kept = head.clone();
    let lengths = [0, 1, 24, 4094, 4095, 4096, 4097, 8192].map(|length| {
        let mut bytes = kept.clone();
        bytes.resize(length, 9);
        Call::ReadHeader { bytes }
    });
    let bits = (0..4096 / 8).chain(32_760..32_768).map(move |bit: usize| {
        let mut bytes = head.clone();
        bytes[bit / 8] ^= 1 << (bit % 8);
        Call::ReadHeader { bytes }
    });
    let header = Header { version: 1, ordinal: u64::MAX - 1 };
    let writes = [0, 1, 4095, 4096, 4097, 5000].map(|length| Call::WriteHeader { lent: vec![9; length], header });
    Box::new(lengths.into_iter().chain(bits).chain(writes))
}

fn append_limits() -> Calls {
    let lent = |length: usize| region(vec![1; length]);
    let mut calls = Vec::new();
    for klen in [0, 1, 4095, 4096, 4097, 65_535, 65_536, 65_537] {
        calls.push(Call::AppendTombstone { header: FIRST, region: lent(70_000), used: 16, ns: 63, key: vec![2; klen] });
        for vlen in [0, 1, 32_767, 32_768, 32_769, 65_535, 65_536, 65_537] {
            calls.push(Call::AppendData {
                region: lent(140_000),
                header: FIRST,
                used: 0,
                kind: 1,
                ns: 0,
                key: vec![2; klen],
                value: vec![3; vlen],
            });
        }
    }
    for ns in [0, 63, 64, 255, 256, u64::MAX] {
        calls.push(Call::AppendTombstone { header: FIRST, region: lent(64), used: 0, ns, key: vec![] });
        for kind in [0, 1, 2, 3, 4, u64::MAX] {
            calls.push(Call::AppendData {
                header: FIRST,
                region: lent(64),
                used: 0,
                kind,
                ns,
                key: vec![],
                value: vec![],
            });
        }
    }
    // The largest writable entry, and one byte of room too few.
    for length in [36_879, 36_880, 36_881] {
        let (key, value) = (vec![4; 4096], vec![5; 32_768]);
        calls.push(Call::AppendData { header: FIRST, region: lent(length), used: 0, kind: 0, ns: 1, key, value });
    }
    for used in [u64::MAX, u64::MAX - 15, u64::MAX - 31, 1 << 63, 48, 64, 80] {
        calls.push(Call::AppendTombstone { header: FIRST, region: lent(64), used, ns: 1, key: vec![] });
        calls.push(Call::AppendData {
            header: FIRST,
            region: lent(64),
            used,
            kind: 0,
            ns: 1,
            key: vec![],
            value: vec![],
        });
    }
    Box::new(calls.into_iter())
}

fn place_limits() -> Calls {
    let bytes = entry(0, 0, 1, false, b"k", b"v");
    let last = (1u64 << 63) - 4096;
    let places =
        [0, 1, 16, last - 16, last, last + 16, 1 << 63, u64::MAX - 4111, u64::MAX - 4095, u64::MAX - 15, u64::MAX];
    let hints = [0, 7, 8, 11, 12, 13, 1 << 40, (1 << 63) - 1, 1 << 63, u64::MAX];
    // An entry one byte past a line, whose mark is that line's: the original reads it.
    let past_a_line = [&[0], &bytes[..]].concat();
    let off_line = Call::ReadAt { header: FIRST, region: region(past_a_line), place: 1, hint: 12 };
    let limits = places.into_iter().flat_map(move |place| {
        let bytes = bytes.clone();
        hints.into_iter().map(move |hint| Call::ReadAt { header: FIRST, region: region(bytes.clone()), place, hint })
    });
    Box::new(std::iter::once(off_line).chain(limits))
}

/// Entries of every length of two bytes at which something changes, whole and one byte short, behind an offset.
fn long_entries() -> Calls {
    let lengths = [(0, 65_535), (65_535, 0), (65_535, 65_535), (4097, 32_769), (40_000, 60_000), (0, 32_768)];
    Box::new(lengths.into_iter().flat_map(|(klen, vlen)| {
        [0usize, 16, 131_056].into_iter().flat_map(move |p| {
            let whole = entry(p, 1, 3, false, &vec![6; klen], &vec![7; vlen]);
            [0usize, 1].into_iter().flat_map(move |short| {
                let mut bytes = vec![0; p];
                bytes.extend(&whole[..whole.len() - short]);
                let (lent, n) = (region(bytes.clone()), (p + whole.len() - short) as u64);
                [
                    Call::Walk { header: FIRST, region: lent.clone(), bound: n, offset: 0 },
                    Call::ReadAt { header: FIRST, region: lent.clone(), place: p as u64, hint: 200_000 },
                    Call::DurableEnd { header: FIRST, region: lent, bound: n },
                ]
            })
        })
    }))
}

/// The largest region, one byte more and one less, and the place where the mark is 0.
fn large_regions() -> Calls {
    let mut calls = Vec::new();
    for length in [MAX_REGION - 1, MAX_REGION, MAX_REGION + 1, MARK_ZERO + 8, MARK_ZERO + 64] {
        let bytes = entry(MARK_ZERO, 0, 1, false, b"k", b"v");
        for bytes in [vec![0; 8], bytes.clone(), [&[0; 3], &bytes[3..]].concat(), vec![0, 0, 0, 0xc0]] {
            let bytes = bytes[..bytes.len().min(length - MARK_ZERO)].to_vec();
            let lent = Region::Sparse { length, at: MARK_ZERO, bytes };
            let p = MARK_ZERO as u64;
            calls.push(Call::Walk {
                header: FIRST,
                region: lent.clone(),
                bound: (p + 64).min(length as u64),
                offset: p - 17,
            });
            calls.push(Call::ReadAt { header: FIRST, region: lent.clone(), place: p, hint: 512 });
            calls.push(Call::AppendData {
                header: FIRST,
                region: lent.clone(),
                used: p,
                kind: 0,
                ns: 0,
                key: vec![],
                value: vec![],
            });
            calls.push(Call::AppendTombstone { header: FIRST, region: lent, used: p, ns: 0, key: b"key".to_vec() });
        }
    }
    let too_large = Region::Sparse { length: MAX_REGION + 1, at: 0, bytes: vec![] };
    calls.push(Call::UsedBound { region: too_large.clone() });
    calls.push(Call::DurableEnd { header: FIRST, region: too_large, bound: MAX_REGION as u64 + 1 });
    let last = MAX_REGION - 16;
    let flush = Region::Sparse { length: MAX_REGION, at: last, bytes: entry(last, 2, 1, true, b"A7", &[]) };
    let n = MAX_REGION as u64;
    calls.push(Call::Walk { header: FIRST, region: flush.clone(), bound: n, offset: n - 40 });
    calls.push(Call::UsedBound { region: flush.clone() });
    calls.push(Call::DurableEnd { header: FIRST, region: flush, bound: n });
    let zero = Region::Sparse { length: MAX_REGION, at: MARK_ZERO, bytes: entry(MARK_ZERO, 1, 0, false, &[], &[]) };
    calls.push(Call::UsedBound { region: zero.clone() });
    calls.push(Call::DurableEnd { header: FIRST, region: zero.clone(), bound: MARK_ZERO as u64 + 16 });
    calls.push(Call::Walk { header: FIRST, region: zero, bound: n, offset: MARK_ZERO as u64 + 1 });
    Box::new(calls.into_iter())
}

fn replay_limits() -> Calls {
    let maxima = |size: u64| {
        [
            0,
            size.saturating_sub(16),
            size - 1,
            size,
            size + 1,
            MAX_REGION as u64,
            MAX_REGION as u64 + 1,
            u32::MAX.into(),
            1 << 32,
            u64::MAX,
        ]
    };
    let klens = [0, 1, 5, 6, 7, 8, 9, 4095, 4096, 4097, 65_535];
    Box::new(klens.into_iter().flat_map(move |klen| {
        let tombstones = maxima(up16(8 + klen)).map(|maximum| Call::ReplayTombstone { klen, maximum });
        let data = [0, 1, 6, 32_767, 32_768, 32_769, 65_535].into_iter().flat_map(move |vlen| {
            maxima(up16(10 + klen + vlen)).map(|maximum| Call::ReplayData { klen, vlen, maximum })
        });
        tombstones.into_iter().chain(data)
    }))
}

/// Every list of at most four ordinals below 5, every cursor; and lists of 63 to 66: sorted up and down, and with a last
/// ordinal that stands in the list before.
fn start_lists() -> Calls {
    let short = (0..=4u32).flat_map(|count| {
        (0..5u64.pow(count)).flat_map(move |code| {
            let ordinals: Vec<u64> = (0..count).map(|i| code / 5u64.pow(i) % 5).collect();
            (0..6).map(move |cursor| Call::StartFile { ordinals: ordinals.clone(), cursor })
        })
    });
    let long = (63..=66u64).flat_map(|count| {
        let up: Vec<u64> = (0..count).collect();
        let down: Vec<u64> = (0..count).rev().collect();
        let pairs = [0, 30, count - 2].map(|first| (0..count - 1).chain([first]).collect());
        [up, down].into_iter().chain(pairs).flat_map(|ordinals| {
            [0, 62, 63, 64, 65, u64::MAX].map(|cursor| Call::StartFile { ordinals: ordinals.clone(), cursor })
        })
    });
    Box::new(short.chain(long))
}

/// Marks one off, at the first lines.
fn wrong_marks() -> Calls {
    Box::new((0..24u32).flat_map(|bit| {
        [0usize, 16, 32].map(|p| {
            let mut bytes = vec![0; p];
            bytes.extend(entry(p, 0, 1, false, b"k", &[]));
            let word = (FIRST.mark(p as u64) ^ 1 << bit) | 1 << 24;
            bytes[p..p + 4].copy_from_slice(&word.to_le_bytes());
            Call::Walk { header: FIRST, bound: bytes.len() as u64, region: region(bytes), offset: 0 }
        })
    }))
}

// ---- versions

/// Each call that takes a version, with right versions and wrong ones: alone, and beside one other thing that is wrong
/// or all of them. 2 comes before all others, but in the header writer after 1.
fn version_limits() -> Calls {
    let headers = [1, 2]
        .into_iter()
        .chain(NO_VERSIONS)
        .flat_map(|version| [3, u64::MAX].map(|ordinal| Header { version, ordinal }));
    Box::new(headers.flat_map(|header| {
        let mut written = draw::entry(header, 0, 0, 1, false, b"k", b"v");
        written.resize(32, 0);
        let regions =
            [region(vec![]), region(written), Region::Sparse { length: MAX_REGION + 1, at: 0, bytes: vec![] }];
        let writes = [0, 4095, 4096, 4100].map(|length| Call::WriteHeader { lent: vec![9; length], header });
        regions.into_iter().flat_map(move |lent| wrong_in_turn(header, &lent)).chain(writes)
    }))
}

fn wrong_in_turn(header: Header, lent: &Region) -> Vec<Call> {
    let (lent, n) = (|| lent.clone(), lent.len() as u64);
    let mut calls = Vec::new();
    for place in [0, 8, 16, u64::MAX] {
        calls.extend([0, 12, 512].map(|hint| Call::ReadAt { region: lent(), header, place, hint }));
    }
    for bound in [0, n, n + 1, u64::MAX] {
        calls.extend([0, 1, u64::MAX].map(|offset| Call::Walk { region: lent(), header, bound, offset }));
        calls.push(Call::Listing { region: lent(), header, bound });
        calls.push(Call::DurableEnd { region: lent(), header, bound });
    }
    let appends = [
        (0, 0, 1, 0, 0),
        (8, 0, 1, 0, 0),
        (0, 2, 1, 0, 0),
        (0, 0, 64, 0, 0),
        (0, 0, 1, 4097, 0),
        (0, 0, 1, 0, 32_769),
        (16, 1, 1, 0, 0),
        (8, 2, 64, 4097, 32_769),
    ];
    for (used, kind, ns, klen, vlen) in appends {
        let (key, value) = (vec![1; klen], vec![2; vlen]);
        calls.push(Call::AppendTombstone { region: lent(), header, used, ns, key: key.clone() });
        calls.push(Call::AppendData { region: lent(), header, used, kind, ns, key, value });
    }
    calls
}

/// Headers of either version with every other byte in every place of the version's field, and boots of a few versions.
fn header_versions() -> Calls {
    let changed = [1, 2].into_iter().flat_map(|version| {
        (0..4 * 256usize).map(move |change| {
            let mut bytes = head(Header { version, ordinal: u64::MAX - 1 });
            bytes[8 + change / 256] = change as u8;
            Call::ReadHeader { bytes }
        })
    });
    let boots = [0, 1, 2, 3, 0x101, 0x102, 0x201, 1 << 24, 2 << 24, u32::MAX.into()].map(|version| {
        let header = Header { version, ordinal: 9 };
        Call::Boot { file: [head(header), draw::entry(header, 0, 1, 1, false, b"k", b"v")].concat() }
    });
    Box::new(changed.chain(boots))
}

/// Whatever reads a region, on its first lines and on all of it.
fn looks(header: Header, bytes: &[u8]) -> Vec<Call> {
    let (lent, bound) = (|| region(bytes.to_vec()), bytes.len() as u64);
    vec![
        Call::ReadAt { region: lent(), header, place: 0, hint: 512 },
        Call::ReadAt { region: lent(), header, place: 16, hint: 512 },
        Call::Walk { region: lent(), header, bound, offset: 1 },
        Call::Listing { region: lent(), header, bound },
        Call::DurableEnd { region: lent(), header, bound },
        Call::Boot { file: [&head(header)[..], bytes].concat() },
    ]
}

/// Lines of 0xff and of zeros, under the ordinals at which the first mark is 0xFFFFFF or 0 and their neighbours.
fn filled_lines() -> Calls {
    let near = FILLING_ORDINAL - 2..=FILLING_ORDINAL + 3;
    let far = [FILLING_ORDINAL + (1 << 24), FILLING_ORDINAL + (u64::MAX << 24)];
    Box::new(near.chain(far).flat_map(|ordinal| {
        [1, 2].into_iter().flat_map(move |version| {
            [7, 8, 16, 24, 40].into_iter().flat_map(move |length| {
                [0xff, 0].into_iter().flat_map(move |byte| looks(Header { version, ordinal }, &vec![byte; length]))
            })
        })
    }))
}

/// Files of which some have the same marks: version 1's, and ordinals that agree modulo 2^24.
fn files() -> Vec<Header> {
    let step = 1 << 24;
    let ordinals = [0, 1, 2, 1 << 16, 1 << 23, step - 1, step, step + 1, FILLING_ORDINAL, 1 << 63, u64::MAX << 24];
    [FIRST].into_iter().chain(ordinals.map(second)).chain([second(u64::MAX)]).collect()
}

/// Entries that were written in one file, read in another, at their own places and a line before them; and appends over
/// them.
fn recycled_cards() -> Calls {
    Box::new(files().into_iter().flat_map(|old| {
        files().into_iter().flat_map(move |new| {
            let mut bytes = vec![0; 64];
            put(&mut bytes, 0, &draw::entry(old, 0, 0, 1, false, b"A7", b"9"));
            put(&mut bytes, 16, &draw::entry(old, 16, 1, 1, false, b"A7", b"10"));
            put(&mut bytes, 32, &draw::entry(old, 32, 2, 1, true, b"A7", &[]));
            let mut calls = looks(new, &bytes);
            calls.extend(looks(new, &bytes[16..]));
            for used in [0, 16] {
                let (lent, key) = (region(bytes.clone()), b"A8".to_vec());
                calls.push(Call::AppendTombstone { region: lent.clone(), header: new, used, ns: 2, key: key.clone() });
                calls.push(Call::AppendData { region: lent, header: new, used, kind: 1, ns: 2, key, value: vec![3] });
            }
            calls
        })
    }))
}

/// The last line of the largest region, and the line whose mark is 0, wherever the ordinal puts it.
fn large_files() -> Calls {
    Box::new(files().into_iter().flat_map(|header| {
        [mark_zero(header), MAX_REGION - 16].into_iter().flat_map(move |p| {
            let written = draw::entry(header, p, 0, 1, false, b"k", b"v");
            [vec![0; 16], written].into_iter().flat_map(move |bytes| {
                let (lent, place) = (Region::Sparse { length: MAX_REGION, at: p, bytes }, p as u64);
                let (bound, offset) = ((place + 64).min(MAX_REGION as u64), place.saturating_sub(17));
                [
                    Call::Walk { region: lent.clone(), header, bound, offset },
                    Call::ReadAt { region: lent.clone(), header, place, hint: 512 },
                    Call::AppendTombstone { region: lent, header, used: place, ns: 0, key: b"key".to_vec() },
                ]
            })
        })
    }))
}

// ---- what a durable end takes

/// One file of version 1 and two of version 2, in the last of which the third line has the mark 0, so that zeros match it.
fn counted_files() -> [Header; 3] {
    [FIRST, second(5), second(FILLING_ORDINAL - 1)]
}

/// A hostile region in which no checksum agrees: the two last bytes are none of its entries' sums.
pub fn hostile(header: Header, length: usize) -> Vec<u8> {
    let bytes = draw::hostile(header, length, [0, 0]);
    let summed = (0..length.saturating_sub(7)).step_by(16).map(|p| &bytes[p..length - 2]);
    let sums: BTreeSet<u16> = summed.map(|entry| crc16_ibm3740_fast::hash(entry) as u16).collect();
    let no_sum = (0x0101..=u16::MAX).find(|sum| !sums.contains(sum)).unwrap();
    draw::hostile(header, length, no_sum.to_le_bytes())
}

/// The durable end at some bounds, and the boot from a file with that region.
fn ends(header: Header, bytes: &[u8], bounds: impl IntoIterator<Item = u64>) -> Vec<Call> {
    let end = |bound| Call::DurableEnd { region: region(bytes.to_vec()), header, bound };
    let boot = Call::Boot { file: [&head(header)[..], bytes].concat() };
    bounds.into_iter().map(end).chain([boot]).collect()
}

/// Zeros but for twenty hostile lines around the place where the original's first read buffer ends, each with the longest
/// entry that can be.
fn around_buffer_end(header: Header) -> Vec<u8> {
    let mut bytes = draw::hostile(header, 280_000, [1, 1]);
    bytes[..BUFFER_END - 160].fill(0);
    bytes[BUFFER_END + 160..].fill(0);
    bytes
}

/// Hostile regions of all short lengths, of some of them every bound, and one whose walk sums 134 million bytes.
fn hostile_regions() -> Calls {
    let short = counted_files().into_iter().flat_map(|header| {
        (0..=130usize).flat_map(move |length| {
            let n = length as u64;
            let every = matches!(length, 7 | 8 | 16 | 40 | 47..=49 | 55..=57 | 64);
            ends(header, &hostile(header, length), if every { 0..=n + 1 } else { n..=n })
        })
    });
    let around = counted_files().into_iter().flat_map(|header| {
        let bytes = around_buffer_end(header);
        ends(header, &bytes, [BUFFER_END as u64, BUFFER_END as u64 + 8, bytes.len() as u64])
    });
    let long = [4096, 4999, 65_536].into_iter().map(|length| {
        let header = second(5);
        Call::DurableEnd { region: region(hostile(header, length)), header, bound: length as u64 }
    });
    Box::new(short.chain(around).chain(long))
}

/// Entries behind lines of zeros or hostile ones, flush with the region's end or one or two bytes past it, the checksum
/// right or wrong, and the bound at the region's end or just past it, at the entry's line or just past that.
fn last_entries() -> Calls {
    Box::new(counted_files().into_iter().flat_map(|header| {
        [0, 16, 48].into_iter().flat_map(move |p| {
            [0, 1, 2].into_iter().flat_map(move |kind| {
                [0, 1, 3, 7, 30].into_iter().flat_map(move |klen| last_entry(header, p, kind, klen))
            })
        })
    }))
}

fn last_entry(header: Header, p: usize, kind: u32, klen: usize) -> Vec<Call> {
    let right = draw::entry(header, p, kind, 1, kind == 2, &vec![b'k'; klen], &[]);
    let mut wrong = right.clone();
    wrong[3] ^= 1;
    let mut calls = Vec::new();
    for written in [right, wrong] {
        for length in written.len() - 2..=written.len() {
            let n = p + length;
            for before in [vec![0; n], draw::hostile(header, n, [0, 0])] {
                let bytes = [&before[..p], &written[..length]].concat();
                calls.extend(ends(header, &bytes, [n, n + 1, p, p + 1].map(|bound| bound as u64)));
            }
        }
    }
    calls
}

/// Type 3 behind tried lines: whole, its checksum right or wrong, or past the region's end; with 8 bytes left and with 7;
/// below the bound, at it and past it.
fn unknown_types() -> Calls {
    let mut calls = Vec::new();
    for header in counted_files() {
        for p in [0, 16, 32, 48, 80] {
            let right = draw::entry(header, p, 3, 1, false, b"key", b"and value");
            let mut wrong = right.clone();
            wrong[3] ^= 1;
            for left in [7, 8, 9, 12, 21, 22, 40, 64] {
                for written in [&right, &wrong] {
                    let mut bytes = draw::hostile(header, p + left, [0, 0]);
                    put(&mut bytes, p, written);
                    let (at, n) = (p as u64, bytes.len() as u64);
                    calls.extend(ends(header, &bytes, [n, at, at + 1, n - 1]));
                }
            }
        }
    }
    Box::new(calls.into_iter())
}

/// An entry with others in its value, of which the first, the last or none holds type 3: whole, one byte past the region's
/// end, with a wrong checksum, and with hostile lines behind it. Where it verifies no line inside it is tried.
fn nested_entries() -> Calls {
    let mut calls = Vec::new();
    for header in counted_files() {
        for (count, unknown) in (1..=4).flat_map(|count| [0, 1, count].map(|unknown| (count, unknown))) {
            let mut value = vec![0; 16 * count + 8];
            for line in 1..=count {
                let kind = if line == unknown { 3 } else { line as u32 % 3 };
                put(&mut value, 16 * line - 8, &draw::entry(header, 16 * line, kind, 1, kind == 2, b"in", b""));
            }
            let outer = draw::entry(header, 0, 1, 2, false, b"outer", &value);
            let n = outer.len();
            let mut wrong = outer.clone();
            wrong[3] ^= 1;
            let mut followed = draw::hostile(header, n + 40, [0, 0]);
            put(&mut followed, 0, &outer);
            for bytes in [&outer[..], &outer[..n - 1], &wrong, &followed] {
                calls.extend(ends(header, bytes, [1, 16, 17, bytes.len() as u64]));
            }
        }
    }
    Box::new(calls.into_iter())
}

// ---- grids

/// A count into a grid that has another number in each cell, so that a cell that isn't written, or shouldn't be, is seen.
fn counting(header: Header, region: Region) -> Call {
    let lent = std::array::from_fn(|kind| std::array::from_fn(|ns| (64 * kind + ns + 1) as u32 * 0x0101_0101));
    Call::CountEntries { region, header, lent: grid_bytes(&lent) }
}

/// The regions of the durable ends above that go to the region's end.
fn counted_regions() -> Calls {
    let groups = [
        large_regions(),
        long_entries(),
        small_logs(),
        short_walks(),
        version_limits(),
        filled_lines(),
        recycled_cards(),
        last_entries(),
        unknown_types(),
        nested_entries(),
    ];
    Box::new(groups.into_iter().flatten().filter_map(|call| match call {
        Call::DurableEnd { region, header, bound } if bound == region.len() as u64 => Some(counting(header, region)),
        _ => None,
    }))
}

/// A log with the least entry of each of these kinds, in their order: 64 for each type, one for each of its namespaces.
/// From 192 on they are of type 3.
pub fn log_of(header: Header, kinds: impl IntoIterator<Item = usize>) -> Vec<u8> {
    let mut bytes = Vec::new();
    for kind in kinds {
        let (ns, kind) = (kind as u32 % 64, kind as u32 / 64);
        bytes.extend(draw::entry(header, bytes.len(), kind, ns, kind == 2, &[], &[]));
        bytes.resize(up16(bytes.len() as u64) as usize, 0xff);
    }
    bytes
}

/// Each kind alone; all of them, up and down, with type 3 before them, among them and behind them; another number of each;
/// and more of one kind than one byte holds, and two.
fn kinds() -> Calls {
    Box::new(counted_files().into_iter().flat_map(|header| {
        let logs = move |kinds: Vec<usize>| counting(header, region(log_of(header, kinds)));
        let alone = (0..192).map(move |kind| logs(vec![kind]));
        let unknown = [0, 1, 96, 191, 192].map(|before| (0..before).chain([255]).chain(before..192).collect());
        let numbers = (0..192).flat_map(|kind| vec![kind; kind + 1]).collect();
        let all =
            [(0..192).collect(), (0..192).rev().collect(), numbers, vec![69; 255], vec![69; 256], vec![191; 65_537]];
        alone.chain(unknown.into_iter().chain(all).map(logs))
    }))
}

/// Entries that end in zeros, most of them past the used bound: flush with the region's end, one byte past it, before it.
fn zero_ends() -> Calls {
    Box::new(counted_files().into_iter().flat_map(|header| {
        (0..3 * 40).flat_map(move |i| {
            let (kind, zeros) = (i % 3, i as usize / 3);
            [0, 32].into_iter().flat_map(move |p| {
                let written = draw::ending_in_zeros(header, p, kind, 63, zeros);
                let end = p + written.len();
                [end - 1, end, end + 1, end + 40].map(|length| {
                    let mut bytes = log_of(header, vec![1; p / 16]);
                    bytes.resize(length, 0);
                    put(&mut bytes, p, &written);
                    counting(header, region(bytes))
                })
            })
        })
    }))
}

/// The largest region and its neighbours: nothing in it, an entry, type 3; and type 3 a mebibyte on.
fn large_counts() -> Calls {
    let lengths = [MAX_REGION - 1, MAX_REGION, MAX_REGION + 1];
    let starts = lengths.into_iter().flat_map(|length| {
        let some = [entry(0, 2, 63, true, b"A7", &[]), vec![], entry(0, 3, 1, false, &[], &[])];
        some.map(|bytes| Region::Sparse { length, at: 0, bytes })
    });
    let far = Region::Sparse { length: MAX_REGION, at: 1 << 20, bytes: entry(1 << 20, 3, 1, false, &[], &[]) };
    Box::new(starts.chain([far]).map(|region| counting(FIRST, region)))
}

// ---- long entries

/// The durable end of random bytes with these lines, each by its place, the bytes that its sum covers and whether that is
/// right; and the count of its entries.
fn claimed(header: Header, length: usize, lines: &[(usize, usize, bool)]) -> [Call; 2] {
    let claims: Vec<Claim> = lines
        .iter()
        .enumerate()
        .map(|(i, &(place, covered, right))| Claim { place, covered, kind: i as u32 % 3, right })
        .collect();
    let mut bytes = Rng::new(length as u64).bytes(length);
    put_claims(header, &mut bytes, &claims);
    let bound = length as u64;
    [Call::DurableEnd { region: region(bytes.clone()), header, bound }, counting(header, region(bytes))]
}

/// A right entry behind one wrong long one, or behind two whose sums cover all of it: of each length around the ones from
/// which on a sum is long, and so that it ends at a place of a window that begins at the line behind the first, or up to
/// three bytes before it or behind it. A second right entry and a wrong one that covers it follow. Then a right one behind a
/// wrong one that has summed twice as many bytes as lie before it, one more or one less.
fn behind_long_entries() -> Calls {
    let lengths = [255, 256, 257, 510, 511, 512, 513, 514, 767, 768, 769];
    let lengths = [16, 32, 48, 256, 272, 288].into_iter().flat_map(move |p| lengths.map(|covered| (p, covered)));
    let places = [16usize, 32, 256, 272, 288, 1040].into_iter().flat_map(|p| {
        [0, 1, 2, 3, 100, 507].into_iter().flat_map(move |steps| {
            let end = 16 + p.next_multiple_of(WINDOW_STEP) + (2 + steps) * WINDOW_STEP;
            (end - 3..=end + 3).map(move |end| (p, end - p))
        })
    });
    let behind = lengths.chain(places).enumerate().flat_map(|(i, (p, covered))| {
        let next = up16((p + covered + 2) as u64) as usize;
        [1, 2].into_iter().filter(move |wrong| 16 * wrong <= p).flat_map(move |wrong| {
            let wrong = (0..wrong).map(|line| (16 * line, MOST_COVERED, false));
            let lines: Vec<_> =
                wrong.chain([(p, covered, true), (next, 5000, false), (next + 16, 2000, true)]).collect();
            claimed(counted_files()[i % 3], 140_000, &lines)
        })
    });
    let twice = [1040, 4096, 32_000].into_iter().flat_map(|p| {
        (2 * p - 1..=2 * p + 1).flat_map(move |summed| {
            [511, 512, 513, 40_000].into_iter().flat_map(move |covered| {
                claimed(FIRST, 110_000, &[(0, summed, false), (p, covered, true), (p + 48_000, 700, true)])
            })
        })
    });
    Box::new(behind.chain(twice))
}

/// Behind a chain of wrong long entries a right one that ends where a window ends that begins at the line behind the first,
/// at the first or at the second, or up to three bytes before that or behind it; with wrong ones just before it and without;
/// and a right one behind it. Then wrong entries over three windows and more, with a right one flush with the region's end,
/// or a byte past it.
fn behind_windows() -> Calls {
    let chain = [0, 16, 32_768, 65_536, 98_304, 131_056];
    let ends = [0, 16, 32_768].into_iter().flat_map(|begin| begin + WINDOW - 3..=begin + WINDOW + 3);
    let far = ends.flat_map(move |end| {
        [131_072, 100_000, 70_000, 1024, 512].into_iter().flat_map(move |about| {
            [0, 2].into_iter().flat_map(move |before| {
                let p = (end - about).next_multiple_of(16);
                let next = up16(end as u64 + 2) as usize;
                let wrong = chain.into_iter().chain((1..=before).rev().map(|lines| p - 16 * lines));
                let wrong = wrong.filter(|&place| place < p).map(|place| (place, MOST_COVERED, false));
                let mut lines: Vec<_> = wrong.chain([(p, end - p, true), (next + 32, 3000, true)]).collect();
                lines.sort_unstable();
                claimed(second(5), 420_000, &lines)
            })
        })
    });
    let anew = [0, 1].into_iter().flat_map(|short| {
        [512, 513, 40_000, MOST_COVERED].into_iter().flat_map(move |covered| {
            let length = 900_000 + (covered + 2) % 16;
            let wrong = (0..45).map(|i| (20_000 * i, MOST_COVERED.min(length - 20_000 * i - 2), false));
            let p = length - covered - 2;
            let mut lines: Vec<_> = wrong.filter(|&(place, ..)| place != p).chain([(p, covered, true)]).collect();
            lines.sort_unstable();
            claimed(FIRST, length - short, &lines)
        })
    });
    Box::new(far.chain(anew))
}

/// All calls that stand for themselves. New groups stand behind the others: of these a sample is recorded by place.
pub fn calls() -> impl Iterator<Item = Call> {
    let groups: Vec<Calls> = vec![
        large_regions(),
        header_limits(),
        append_limits(),
        place_limits(),
        long_entries(),
        replay_limits(),
        start_lists(),
        wrong_marks(),
        words(),
        small_logs(),
        full_queues(),
        reserve_limits(),
        short_bounds(),
        short_reads(),
        short_appends(),
        short_walks(),
        all_sums_of_one_entry(),
        sums(),
        completions(),
        descents(),
        version_limits(),
        header_versions(),
        filled_lines(),
        recycled_cards(),
        large_files(),
        hostile_regions(),
        last_entries(),
        unknown_types(),
        nested_entries(),
        counted_regions(),
        kinds(),
        zero_ends(),
        large_counts(),
        behind_long_entries(),
        behind_windows(),
    ];
    groups.into_iter().flatten()
}

/// Traces, which go on from the state that each call leaves.
pub fn traces() -> Vec<(State, Vec<Step>)> {
    short_traces()
}

/// How many calls these are.
pub fn count() -> u64 {
    let steps: usize = traces().iter().map(|(_, steps)| steps.len()).sum();
    (calls().count() + steps) as u64
}
