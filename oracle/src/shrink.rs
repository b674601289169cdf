//! The smallest call that still parts the two sides: runs of bytes shorter, bytes zero, numbers lower, states emptier, as
//! long as one of these helps.
use std::time::{Duration, Instant};

use crate::{
    calls::{Call, Region, Slot, State},
    codec::Parts,
};

/// How often a smaller call may be asked, and how long: a hostile region takes up to a second.
const PATIENCE: usize = 20_000;
const LONGEST: Duration = Duration::from_secs(120);

fn smaller_numbers(number: u64) -> Vec<u64> {
    let mut smaller =
        vec![0, 1, number / 2, number.saturating_sub(4096), number.saturating_sub(16), number.saturating_sub(1)];
    smaller.retain(|&other| other < number);
    smaller.dedup();
    smaller
}

fn smaller_bytes(bytes: &[u8]) -> Vec<Vec<u8>> {
    let length = bytes.len();
    let mut smaller: Vec<Vec<u8>> = [length / 2, length.saturating_sub(16), length.saturating_sub(1)]
        .into_iter()
        .filter(|&other| other < length)
        .map(|other| bytes[..other].to_vec())
        .collect();
    let mut width = length.next_power_of_two();
    while width > 0 {
        for start in (0..length).step_by(width).take(256) {
            let end = (start + width).min(length);
            if bytes[start..end].iter().any(|&byte| byte != 0) {
                let mut zeroed = bytes.to_vec();
                zeroed[start..end].fill(0);
                smaller.push(zeroed);
            }
        }
        width /= 2;
    }
    smaller
}

fn smaller_states(state: &State) -> Vec<State> {
    let mut smaller = Vec::new();
    let mut with = |change: &dyn Fn(&mut State)| {
        let mut other = state.clone();
        change(&mut other);
        if other != *state {
            smaller.push(other);
        }
    };
    with(&|s| s.slots = Default::default());
    with(&|s| s.queues = Default::default());
    for shard in 0..16 {
        with(&|s| s.slots[shard] = Slot::default());
        with(&|s| s.queues[shard].clear());
        with(&|s| s.queues[shard].truncate(s.queues[shard].len().saturating_sub(1)));
        with(&|s| s.slots[shard].offset = 0);
        with(&|s| s.slots[shard].ordinal = 0);
        with(&|s| s.slots[shard].number = s.slots[shard].number.min(1));
        with(&|s| s.queues[shard].iter_mut().for_each(|item| *item = (item.0.min(1), item.1.signum())));
    }
    for next in smaller_numbers(state.next) {
        with(&|s| s.next = next);
    }
    smaller
}

fn smaller(parts: &Parts) -> Vec<Parts> {
    let mut all = Vec::new();
    for (i, blob) in parts.blobs.iter().enumerate() {
        let others: Vec<Region> = match blob {
            Region::Dense(bytes) => smaller_bytes(bytes).into_iter().map(Region::Dense).collect(),
            Region::Sparse { length, at, bytes } => smaller_bytes(bytes)
                .into_iter()
                .map(|bytes| Region::Sparse { length: *length, at: *at, bytes })
                .collect(),
        };
        all.extend(others.into_iter().map(|other| {
            let mut parts = parts.clone();
            parts.blobs[i] = other;
            parts
        }));
    }
    for (i, &number) in parts.numbers.iter().enumerate() {
        all.extend(smaller_numbers(number).into_iter().map(|other| {
            let mut parts = parts.clone();
            parts.numbers[i] = other;
            parts
        }));
    }
    if let Some(state) = &parts.state {
        all.extend(
            smaller_states(state).into_iter().map(|other| Parts { state: Some(Box::new(other)), ..parts.clone() }),
        );
    }
    all
}

/// A call that `parts_them` holds of, and of no call a little smaller that was tried.
pub fn shrink(call: &Call, mut parts_them: impl FnMut(&Call) -> bool) -> Call {
    let mut least = call.clone();
    let mut tried = 0;
    let start = Instant::now();
    loop {
        let next = smaller(&least.parts()).into_iter().filter_map(|parts| parts.call()).find(|call| {
            tried += 1;
            tried <= PATIENCE && start.elapsed() < LONGEST && parts_them(call)
        });
        match next {
            Some(call) => least = call,
            None => return least,
        }
    }
}
