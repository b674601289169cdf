//! A tracker's state as the library's cells, and back.
use locker_log::{Cells, SHARDS, WAITING};
use original::{Slot, State};

/// What lies past a queue's length is no state: it is filled with numbers that would be noticed.
pub fn cells_of(state: &State) -> Box<Cells> {
    let mut cells = Box::new(Cells {
        slots: state.slots.map(|s| locker_log::Slot { number: s.number, ordinal: s.ordinal, offset: s.offset }),
        numbers: std::array::from_fn(|i| (i as u64) % 7),
        deltas: [77; SHARDS * WAITING],
        lengths: [0; SHARDS],
        next: state.next,
    });
    for (shard, queue) in state.queues.iter().enumerate() {
        cells.lengths[shard] = queue.len() as u64;
        for (i, &(number, delta)) in queue.iter().take(WAITING).enumerate() {
            cells.numbers[WAITING * shard + i] = number;
            cells.deltas[WAITING * shard + i] = delta as i8;
        }
    }
    cells
}

pub fn state_of(cells: &Cells) -> State {
    State {
        slots: cells.slots.map(|s| Slot { number: s.number, ordinal: s.ordinal, offset: s.offset }),
        queues: std::array::from_fn(|shard| {
            let from = WAITING * shard;
            let waiting = from..from + cells.lengths[shard].min(WAITING as u64) as usize;
            waiting.map(|i| (cells.numbers[i], i64::from(cells.deltas[i]))).collect()
        }),
        next: cells.next,
    }
}
