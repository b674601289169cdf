//! The proved library, called through its C interface. A call that refuses has to leave its out parameters and the lent
//! bytes alone, which is looked at here: an answer that doesn't keep to it gets a number that no table has.
use locker_log::sys::{self, RawEffort, RawEntry};

use crate::calls::{grid_bytes, grid_of, Call, Grid, Header, Region, Said, HEADER, MAX_REGION};

mod tracker;

/// What out parameters hold before a call.
const UNTOUCHED: u64 = 0x5555_aaaa_1234_fedc;
const UNTOUCHED_ENTRY: RawEntry = RawEntry {
    offset: UNTOUCHED,
    kind: UNTOUCHED,
    ns: UNTOUCHED,
    klen: UNTOUCHED,
    vlen: UNTOUCHED,
    vplace: UNTOUCHED,
    kplace: UNTOUCHED,
    end: UNTOUCHED,
};
const UNTOUCHED_EFFORT: RawEffort = RawEffort { lines: UNTOUCHED, bytes: UNTOUCHED };
/// The number of an answer that wrote where it shouldn't have.
const WROTE: u32 = 900;

/// One side of the comparison.
pub trait Side {
    fn say(&mut self, call: &Call) -> Said;
}

pub struct Library {
    /// Zeros, as many as the largest region has and some more. Only touched pages take memory.
    big: Vec<u8>,
}

/// The part of a sparse region that a call can change or that holds its bytes, with some bytes around it.
pub fn window(region: &Region, used: u64, length: u64) -> std::ops::Range<usize> {
    let Region::Sparse { length: total, at, bytes } = region else { return 0..region.len() };
    let mut low = *at;
    let mut high = at + bytes.len();
    if used < *total as u64 {
        low = low.min(used as usize);
        high = high.max(used.saturating_add(length) as usize);
    }
    low.saturating_sub(64)..high.saturating_add(64).min(*total)
}

fn part_of(region: &[u8], at: u64, len: u64) -> &[u8] {
    let (mut start, mut count) = (UNTOUCHED, UNTOUCHED);
    // SAFETY: the library's contract: any numbers, a region of that length, two numbers to write to.
    unsafe { sys::locker_part(region.as_ptr(), region.len(), at as usize, len as usize, &mut start, &mut count) };
    &region[start as usize..(start + count) as usize]
}

/// An entry's eight numbers, and its key and value behind each other.
fn told(region: &[u8], entry: RawEntry) -> ([u64; 8], Vec<u8>) {
    let RawEntry { offset, kind, ns, klen, vlen, vplace, kplace, end } = entry;
    let bytes = [part_of(region, kplace, klen), part_of(region, vplace, vlen)].concat();
    ([offset, kind, ns, klen, vlen, vplace, kplace, end], bytes)
}

/// A read of the library on a region that it must not change, small ones looked at afterwards.
fn reading(region: &[u8], call: impl FnOnce(&[u8]) -> Said) -> Said {
    let kept = (region.len() <= 8192).then(|| region.to_vec());
    let said = call(region);
    match kept {
        Some(kept) if kept != region => Said::refused(WROTE),
        _ => said,
    }
}

fn read_at(region: &[u8], header: Header, place: u64, hint: u64) -> Said {
    let mut entry = UNTOUCHED_ENTRY;
    // SAFETY: as above.
    let number = unsafe {
        sys::locker_read_at(
            region.as_ptr(),
            region.len(),
            header.version,
            header.ordinal,
            place as usize,
            hint as usize,
            &mut entry,
        )
    };
    if number != 0 {
        return Said::refused(if entry == UNTOUCHED_ENTRY { number } else { WROTE });
    }
    let (numbers, bytes) = told(region, entry);
    Said { values: numbers.to_vec(), bytes, ..Default::default() }
}

fn walk(region: &[u8], header: Header, bound: u64, offset: u64) -> Said {
    let mut entry = UNTOUCHED_ENTRY;
    let (mut found, mut place) = (UNTOUCHED, UNTOUCHED);
    // SAFETY: as above.
    let number = unsafe {
        sys::locker_walk(
            region.as_ptr(),
            region.len(),
            header.version,
            header.ordinal,
            bound as usize,
            offset as usize,
            &mut entry,
            &mut found,
            &mut place,
        )
    };
    let entry_left = entry == UNTOUCHED_ENTRY;
    match number {
        10 if entry_left && found == UNTOUCHED => Said { number, values: vec![place], ..Default::default() },
        0 if found == 0 && entry_left && place == UNTOUCHED => Said::values(&[0]),
        0 if found == 1 && place == UNTOUCHED => {
            let (numbers, bytes) = told(region, entry);
            let mut values = vec![1];
            values.extend(numbers);
            Said { values, bytes, ..Default::default() }
        }
        1..=9 | 11.. if entry_left && found == UNTOUCHED && place == UNTOUCHED => Said::refused(number),
        _ => Said::refused(WROTE),
    }
}

/// The walk repeated by `step`, from 0 until End or a refusal.
pub fn listing(mut step: impl FnMut(u64) -> Said) -> Said {
    let mut all = Said::default();
    let mut offset = 0;
    loop {
        let said = step(offset);
        all.number = said.number;
        all.values.extend(&said.values);
        all.bytes.extend(&said.bytes);
        if said.number != 0 || said.values[0] == 0 {
            return all;
        }
        offset = said.values[8];
    }
}

fn used_bound(region: &[u8]) -> Said {
    let mut bound = UNTOUCHED;
    // SAFETY: as above.
    match unsafe { sys::locker_used_bound(region.as_ptr(), region.len(), &mut bound) } {
        0 => Said::values(&[bound]),
        number if bound == UNTOUCHED => Said::refused(number),
        _ => Said::refused(WROTE),
    }
}

/// What a durable end writes to.
pub struct EndOuts {
    pub end: u64,
    pub place: u64,
    pub effort: RawEffort,
}

impl EndOuts {
    pub fn untouched() -> Self {
        EndOuts { end: UNTOUCHED, place: UNTOUCHED, effort: UNTOUCHED_EFFORT }
    }

    /// The answer with this number. Document 02's request 8: lines tried and bytes checksummed come with the end, and with
    /// 10 beside its place.
    pub fn said(self, number: u32) -> Said {
        let EndOuts { end, place, effort } = self;
        let (end_left, place_left) = (end == UNTOUCHED, place == UNTOUCHED);
        match number {
            0 if place_left => Said::values(&[end, effort.lines, effort.bytes]),
            10 if end_left => Said { number, ..Said::values(&[place, effort.lines, effort.bytes]) },
            1..=9 | 11.. if end_left && place_left && effort == UNTOUCHED_EFFORT => Said::refused(number),
            _ => Said::refused(WROTE),
        }
    }
}

fn durable_end(region: &[u8], header: Header, bound: u64) -> Said {
    let mut outs = EndOuts::untouched();
    // SAFETY: as above.
    let number = unsafe {
        sys::locker_durable_end(
            region.as_ptr(),
            region.len(),
            header.version,
            header.ordinal,
            bound as usize,
            &mut outs.end,
            &mut outs.place,
            &mut outs.effort,
        )
    };
    outs.said(number)
}

/// What a count of entries writes to.
pub struct CountOuts {
    pub grid: Grid,
    pub place: u64,
}

impl CountOuts {
    /// The grid that the call is lent, and a place that it must leave alone but with 10.
    pub fn lent(bytes: &[u8]) -> Self {
        CountOuts { grid: grid_of(bytes), place: UNTOUCHED }
    }

    /// The answer with this number, and the grid as it was left.
    pub fn said(self, number: u32) -> Said {
        let values = match (number, self.place) {
            (10, place) => vec![place],
            (_, UNTOUCHED) => vec![],
            _ => return Said::refused(WROTE),
        };
        Said { number, values, bytes: grid_bytes(&self.grid), ..Default::default() }
    }
}

fn count_entries(region: &[u8], header: Header, lent: &[u8]) -> Said {
    let mut outs = CountOuts::lent(lent);
    // SAFETY: as above.
    let number = unsafe {
        sys::locker_count_entries(
            region.as_ptr(),
            region.len(),
            header.version,
            header.ordinal,
            &mut outs.grid,
            &mut outs.place,
        )
    };
    outs.said(number)
}

fn read_header(bytes: &[u8]) -> Said {
    let (mut version, mut ordinal) = (UNTOUCHED, UNTOUCHED);
    // SAFETY: as above.
    match unsafe { sys::locker_read_header(bytes.as_ptr(), bytes.len(), &mut version, &mut ordinal) } {
        0 => Said::values(&[version, ordinal]),
        number if version == UNTOUCHED && ordinal == UNTOUCHED => Said::refused(number),
        _ => Said::refused(WROTE),
    }
}

fn start_file(ordinals: &[u64], cursor: u64) -> Said {
    let (mut found, mut place) = (UNTOUCHED, UNTOUCHED);
    // SAFETY: a list of that length, and two numbers to write to.
    match unsafe { sys::locker_start_file(ordinals.as_ptr(), ordinals.len(), cursor, &mut place, &mut found) } {
        0 if found == 1 => Said::values(&[1, place]),
        0 if found == 0 && place == UNTOUCHED => Said::values(&[0]),
        number if number != 0 && found == UNTOUCHED && place == UNTOUCHED => Said::refused(number),
        _ => Said::refused(WROTE),
    }
}

/// Header, then used bound, then durable end, as include/locker_log.h shows a boot.
fn boot(file: &[u8]) -> Said {
    let head = read_header(file);
    if head.number != 0 {
        return head;
    }
    let region = &file[HEADER..];
    let bound = used_bound(region);
    if bound.number != 0 {
        return bound;
    }
    let header = Header { version: head.values[0], ordinal: head.values[1] };
    booted(header, bound.values[0], durable_end(region, header, bound.values[0]))
}

/// What a boot answers after its durable end. With 10 the original tells no place.
pub fn booted(header: Header, bound: u64, end: Said) -> Said {
    match (end.number, &end.values[..]) {
        (0, values) => Said::values(&[&[header.version, header.ordinal, bound], values].concat()),
        (10, [_, effort @ ..]) => Said { number: 10, ..Said::values(effort) },
        (number, _) => Said::refused(number),
    }
}

impl Library {
    pub fn new() -> Self {
        assert_eq!(tracker::fresh(), crate::draw::fresh_state(), "what the library makes fresh is where traces begin");
        Library { big: vec![0; MAX_REGION + 4096] }
    }

    /// Lends a region to a call, and puts a sparse one back to zeros afterwards.
    fn lend(&mut self, region: &Region, window: std::ops::Range<usize>, call: impl FnOnce(&mut [u8]) -> Said) -> Said {
        match region {
            Region::Dense(bytes) => call(&mut bytes.clone()),
            Region::Sparse { length, at, bytes } => {
                self.big[*at..at + bytes.len()].copy_from_slice(bytes);
                let said = call(&mut self.big[..*length]);
                self.big[window].fill(0);
                said
            }
        }
    }

    fn append(
        &mut self,
        region: &Region,
        used: u64,
        length: u64,
        write: impl FnOnce(&mut [u8], &mut u64) -> u32,
    ) -> Said {
        let window = window(region, used, length);
        self.lend(region, window.clone(), |lent| {
            let mut next = UNTOUCHED;
            let number = write(lent, &mut next);
            let bytes = lent[window].to_vec();
            match number {
                0 => Said { values: vec![next], bytes, ..Default::default() },
                number if next == UNTOUCHED => Said { number, bytes, ..Default::default() },
                _ => Said::refused(WROTE),
            }
        })
    }

    fn look(&mut self, region: &Region, call: impl FnOnce(&[u8]) -> Said) -> Said {
        let window = window(region, u64::MAX, 0);
        self.lend(region, window, |lent| reading(lent, call))
    }
}

impl Side for Library {
    fn say(&mut self, call: &Call) -> Said {
        match call {
            // SAFETY (all of these): the library's contract: any bytes, any numbers, and places to write to.
            Call::Hash { bytes } => Said::values(&[unsafe { sys::locker_hash(bytes.as_ptr(), bytes.len()) }.into()]),
            Call::Update { state, bytes } => {
                Said::values(&[unsafe { sys::locker_update(*state, bytes.as_ptr(), bytes.len()) }.into()])
            }
            Call::ReadHeader { bytes } => reading(bytes, read_header),
            Call::WriteHeader { lent, header } => {
                let mut bytes = lent.clone();
                let number = unsafe {
                    sys::locker_write_header(bytes.as_mut_ptr(), bytes.len(), header.version, header.ordinal)
                };
                Said { number, bytes, ..Default::default() }
            }
            Call::ReadAt { region, header, place, hint } => {
                self.look(region, |lent| read_at(lent, *header, *place, *hint))
            }
            Call::AppendData { region, header, used, kind, ns, key, value } => {
                let length = up(10 + key.len() + value.len());
                self.append(region, *used, length, |lent, next| unsafe {
                    sys::locker_append_data(
                        lent.as_mut_ptr(),
                        lent.len(),
                        header.version,
                        header.ordinal,
                        *used as usize,
                        *kind,
                        *ns,
                        key.as_ptr(),
                        key.len(),
                        value.as_ptr(),
                        value.len(),
                        next,
                    )
                })
            }
            Call::AppendTombstone { region, header, used, ns, key } => {
                self.append(region, *used, up(8 + key.len()), |lent, next| unsafe {
                    sys::locker_append_tombstone(
                        lent.as_mut_ptr(),
                        lent.len(),
                        header.version,
                        header.ordinal,
                        *used as usize,
                        *ns,
                        key.as_ptr(),
                        key.len(),
                        next,
                    )
                })
            }
            Call::Walk { region, header, bound, offset } => {
                self.look(region, |lent| walk(lent, *header, *bound, *offset))
            }
            Call::Listing { region, header, bound } => {
                self.look(region, |lent| listing(|offset| walk(lent, *header, *bound, offset)))
            }
            Call::Part { region, at, len } => self.look(region, |lent| {
                let part = part_of(lent, *at, *len);
                let start = (part.as_ptr() as usize - lent.as_ptr() as usize) as u64;
                Said { values: vec![start, part.len() as u64], bytes: part.to_vec(), ..Default::default() }
            }),
            Call::UsedBound { region } => self.look(region, used_bound),
            Call::DurableEnd { region, header, bound } => self.look(region, |lent| durable_end(lent, *header, *bound)),
            Call::CountEntries { region, header, lent: grid } => {
                self.look(region, |lent| count_entries(lent, *header, grid))
            }
            Call::Boot { file } => boot(file),
            Call::Track { state, step } => tracker::track(state, step),
            Call::ReplayData { klen, vlen, maximum } => {
                Said::refused(unsafe { sys::locker_replay_data(*klen as usize, *vlen as usize, *maximum as usize) })
            }
            Call::ReplayTombstone { klen, maximum } => {
                Said::refused(unsafe { sys::locker_replay_tombstone(*klen as usize, *maximum as usize) })
            }
            Call::StartFile { ordinals, cursor } => start_file(ordinals, *cursor),
        }
    }
}

fn up(length: usize) -> u64 {
    crate::calls::up16(length as u64)
}
