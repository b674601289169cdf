//! Calls as bytes: for the recorded answers, and for printing a call so that it can be asked again. README.md describes the
//! format. Every call is an operation's number, then its numbers, then its runs of bytes, so one table has them all.
use crate::calls::{Call, Header, Region, Said, Slot, State, Step, GRID_BYTES};

/// A call taken apart.
#[derive(Clone, PartialEq, Eq)]
pub struct Parts {
    pub op: u8,
    pub numbers: Vec<u64>,
    pub blobs: Vec<Region>,
    pub state: Option<Box<State>>,
}

/// How many numbers and how many runs of bytes an operation has.
fn shape(op: u8) -> Option<(usize, usize)> {
    Some(match op {
        1 | 2 | 8 | 26 => (0, 1),
        21 | 23 => (1, 1),
        3 | 25 => (2, 1),
        9 | 24 => (3, 1),
        4 | 7 => (4, 1),
        22 => (2, 2),
        5 => (5, 3),
        6 => (4, 2),
        11 => (6, 0),
        12 | 19 => (3, 0),
        13 | 14 | 15 | 20 => (2, 0),
        16 => (1, 0),
        17 => (0, 0),
        _ => return None,
    })
}

fn dense(bytes: &[u8]) -> Region {
    Region::Dense(bytes.to_vec())
}

fn step_parts(step: &Step) -> (u8, Vec<u64>) {
    let signed = |delta: i8| i64::from(delta) as u64;
    match *step {
        Step::Reserve { shard, ordinal, used, capacity, sealed, length } => {
            (11, vec![shard, ordinal, used, capacity, sealed.into(), length])
        }
        Step::Complete { shard, number, delta } => (12, vec![shard, number, signed(delta)]),
        Step::Abandon { shard, number } => (13, vec![shard, number]),
        Step::Record { shard, delta } => (14, vec![shard, signed(delta)]),
        Step::Checkpoint { ordinal, used } => (15, vec![ordinal, used]),
        Step::Drain { limit } => (16, vec![limit]),
        Step::Clear => (17, vec![]),
    }
}

impl Call {
    pub fn parts(&self) -> Parts {
        let parts = |op, numbers: &[u64], blobs| Parts { op, numbers: numbers.to_vec(), blobs, state: None };
        let under = |op, header: &Header, numbers: &[u64], blobs| {
            parts(op, &[&[header.version, header.ordinal][..], numbers].concat(), blobs)
        };
        match self {
            Call::Hash { bytes } => parts(1, &[], vec![dense(bytes)]),
            Call::ReadHeader { bytes } => parts(2, &[], vec![dense(bytes)]),
            Call::WriteHeader { lent, header } => under(3, header, &[], vec![dense(lent)]),
            Call::ReadAt { region, header, place, hint } => under(4, header, &[*place, *hint], vec![region.clone()]),
            Call::AppendData { region, header, used, kind, ns, key, value } => {
                under(5, header, &[*used, *kind, *ns], vec![region.clone(), dense(key), dense(value)])
            }
            Call::AppendTombstone { region, header, used, ns, key } => {
                under(6, header, &[*used, *ns], vec![region.clone(), dense(key)])
            }
            Call::Walk { region, header, bound, offset } => under(7, header, &[*bound, *offset], vec![region.clone()]),
            Call::UsedBound { region } => parts(8, &[], vec![region.clone()]),
            Call::DurableEnd { region, header, bound } => under(9, header, &[*bound], vec![region.clone()]),
            Call::Track { state, step } => {
                let (op, numbers) = step_parts(step);
                Parts { op, numbers, blobs: vec![], state: Some(state.clone()) }
            }
            Call::ReplayData { klen, vlen, maximum } => parts(19, &[*klen, *vlen, *maximum], vec![]),
            Call::ReplayTombstone { klen, maximum } => parts(20, &[*klen, *maximum], vec![]),
            Call::StartFile { ordinals, cursor } => {
                let bytes: Vec<u8> = ordinals.iter().flat_map(|ordinal| ordinal.to_le_bytes()).collect();
                parts(21, &[*cursor], vec![dense(&bytes)])
            }
            Call::CountEntries { region, header, lent } => under(22, header, &[], vec![dense(lent), region.clone()]),
            // These aren't recorded.
            Call::Update { state, bytes } => parts(23, &[u64::from(*state)], vec![dense(bytes)]),
            Call::Listing { region, header, bound } => under(24, header, &[*bound], vec![region.clone()]),
            Call::Part { region, at, len } => parts(25, &[*at, *len], vec![region.clone()]),
            Call::Boot { file } => parts(26, &[], vec![dense(file)]),
        }
    }
}

impl Parts {
    /// The call, if the parts are those of one.
    pub fn call(&self) -> Option<Call> {
        let (numbers, blobs) = shape(self.op)?;
        if self.numbers.len() != numbers || self.blobs.len() != blobs {
            return None;
        }
        let n = |i: usize| self.numbers[i];
        let header = || Header { version: n(0), ordinal: n(1) };
        let region = || self.blobs[0].clone();
        let bytes = |i: usize| match &self.blobs[i] {
            Region::Dense(bytes) => Some(bytes.clone()),
            Region::Sparse { .. } => None,
        };
        if let 11..=17 = self.op {
            return Some(Call::Track { state: self.state.clone()?, step: self.step() });
        }
        Some(match self.op {
            1 => Call::Hash { bytes: bytes(0)? },
            2 => Call::ReadHeader { bytes: bytes(0)? },
            3 => Call::WriteHeader { lent: bytes(0)?, header: header() },
            4 => Call::ReadAt { region: region(), header: header(), place: n(2), hint: n(3) },
            5 => Call::AppendData {
                region: region(),
                header: header(),
                used: n(2),
                kind: n(3),
                ns: n(4),
                key: bytes(1)?,
                value: bytes(2)?,
            },
            6 => Call::AppendTombstone { region: region(), header: header(), used: n(2), ns: n(3), key: bytes(1)? },
            7 => Call::Walk { region: region(), header: header(), bound: n(2), offset: n(3) },
            8 => Call::UsedBound { region: region() },
            9 => Call::DurableEnd { region: region(), header: header(), bound: n(2) },
            19 => Call::ReplayData { klen: n(0), vlen: n(1), maximum: n(2) },
            20 => Call::ReplayTombstone { klen: n(0), maximum: n(1) },
            21 => {
                let ordinals =
                    bytes(0)?.chunks_exact(8).map(|word| u64::from_le_bytes(word.try_into().unwrap())).collect();
                Call::StartFile { ordinals, cursor: n(0) }
            }
            22 => {
                let lent = bytes(0).filter(|lent| lent.len() == GRID_BYTES)?;
                Call::CountEntries { region: self.blobs[1].clone(), header: header(), lent }
            }
            23 => Call::Update { state: n(0) as u16, bytes: bytes(0)? },
            24 => Call::Listing { region: region(), header: header(), bound: n(2) },
            25 => Call::Part { region: Region::Dense(bytes(0)?), at: n(0), len: n(1) },
            _ => Call::Boot { file: bytes(0)? },
        })
    }

    fn step(&self) -> Step {
        let n = |i: usize| self.numbers[i];
        match self.op {
            11 => Step::Reserve {
                shard: n(0),
                ordinal: n(1),
                used: n(2),
                capacity: n(3),
                sealed: n(4) != 0,
                length: n(5),
            },
            12 => Step::Complete { shard: n(0), number: n(1), delta: n(2) as i8 },
            13 => Step::Abandon { shard: n(0), number: n(1) },
            14 => Step::Record { shard: n(0), delta: n(1) as i8 },
            15 => Step::Checkpoint { ordinal: n(0), used: n(1) },
            16 => Step::Drain { limit: n(0) },
            _ => Step::Clear,
        }
    }

    /// A tracker's state first where there is one, then the call.
    pub fn write(&self, out: &mut Vec<u8>) {
        if let Some(state) = &self.state {
            write_state(10, state, out);
        }
        self.write_call(out);
    }

    pub fn write_call(&self, out: &mut Vec<u8>) {
        out.push(self.op);
        for number in &self.numbers {
            out.extend(number.to_le_bytes());
        }
        for blob in &self.blobs {
            write_blob(blob, out);
        }
    }

    pub fn read(bytes: &[u8]) -> Option<Parts> {
        let mut from = Bytes(bytes);
        let mut op = from.byte()?;
        let mut state = None;
        if op == 10 {
            state = Some(Box::new(from.state()?));
            op = from.byte()?;
        }
        let (numbers, blobs) = shape(op)?;
        let numbers = (0..numbers).map(|_| from.u64()).collect::<Option<_>>()?;
        let blobs = (0..blobs).map(|_| from.blob()).collect::<Option<_>>()?;
        Some(Parts { op, numbers, blobs, state })
    }
}

// ---- writing

/// The runs of bytes of `bytes` for which `wanted` holds, few zeros between two of them taken along.
fn runs(bytes: &[u8], wanted: impl Fn(usize) -> bool) -> Vec<(usize, usize)> {
    let mut runs: Vec<(usize, usize)> = Vec::new();
    for at in (0..bytes.len()).filter(|&at| wanted(at)) {
        match runs.last_mut() {
            Some((start, end)) if at < *end + 8 && at - *start < 65_535 => *end = at + 1,
            _ => runs.push((at, at + 1)),
        }
    }
    runs
}

fn write_runs(base: usize, bytes: &[u8], wanted: impl Fn(usize) -> bool, out: &mut Vec<u8>) {
    let runs = runs(bytes, wanted);
    out.extend((runs.len() as u16).to_le_bytes());
    for (start, end) in runs {
        out.extend(((base + start) as u32).to_le_bytes());
        out.extend(((end - start) as u16).to_le_bytes());
        out.extend(&bytes[start..end]);
    }
}

fn write_blob(region: &Region, out: &mut Vec<u8>) {
    out.extend((region.len() as u32).to_le_bytes());
    let (base, bytes) = match region {
        Region::Dense(bytes) => (0, bytes),
        Region::Sparse { at, bytes, .. } => (*at, bytes),
    };
    write_runs(base, bytes, |at| bytes[at] != 0, out);
}

pub fn write_state(op: u8, state: &State, out: &mut Vec<u8>) {
    out.push(op);
    out.extend(state.next.to_le_bytes());
    let kept: Vec<(usize, &Slot)> =
        state.slots.iter().enumerate().filter(|(_, slot)| **slot != Slot::default()).collect();
    out.push(kept.len() as u8);
    for (shard, slot) in kept {
        out.push(shard as u8);
        for number in [slot.number, slot.ordinal, slot.offset] {
            out.extend(number.to_le_bytes());
        }
    }
    let waiting =
        || state.queues.iter().enumerate().flat_map(|(shard, queue)| queue.iter().map(move |item| (shard, item)));
    out.extend((waiting().count() as u16).to_le_bytes());
    for (shard, &(number, delta)) in waiting() {
        out.push(shard as u8);
        out.extend(number.to_le_bytes());
        out.push(delta as i8 as u8);
    }
}

/// An answer: number, values, and where the call was lent bytes to write to, what is changed in them.
pub fn write_said(said: &Said, before: Option<&[u8]>, out: &mut Vec<u8>) {
    out.push(said.number as u8);
    out.push(said.values.len() as u8);
    for value in &said.values {
        out.extend(value.to_le_bytes());
    }
    match before {
        Some(before) => write_runs(0, &said.bytes, |at| said.bytes[at] != before[at], out),
        None => out.extend(0u16.to_le_bytes()),
    }
}

// ---- reading

struct Bytes<'a>(&'a [u8]);

impl<'a> Bytes<'a> {
    fn take(&mut self, count: usize) -> Option<&'a [u8]> {
        let (taken, rest) = self.0.split_at_checked(count)?;
        self.0 = rest;
        Some(taken)
    }

    fn byte(&mut self) -> Option<u8> {
        Some(self.take(1)?[0])
    }

    fn u16(&mut self) -> Option<u16> {
        Some(u16::from_le_bytes(self.take(2)?.try_into().ok()?))
    }

    fn u32(&mut self) -> Option<u32> {
        Some(u32::from_le_bytes(self.take(4)?.try_into().ok()?))
    }

    fn u64(&mut self) -> Option<u64> {
        Some(u64::from_le_bytes(self.take(8)?.try_into().ok()?))
    }

    fn blob(&mut self) -> Option<Region> {
        let length = self.u32()? as usize;
        let count = self.u16()?;
        let mut pieces = Vec::new();
        for _ in 0..count {
            let place = self.u32()? as usize;
            let run = self.u16()? as usize;
            pieces.push((place, self.take(run)?));
        }
        let first = pieces.first().map_or(0, |&(place, _)| place);
        let end = pieces.last().map_or(0, |&(place, run)| place + run.len());
        if end > length || end - first > 1 << 20 {
            return None;
        }
        let small = length <= 1 << 20;
        let base = if small { 0 } else { first };
        let mut bytes = vec![0; if small { length } else { end - first }];
        for (place, run) in pieces {
            bytes.get_mut(place - base..place - base + run.len())?.copy_from_slice(run);
        }
        Some(if small { Region::Dense(bytes) } else { Region::Sparse { length, at: base, bytes } })
    }

    fn state(&mut self) -> Option<State> {
        let mut state = crate::draw::fresh_state();
        state.next = self.u64()?;
        for _ in 0..self.byte()? {
            let shard = self.byte()? as usize;
            let slot = Slot { number: self.u64()?, ordinal: self.u64()?, offset: self.u64()? };
            *state.slots.get_mut(shard)? = slot;
        }
        for _ in 0..self.u16()? {
            let shard = self.byte()? as usize;
            let item = (self.u64()?, i64::from(self.byte()? as i8));
            state.queues.get_mut(shard)?.push(item);
        }
        Some(state)
    }
}

/// One record of the recorded answers.
pub enum Record {
    /// A tracker's state that the next calls begin with.
    Begin(Box<State>),
    /// A call with its answer: number, values, and what is changed in the bytes that were lent.
    Call {
        parts: Parts,
        number: u32,
        values: Vec<u64>,
        changes: Vec<(usize, Vec<u8>)>,
    },
    /// The tracker's state at this point.
    Check(Box<State>),
    End,
}

/// Reads recorded answers record by record.
pub struct Records<'a>(Bytes<'a>);

impl<'a> Records<'a> {
    pub fn new(bytes: &'a [u8]) -> Self {
        Records(Bytes(bytes))
    }

    pub fn next(&mut self) -> Option<Record> {
        let from = &mut self.0;
        let op = from.byte()?;
        match op {
            0 => return Some(Record::End),
            10 => return Some(Record::Begin(Box::new(from.state()?))),
            18 => return Some(Record::Check(Box::new(from.state()?))),
            _ => {}
        }
        let (numbers, blobs) = shape(op)?;
        let numbers = (0..numbers).map(|_| from.u64()).collect::<Option<_>>()?;
        let blobs = (0..blobs).map(|_| from.blob()).collect::<Option<_>>()?;
        let number = from.byte()?.into();
        let count = from.byte()?;
        let values = (0..count).map(|_| from.u64()).collect::<Option<_>>()?;
        let pieces = from.u16()?;
        let mut changes = Vec::new();
        for _ in 0..pieces {
            let place = from.u32()? as usize;
            let run = from.u16()? as usize;
            changes.push((place, from.take(run)?.to_vec()));
        }
        Some(Record::Call { parts: Parts { op, numbers, blobs, state: None }, number, values, changes })
    }
}

pub fn to_hex(bytes: &[u8]) -> String {
    bytes.iter().map(|byte| format!("{byte:02x}")).collect()
}

pub fn from_hex(text: &str) -> Option<Vec<u8>> {
    let digits = text.as_bytes();
    if digits.len() % 2 != 0 {
        return None;
    }
    digits.chunks(2).map(|pair| u8::from_str_radix(std::str::from_utf8(pair).ok()?, 16).ok()).collect()
}
