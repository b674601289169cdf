//! Writes a sample of the original's answers, for the repository's own tests to replay without Rust at hand. README.md
//! describes the format.
use std::collections::BTreeMap;

use crate::{
    calls::{Call, Header, Region, Said, GRID_BYTES},
    codec::{write_said, write_state, Record, Records},
    draw::{self, entry, fresh_state, Draw, FILLING_ORDINAL, NO_VERSIONS},
    fixed::{self, hostile, log_of, second, FIRST},
    judge::{Judge, RECORDED},
    library::Side,
    table::grouped,
};

/// Of each answer of each operation: so many small calls, and so many of regions up to 70,000 bytes. Where a version
/// decides, so many small ones of each version, and of those with neither; of the counts of entries fewer.
const SMALL: usize = 48;
const SMALL_OF_VERSION: usize = 22;
const SMALL_OF_NEITHER: usize = 4;
const SMALL_COUNTS: usize = 12;
const SMALL_BYTES: usize = 420;
const LARGE: usize = 1;
const LARGE_BYTES: usize = 5_000;
const LARGE_REGION: usize = 70_000;
/// So many counts of entries are drawn for it.
const COUNTS: usize = 1_000;
const TRACES: usize = 48;
const STEPS_IN_TRACE: usize = 30;
/// After so many calls of a trace its whole state is written.
const STEPS_TO_STATE: usize = 10;

pub const SIGNATURE: &[u8; 8] = b"LOCKREC1";

struct Recorder {
    judge: Judge,
    out: Vec<u8>,
    records: u32,
    met: BTreeMap<(&'static str, String, &'static str), usize>,
}

/// What a call with this answer counts as, and how many of these are enough.
fn kind_of(call: &Call, said: &Said, large: bool) -> (&'static str, usize) {
    let version = match call {
        Call::ReadHeader { .. } => said.values.first().copied(),
        _ => call.header().map(|header| header.version),
    };
    let of_version = if let Call::CountEntries { .. } = call { SMALL_COUNTS } else { SMALL_OF_VERSION };
    match version {
        None if !large => ("small", SMALL),
        Some(1) if !large => ("version 1", of_version),
        Some(2) if !large => ("version 2", of_version),
        None | Some(1 | 2) => ("large", LARGE),
        Some(_) => ("neither version", if large { 0 } else { SMALL_OF_NEITHER }),
    }
}

/// What a call was lent to write to.
fn lent(call: &Call) -> Option<&[u8]> {
    match call {
        Call::WriteHeader { lent, .. } => Some(lent),
        Call::AppendData { region: Region::Dense(bytes), .. }
        | Call::AppendTombstone { region: Region::Dense(bytes), .. }
        | Call::CountEntries { lent: bytes, .. } => Some(bytes),
        _ => None,
    }
}

fn recorded(call: &Call) -> bool {
    let region = match call {
        Call::Update { .. } | Call::Listing { .. } | Call::Part { .. } | Call::Boot { .. } | Call::Track { .. } => {
            return false
        }
        // Those that are short enough are made for it, and those that are lent no zeros would be too long.
        Call::WriteHeader { .. } => return false,
        Call::CountEntries { lent, .. } if lent.iter().any(|&byte| byte != 0) => return false,
        Call::ReadAt { region, .. }
        | Call::Walk { region, .. }
        | Call::AppendData { region, .. }
        | Call::AppendTombstone { region, .. }
        | Call::UsedBound { region }
        | Call::DurableEnd { region, .. }
        | Call::CountEntries { region, .. } => region,
        _ => return true,
    };
    matches!(region, Region::Dense(_)) && region.len() <= LARGE_REGION
}

impl Recorder {
    /// Records the original's answer to a call, unless there are enough like it.
    fn take(&mut self, call: &Call) {
        if recorded(call) {
            self.write(call, true);
        }
    }

    fn write(&mut self, call: &Call, sparing: bool) {
        let Ok(judged) = self.judge.judge(call) else { return };
        if judged.parting.is_some_and(|name| !RECORDED.contains(&name)) {
            return;
        }
        let mut bytes = Vec::new();
        call.parts().write_call(&mut bytes);
        write_said(&judged.said, lent(call), &mut bytes);
        let (kind, most) = kind_of(call, &judged.said, bytes.len() > SMALL_BYTES);
        if sparing && bytes.len() > LARGE_BYTES {
            return;
        }
        let met = self.met.entry((call.operation(), call.answer_name(&judged.said), kind)).or_default();
        if *met < most || !sparing {
            *met += 1;
            self.out.extend(bytes);
            self.records += 1;
        }
    }

    fn trace(&mut self, draw: &mut Draw) {
        let mut state = Box::new(fresh_state());
        let mut started = false;
        let mut steps = 0;
        while steps < STEPS_IN_TRACE {
            let Call::Track { state: from, step } = draw.trace_call(!started) else { return };
            if !started || *from != *state {
                write_state(10, &from, &mut self.out);
                self.records += 1;
                started = true;
            }
            let call = Call::Track { state: from.clone(), step };
            steps += 1;
            let Ok(judged) = self.judge.judge(&call) else { continue };
            draw.learn(&judged.said);
            state = judged.said.state.clone().unwrap_or(from);
            if judged.parting.is_some_and(|name| !RECORDED.contains(&name)) {
                continue;
            }
            call.parts().write_call(&mut self.out);
            write_said(&judged.said, None, &mut self.out);
            self.records += 1;
            if steps % STEPS_TO_STATE == 0 || steps == STEPS_IN_TRACE {
                write_state(18, &state, &mut self.out);
                self.records += 1;
            }
        }
    }
}

/// Calls that are too large to be drawn for a small file, made of zeros so that they take few bytes: header writers, the
/// largest entry that can be written, and entries with lengths up to 65,535, whole and one byte short.
fn extra() -> Vec<Call> {
    let mut calls = Vec::new();
    for length in [4096, 4097, 4112, 5000] {
        for ordinal in [0, 1, 0x0102_0304_0506_0708, u64::MAX] {
            let mut lent = vec![0; length];
            lent[length - 1] = 7;
            lent[3] = 9;
            let versions = [1, 2].into_iter().chain((ordinal == 1).then_some(3));
            calls.extend(
                versions.map(|version| Call::WriteHeader { lent: lent.clone(), header: Header { version, ordinal } }),
            );
        }
    }
    calls.push(Call::WriteHeader { lent: vec![0xee; 4100], header: Header { version: 1, ordinal: 5 } });
    for length in [36_879, 36_880, 36_881] {
        let (region, key, value) = (Region::Dense(vec![0; length]), vec![0; 4096], vec![0; 32_768]);
        calls.push(Call::AppendData { region, header: FIRST, used: 0, kind: 1, ns: 63, key, value });
    }
    for (klen, vlen) in [(0, 65_535), (65_535, 0), (4097, 32_769), (30_000, 35_000)] {
        for p in [0, 16, 48] {
            let whole = entry(FIRST, p, 1, 3, false, &vec![0; klen], &vec![0; vlen]);
            for short in [0, 1] {
                let mut bytes = vec![0; p];
                bytes.extend(&whole[..whole.len() - short]);
                calls.extend(looks_at(FIRST, &bytes, p as u64));
                calls.push(Call::UsedBound { region: Region::Dense(bytes) });
            }
        }
    }
    calls
}

/// An entry at a place, walked, read and as the durable end.
fn looks_at(header: Header, bytes: &[u8], place: u64) -> [Call; 3] {
    let (region, bound) = (Region::Dense(bytes.to_vec()), bytes.len() as u64);
    [
        Call::Walk { region: region.clone(), header, bound, offset: 0 },
        Call::ReadAt { region: region.clone(), header, place, hint: 80_000 },
        Call::DurableEnd { region, header, bound },
    ]
}

/// An entry of a file of version 2 in its own file, in others with its marks, and on recycled cards; a line of filling
/// whose mark is right; and each call with each version that no file has.
fn versions() -> Vec<Call> {
    let mut calls = Vec::new();
    let old = second(5);
    for p in [0, 16] {
        let mut bytes = vec![0; p];
        bytes.extend(entry(old, p, 1, 3, false, b"A7", b"10"));
        for new in [old, second(5 + (1 << 24)), second(5 + (u64::MAX << 24)), second(6), second(4), second(0), FIRST] {
            calls.extend(looks_at(new, &bytes, p as u64));
        }
    }
    for ordinal in [FILLING_ORDINAL - 1, FILLING_ORDINAL, FILLING_ORDINAL + 1] {
        calls.extend(looks_at(second(ordinal), &[0xff; 24], 0));
    }
    for header in NO_VERSIONS.map(|version| Header { version, ordinal: 5 }) {
        let bytes = entry(header, 0, 0, 1, false, b"k", &[]);
        let (region, key) = (Region::Dense(vec![0; 16]), b"k".to_vec());
        calls.extend(looks_at(header, &bytes, 0));
        calls.push(Call::AppendTombstone { region: region.clone(), header, used: 0, ns: 1, key: key.clone() });
        calls.push(Call::AppendData { region, header, used: 0, kind: 0, ns: 1, key, value: vec![] });
    }
    calls
}

/// Durable ends of hostile regions: short ones, type 3 behind such lines, and ten lines whose entries reach over 65,536
/// bytes, nearly all zeros.
fn efforts() -> Vec<Call> {
    let mut calls = Vec::new();
    for header in [FIRST, second(5)] {
        let mut unknown = hostile(header, 104);
        unknown[64 + 3] |= 0xc0;
        let mut far = draw::hostile(header, 65_536, [0, 0]);
        far[160..].fill(0);
        let regions = [hostile(header, 8), hostile(header, 200), unknown, far];
        let whole = regions.into_iter().map(|bytes| (bytes.len(), bytes));
        for (bound, bytes) in whole.chain([(41, hostile(header, 57))]) {
            calls.push(Call::DurableEnd { region: Region::Dense(bytes), header, bound: bound as u64 });
        }
    }
    calls
}

/// Counts of entries: all kinds in a file of version 2 and every fifth in one of version 1, more of one kind than one byte
/// holds, one entry of 13 bytes in as many, none, one that verifies behind one that doesn't, one that reaches past the used
/// bound, type 3 before and behind others; a log in its own file, in another with its marks and on recycled cards; and each
/// version that no file has.
fn grids() -> Vec<Call> {
    let old = second(5);
    let log = log_of(old, [1, 70, 191]);
    let mut asked = vec![
        (FIRST, log_of(FIRST, (0..192).step_by(5))),
        (old, log_of(old, (0..192).rev())),
        (old, log_of(old, vec![191; 257])),
    ];
    for header in [FIRST, old] {
        let mut second_bad = log_of(header, [3, 64, 3, 130]);
        second_bad[16 + 3] ^= 1;
        asked.extend([
            (header, entry(header, 0, 0, 1, false, b"A7", b"9")),
            (header, vec![]),
            (header, vec![0; 40]),
            (header, second_bad),
            (header, draw::ending_in_zeros(header, 0, 1, 63, 30)),
            (header, log_of(header, [255, 1])),
            (header, log_of(header, [1, 70, 191, 192, 1])),
        ]);
    }
    asked.extend([old, second(5 + (1 << 24)), second(6), FIRST].map(|new| (new, log.clone())));
    asked.extend(NO_VERSIONS.map(|version| (Header { version, ordinal: 5 }, log.clone())));
    let count =
        |(header, bytes)| Call::CountEntries { region: Region::Dense(bytes), header, lent: vec![0; GRID_BYTES] };
    asked.into_iter().map(count).collect()
}

pub fn record(path: &str, seed: u64) -> std::io::Result<()> {
    let mut recorder = Recorder { judge: Judge::new(), out: Vec::new(), records: 0, met: BTreeMap::new() };
    // Calls at random first, so that the fixed ones, which are many and alike, only fill up.
    let mut draw = Draw::new(seed);
    for _ in 0..60_000 {
        let call = draw.other_call();
        recorder.take(&call);
    }
    fixed::calls().step_by(7).take(60_000).for_each(|call| recorder.take(&call));
    extra().iter().chain(&versions()).chain(&efforts()).for_each(|call| recorder.write(call, false));
    for _ in 0..COUNTS {
        let call = draw.count_entries();
        recorder.take(&call);
    }
    grids().iter().for_each(|call| recorder.write(call, false));
    for i in 0..TRACES as u64 {
        recorder.trace(&mut Draw::new(seed + 1 + i));
    }
    let mut file = SIGNATURE.to_vec();
    file.extend(recorder.records.to_le_bytes());
    file.extend(&recorder.out);
    file.push(0);
    std::fs::write(path, &file)?;
    println!("{path}: {} records, {} bytes", grouped(recorder.records.into()), grouped(file.len() as u64));
    for ((operation, answer, kind), count) in &recorder.met {
        println!("{count:>5}  {operation}: {answer} ({kind})");
    }
    Ok(())
}

/// Replays recorded answers: the same that a program without Rust does, so that the file is known to be right.
pub fn replay(path: &str, side: &mut dyn Side) -> Result<bool, String> {
    let file = std::fs::read(path).map_err(|why| format!("{path}: {why}"))?;
    let body = file.strip_prefix(SIGNATURE).ok_or("the file has another signature")?;
    let (count, body) = body.split_at_checked(4).ok_or("the file is too short")?;
    let count = u32::from_le_bytes(count.try_into().unwrap());
    let mut records = Records::new(body);
    let mut state = Box::new(fresh_state());
    for at in 0..=count {
        let record = records.next().ok_or(format!("record {at} can't be read"))?;
        let good = match record {
            Record::End => return Ok(at == count),
            Record::Begin(begin) => {
                state = begin;
                true
            }
            Record::Check(right) => right == state,
            Record::Call { mut parts, number, values, changes } => {
                if (11..=17).contains(&parts.op) {
                    parts.state = Some(state.clone());
                }
                let call = parts.call().ok_or(format!("record {at} is no call"))?;
                let said = side.say(&call);
                let right_bytes = lent(&call).map(|before| changed(before, &changes));
                let same_bytes = right_bytes.is_none_or(|right| right == said.bytes);
                state = said.state.unwrap_or(state);
                same_bytes && said.number == number && said.values == values
            }
        };
        if !good {
            println!("record {at} differs");
            return Ok(false);
        }
    }
    Ok(false)
}

fn changed(before: &[u8], changes: &[(usize, Vec<u8>)]) -> Vec<u8> {
    let mut bytes = before.to_vec();
    for (place, run) in changes {
        bytes[*place..place + run.len()].copy_from_slice(run);
    }
    bytes
}
