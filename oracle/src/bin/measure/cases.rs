//! The cases: what each side is asked, how long that takes, and that all sides give the same answer.
use std::{
    fmt::{Debug, Display, Formatter},
    os::fd::FromRawFd,
    time::Instant,
};

use locker_log::sys::RawEffort;
use original::{Failure, File};

use crate::{
    library,
    report::{figure, grouped, Full, Hostile, Panel, Row, SIDES},
    rng::Rng,
};

/// What an entry is made of; a tombstone has no value.
pub struct MakeUp {
    pub length: u64,
    key: usize,
    value: Option<usize>,
    pub words: &'static str,
}

pub const ENTRIES: [MakeUp; 4] = [
    MakeUp { length: 16, key: 8, value: None, words: "a tombstone, key of 8 bytes" },
    MakeUp { length: 32, key: 8, value: Some(14), words: "data, key of 8 bytes, value of 14" },
    MakeUp { length: 4096, key: 16, value: Some(4070), words: "data, key of 16 bytes, value of 4,070" },
    MakeUp {
        length: 36_874,
        key: 4096,
        value: Some(32_768),
        words: "data, the longest key (4,096 bytes) and the longest value (32,768), filled up to 36,880 bytes",
    },
];

/// Of these entries one is damaged too.
const DAMAGED: u64 = 4096;

impl MakeUp {
    fn aligned(&self) -> u64 {
        self.length.next_multiple_of(16)
    }
}

/// How much is asked in a run.
pub struct Sizes {
    pub rounds: u32,
    /// The region that is scanned.
    pub region: usize,
    /// The hostile regions.
    pub hostile: Vec<usize>,
    /// Appends in a row, and the bytes that they fill at most.
    pub appends: u64,
    pub append_bytes: u64,
    /// Tracker calls in a row.
    pub pairs: u64,
}

/// What the original's figures have in them beside its own work.
#[derive(Default)]
pub struct System {
    /// MB/s of reading the whole file into a buffer of the original's size.
    pub reading: f64,
    /// ns of one write, by the entry's length.
    pub writing: Vec<(u64, f64)>,
}

#[derive(Clone, Copy, PartialEq, Eq)]
enum Side {
    Library,
    One,
    Sixteen,
}

impl Display for Side {
    fn fmt(&self, formatter: &mut Formatter) -> std::fmt::Result {
        write!(formatter, "the {}", SIDES[*self as usize])
    }
}

/// A side that takes more seconds than this is asked once.
pub const SLOW: f64 = 3.0;

/// A full hostile region that would take the library more seconds than this isn't asked.
pub const TOO_SLOW: f64 = 120.0;

fn told(failure: Failure) -> String {
    format!("the original fails: {failure:?}")
}

/// The seconds that a call takes, and its answer.
fn timed<A>(call: impl FnOnce() -> Result<A, String>) -> Result<(f64, A), String> {
    let start = Instant::now();
    let answer = call()?;
    Ok((start.elapsed().as_secs_f64(), answer))
}

/// An answer in few letters.
fn brief(answer: &impl Debug) -> String {
    let text = format!("{answer:?}");
    match text.char_indices().nth(120) {
        Some((at, _)) => format!("{} ..", &text[..at]),
        None => text,
    }
}

/// The sides in turns, round by round: the fewest seconds of each. All answers have to be the same, in all rounds.
fn in_turns<A: PartialEq + Debug>(
    rounds: u32,
    mut ask: impl FnMut(Side) -> Result<(f64, A), String>,
) -> Result<[f64; 3], String> {
    let mut fewest = [f64::INFINITY; 3];
    let mut right: Option<A> = None;
    for round in 0..rounds {
        for (side, fewest) in [Side::Library, Side::One, Side::Sixteen].into_iter().zip(&mut fewest) {
            if round > 0 && *fewest > SLOW {
                continue;
            }
            crc16_ibm3740_fast::take_sixteen_bytes_a_step(side == Side::Sixteen);
            let (seconds, answer) = ask(side)?;
            *fewest = fewest.min(seconds);
            match &right {
                Some(right) if *right != answer => {
                    let (answer, right) = (brief(&answer), brief(right));
                    return Err(format!("{side} answers {answer}, where the library's first answer was {right}"));
                }
                Some(_) => {}
                None => right = Some(answer),
            }
        }
    }
    Ok(fewest)
}

extern "C" {
    fn memfd_create(name: *const std::ffi::c_char, flags: std::ffi::c_uint) -> std::ffi::c_int;
}

/// A file in memory that has no name in any folder.
fn file_in_memory() -> Result<std::fs::File, String> {
    // SAFETY: a name that ends with 0, and no flags.
    let number = unsafe { memfd_create(c"bench".as_ptr(), 0) };
    if number < 0 {
        return Err(format!("the system gives no file in memory: {}", std::io::Error::last_os_error()));
    }
    // SAFETY: the file was opened just now, and nobody else has its number.
    Ok(unsafe { std::fs::File::from_raw_fd(number) })
}

/// The mark of the line at `place` as the word's low 24 bits, by document 01.
fn mark(place: usize) -> u32 {
    ((place / 16 + 0x5a_17c0) % (1 << 24)) as u32
}

/// The forms of the checksum's stand-in are held to the catalogue's rule, and so is the library's.
pub fn check_checksums() -> Result<u64, String> {
    let mut rng = Rng::new(1);
    let bytes = rng.bytes(70_000);
    let mut count = 0;
    let short = (0..600).map(|length| length % 13..length % 13 + length);
    let long = (0..60).map(|i| (i * 17) % 64..1000 * i + 1000 + i % 16);
    for range in short.chain(long) {
        let part = &bytes[range];
        let right = crc16_ibm3740_fast::hash_by_bits(part);
        for sixteen in [false, true] {
            crc16_ibm3740_fast::take_sixteen_bytes_a_step(sixteen);
            if crc16_ibm3740_fast::hash(part) != right {
                let form = if sixteen { "sixteen bytes" } else { "one byte" };
                return Err(format!("the checksum of {form} a step is wrong for {} bytes", part.len()));
            }
        }
        if library::hash(part) != right {
            return Err(format!("the library's checksum is wrong for {} bytes", part.len()));
        }
        count += 1;
    }
    crc16_ibm3740_fast::take_sixteen_bytes_a_step(false);
    Ok(count)
}

/// The library's region in memory, and the original's file with the same bytes, in memory as well.
pub struct Bench {
    pub sizes: Sizes,
    region: Vec<u8>,
    file: File,
    /// Random bytes of which keys and values are cut.
    pool: Vec<u8>,
    rng: Rng,
    pub system: System,
    pub rows: Vec<Row>,
    pub hostile: Vec<Hostile>,
    pub full: Vec<Full>,
}

/// How long the entries of a hostile region are: every line has its mark and an entry, and no checksum agrees.
#[derive(Clone, Copy, PartialEq, Eq)]
pub enum Lengths {
    /// As long as an entry can be, or to the region's end: the worst card.
    Longest,
    /// Of key and value any number of two bytes, the same in every run. Entries that run past the region's end stay so.
    Any,
    /// No key, and a value with which the sum covers so many bytes.
    Covering(usize),
}

pub const LENGTHS: [Lengths; 4] = [Lengths::Longest, Lengths::Any, Lengths::Covering(1000), Lengths::Covering(240)];

impl Display for Lengths {
    fn fmt(&self, formatter: &mut Formatter) -> std::fmt::Result {
        match self {
            Lengths::Longest => write!(formatter, "longest entries"),
            Lengths::Any => write!(formatter, "entries of any length"),
            Lengths::Covering(count) => write!(formatter, "sums of {}", bytes(*count as u64)),
        }
    }
}

impl Lengths {
    /// The lengths of key and value at a line of a region.
    fn at(self, length: usize, place: usize) -> (usize, usize) {
        match self {
            Lengths::Longest => {
                let lengths = reach(length, place) - 10;
                let klen = lengths.min(LARGEST_LENGTH);
                (klen, lengths - klen)
            }
            Lengths::Any => {
                let drawn = Rng::new(place as u64).next();
                (drawn as u16 as usize, (drawn >> 16) as u16 as usize)
            }
            Lengths::Covering(count) => (0, count - 8),
        }
    }

    /// The bytes that the line's sum covers, if the entry lies whole in the region.
    fn covered(self, length: usize, place: usize) -> Option<usize> {
        let (klen, vlen) = self.at(length, place);
        let covered = 8 + klen + vlen;
        (place + covered + 2 <= length).then_some(covered)
    }

    /// What the durable end of such a region takes: every line is tried, and every whole entry summed.
    fn effort(self, length: usize) -> RawEffort {
        let covered = (0..length).step_by(16).filter_map(|place| self.covered(length, place));
        RawEffort { lines: length as u64 / 16, bytes: covered.map(|count| count as u64).sum() }
    }
}

impl Bench {
    pub fn new(sizes: Sizes) -> Result<Self, String> {
        let mut rng = Rng::new(1);
        Ok(Bench {
            region: vec![0; sizes.region],
            file: File::new(file_in_memory()?),
            pool: rng.bytes(1 << 16),
            rng,
            system: System::default(),
            rows: vec![],
            hostile: vec![],
            full: vec![],
            sizes,
        })
    }

    /// All cases, one after the other.
    pub fn run(&mut self) -> Result<(), String> {
        self.file.set_length(self.region.len() as u64);
        for entry in &ENTRIES {
            let name = format!("durable end and counts, entries of {}", bytes(entry.length));
            self.named(&name, |bench| bench.full(entry))?;
        }
        self.named("durable end, every mark wrong", Self::wrong_marks)?;
        self.named("durable end and used bound of zeros", Self::zeros)?;
        for entry in &ENTRIES {
            self.named(&format!("append of {}", bytes(entry.length)), |bench| bench.appends(entry))?;
        }
        self.tracker()?;
        for length in self.sizes.hostile.clone() {
            self.named(&format!("durable end, hostile {}", bytes(length as u64)), |bench| bench.hostile(length))?;
        }
        for lengths in LENGTHS {
            self.named(&format!("durable end, hostile, {lengths}"), |bench| bench.full_hostile(lengths))?;
        }
        Ok(())
    }

    /// Tells which case is measured, and which one failed.
    fn named(&mut self, name: &str, case: impl FnOnce(&mut Self) -> Result<(), String>) -> Result<(), String> {
        eprintln!("measuring: {name}");
        case(self).map_err(|why| format!("{name}: {why}"))
    }

    fn row(&mut self, panel: Panel, title: &str, label: &str, figures: [f64; 3]) {
        self.rows.push(Row { panel, title: title.to_string(), label: label.to_string(), figures });
    }

    /// The durable end up to `bound`, which all sides have to give as `right`, and for which the library has to count
    /// `effort`.
    fn durable_end(&mut self, bound: u64, right: u64, effort: RawEffort) -> Result<[f64; 3], String> {
        let (region, file) = (&self.region[..self.file.length_now() as usize], &self.file);
        in_turns(self.sizes.rounds, |side| {
            let (seconds, end) = timed(|| match side {
                Side::Library => match library::durable_end(region, bound)? {
                    (end, counted) if counted == effort => Ok(end),
                    (_, counted) => Err(format!("{side} counts {counted:?} instead of {effort:?}")),
                },
                _ => file.durable_end(bound).map_err(told),
            })?;
            if end != right {
                return Err(format!("{side} answers {end} instead of {right}"));
            }
            Ok((seconds, end))
        })
    }

    /// The used bound, which all sides have to give as `right`.
    fn used_bound(&mut self, rounds: u32, right: u64) -> Result<[f64; 3], String> {
        let (region, file) = (&self.region[..self.file.length_now() as usize], &self.file);
        in_turns(rounds, |side| {
            let (seconds, bound) = timed(|| match side {
                Side::Library => library::used_bound(region),
                _ => file.used_bound(region.len() as u64).map_err(told),
            })?;
            if bound != right {
                return Err(format!("{side} answers {bound} instead of {right}"));
            }
            Ok((seconds, bound))
        })
    }

    /// The counts, which all sides have to give as `right`. The original finds the used bound, and lists up to it.
    fn counts(&mut self, right: [[u32; 64]; 3]) -> Result<[f64; 3], String> {
        let (region, file) = (&self.region[..self.file.length_now() as usize], &mut self.file);
        in_turns(self.sizes.rounds, |side| {
            let (seconds, counts) = timed(|| match side {
                Side::Library => library::count_entries(region),
                _ => {
                    let bound = file.used_bound(region.len() as u64).map_err(told)?;
                    file.count_listed(bound).map_err(told)
                }
            })?;
            if counts != right {
                return Err(format!("{side} counts {} instead of {}", brief(&counts), brief(&right)));
            }
            Ok((seconds, counts))
        })
    }

    /// A region full of entries of one make-up, no two neighbours the same, in the namespaces from 0 to 63 in turn.
    fn full(&mut self, entry: &MakeUp) -> Result<(), String> {
        self.region.fill(0);
        let count = self.region.len() as u64 / entry.aligned();
        let mut used = 0;
        for i in 0..count {
            let at = (i * 61 % 8192) as usize;
            let (key, rest) = self.pool[at..].split_at(entry.key);
            used = library::append(&mut self.region, used, i % 64, key, entry.value.map(|length| &rest[..length]))?;
        }
        if used != count * entry.aligned() {
            return Err(format!("{count} appends gave the used count {used}"));
        }
        self.file.put(0, &self.region);
        self.used_bound(1, used)?;
        let effort = RawEffort { lines: count, bytes: count * (entry.length - 2) };
        let seconds = self.durable_end(used, used, effort)?;
        let speed = seconds.map(|s| used as f64 / s / 1e6);
        let label = format!("entries of {}", bytes(entry.length));
        self.row(Panel::Scan, &format!("durable end, {label}"), &label, speed);
        let mut counts = [[0; 64]; 3];
        for i in 0..count {
            counts[if entry.value.is_some() { 0 } else { 2 }][(i % 64) as usize] += 1;
        }
        let seconds = self.counts(counts)?;
        let speed = seconds.map(|s| used as f64 / s / 1e6);
        let label = format!("counts, {}", bytes(entry.length));
        self.row(Panel::Scan, &format!("count entries, entries of {}", bytes(entry.length)), &label, speed);
        if entry.length == DAMAGED {
            self.damaged(entry, count)?;
        }
        Ok(())
    }

    /// One byte of the value of the region's middle entry is changed. All lines within that entry are tried as well.
    fn damaged(&mut self, entry: &MakeUp, count: u64) -> Result<(), String> {
        let place = (count / 2 * entry.aligned()) as usize + 8 + entry.value.unwrap_or(0) / 2;
        self.region[place] ^= 1;
        self.file.put(place as u64, &self.region[place..place + 1]);
        let used = count * entry.aligned();
        let effort = RawEffort { lines: count - 1 + entry.aligned() / 16, bytes: count * (entry.length - 2) };
        let seconds = self.durable_end(used, used, effort)?;
        let speed = seconds.map(|s| used as f64 / s / 1e6);
        let label = bytes(entry.length);
        let title = format!("durable end, one damaged entry of {label}");
        self.row(Panel::Scan, &title, &format!("one damaged of {label}"), speed);
        Ok(())
    }

    /// No line has its mark, and none is zero.
    fn wrong_marks(&mut self) -> Result<(), String> {
        for (i, line) in self.region.chunks_exact_mut(16).enumerate() {
            line[..8].copy_from_slice(&self.rng.next().to_le_bytes());
            line[8..].copy_from_slice(&(self.rng.next() | 1 << 63).to_le_bytes());
            let wrong = mark(16 * i) ^ 0x80_0001;
            line[..3].copy_from_slice(&wrong.to_le_bytes()[..3]);
        }
        self.file.put(0, &self.region);
        let length = self.region.len() as u64;
        self.used_bound(1, length)?;
        let seconds = self.durable_end(length, 0, RawEffort { lines: length / 16, bytes: 0 })?;
        let speed = seconds.map(|s| length as f64 / s / 1e6);
        self.row(Panel::Scan, "durable end, every mark wrong", "every mark wrong", speed);
        Ok(())
    }

    /// Zeros that were written: pages of their own on both sides. A line whose mark is 0 has it, and with no key and no
    /// value eight bytes to sum up, whose checksum isn't 0.
    fn zeros(&mut self) -> Result<(), String> {
        self.region.fill(0);
        self.file.put(0, &self.region);
        let length = self.region.len() as u64;
        let marked = (0..self.region.len()).step_by(16).filter(|&p| mark(p) == 0).count() as u64;
        let seconds = self.durable_end(length, 0, RawEffort { lines: length / 16, bytes: 8 * marked })?;
        let speed = seconds.map(|s| length as f64 / s / 1e6);
        self.row(Panel::Scan, "durable end, zeros", "zeros", speed);
        let seconds = self.used_bound(self.sizes.rounds, 0)?;
        let speed = seconds.map(|s| length as f64 / s / 1e6);
        self.row(Panel::Scan, "used bound of zeros", "used bound of zeros", speed);
        let mut fewest = f64::INFINITY;
        for _ in 0..self.sizes.rounds {
            fewest = fewest.min(timed(|| self.file.read_all(length).map_err(told))?.0);
        }
        self.system.reading = length as f64 / fewest / 1e6;
        Ok(())
    }

    /// Appends of one make-up from the region's start on, over zeros.
    fn appends(&mut self, entry: &MakeUp) -> Result<(), String> {
        let length = self.region.len().min(self.sizes.append_bytes as usize);
        let count = (length as u64 / entry.aligned()).min(self.sizes.appends);
        let used = (count * entry.aligned()) as usize;
        let (key, rest) = self.pool.split_at(entry.key);
        let value = entry.value.map(|length| &rest[..length]);
        let (region, file) = (&mut self.region, &mut self.file);
        let zeros = vec![0; used];
        let capacity = region.len() as u32;
        let seconds = in_turns(self.sizes.rounds, |side| {
            if side == Side::Library {
                region[..used].fill(0);
                timed(|| {
                    let mut used = 0;
                    for i in 0..count {
                        used = library::append(region, used, i % 64, key, value)?;
                    }
                    Ok(used)
                })
            } else {
                file.put(0, &zeros);
                let answer = timed(|| file.append_again(capacity, key, value, count).map_err(told))?;
                if file.get(0, used) != region[..used] {
                    return Err(format!("{side} writes other bytes than the library"));
                }
                Ok(answer)
            }
        })?;
        let each = seconds.map(|s| s / count as f64 * 1e9);
        let mut fewest = f64::INFINITY;
        for _ in 0..self.sizes.rounds {
            let line = &zeros[..entry.aligned() as usize];
            fewest = fewest.min(timed(|| file.write_again(line, count).map_err(told))?.0);
        }
        self.system.writing.push((entry.length, fewest / count as f64 * 1e9));
        let label = bytes(entry.length);
        self.row(Panel::Append, &format!("append of {label}"), &label, each);
        Ok(())
    }

    fn tracker(&mut self) -> Result<(), String> {
        self.named("tracker, reserve and complete", |bench| {
            bench.tracker_calls("reserve and complete", &busy(), |calls| match calls {
                Calls::Library(tracker, count) => {
                    tracker.reserve_and_complete_again(3, 7, ROOM, 16, count).map(|used| used as i64)
                }
                Calls::Original(tracker, file, count) => {
                    let used = tracker.reserve_and_complete_again(file, 3, 7, ROOM, 16, count);
                    used.map(|used| used as i64).map_err(told)
                }
            })
        })?;
        self.named("tracker, record and drain", |bench| {
            bench.tracker_calls("record and drain", &fresh(), |calls| match calls {
                Calls::Library(tracker, count) => tracker.record_and_drain_again(3, 1, count),
                Calls::Original(tracker, _, count) => tracker.record_and_drain_again(3, 1, count).map_err(told),
            })
        })?;
        self.named("tracker, checkpoint", |bench| {
            bench.tracker_calls("checkpoint", &busy(), |calls| match calls {
                Calls::Library(tracker, count) => tracker.checkpoint_again(7, 8, count).map(|total| total as i64),
                Calls::Original(tracker, file, count) => {
                    tracker.checkpoint_again(file, 7, 8, count).map(|total| total as i64).map_err(told)
                }
            })
        })
    }

    /// One row of tracker calls from `state` on; the state afterwards is part of the answer.
    fn tracker_calls(
        &mut self,
        name: &str,
        state: &original::State,
        mut calls: impl FnMut(Calls) -> Result<i64, String>,
    ) -> Result<(), String> {
        let (count, file) = (self.sizes.pairs, &mut self.file);
        let seconds = in_turns(self.sizes.rounds, |side| {
            if side == Side::Library {
                let mut tracker = library::Tracker::of(state);
                let (seconds, answer) = timed(|| calls(Calls::Library(&mut tracker, count)))?;
                Ok((seconds, (answer, tracker.state())))
            } else {
                let tracker = original::Tracker::new();
                tracker.set_state(state);
                let (seconds, answer) = timed(|| calls(Calls::Original(&tracker, file, count)))?;
                Ok((seconds, (answer, tracker.state())))
            }
        })?;
        self.row(Panel::Tracker, &format!("tracker, {name}"), name, seconds.map(|s| s / count as f64 * 1e9));
        Ok(())
    }

    /// Makes the region's first `length` bytes a hostile region.
    fn make_hostile(&mut self, lengths: Lengths, length: usize) {
        let (region, rng) = (&mut self.region[..length], &mut self.rng);
        for (i, line) in region.chunks_exact_mut(16).enumerate() {
            let (klen, vlen) = lengths.at(length, 16 * i);
            line[..4].copy_from_slice(&mark(16 * i).to_le_bytes());
            line[4..6].copy_from_slice(&(klen as u16).to_le_bytes());
            line[6..8].copy_from_slice(&(vlen as u16).to_le_bytes());
            line[8..].copy_from_slice(&rng.next().to_le_bytes());
        }
        unverify(region, |place| lengths.covered(length, place), rng);
    }

    /// The durable end of a hostile region of this length, by all three sides.
    fn compared_hostile(&mut self, lengths: Lengths, length: usize) -> Result<Hostile, String> {
        self.make_hostile(lengths, length);
        self.file.set_length(length as u64);
        self.file.put(0, &self.region[..length]);
        let effort = lengths.effort(length);
        let seconds = self.durable_end(length as u64, 0, effort)?;
        Ok(Hostile { length: length as u64, effort, seconds })
    }

    /// The worst card of this length.
    fn hostile(&mut self, length: usize) -> Result<(), String> {
        let hostile = self.compared_hostile(Lengths::Longest, length)?;
        let label = bytes(length as u64);
        self.row(Panel::Hostile, &format!("durable end, hostile {label}"), &label, hostile.seconds);
        self.hostile.push(hostile);
        Ok(())
    }

    /// All of the region hostile, for the library alone: the original's seconds are those of the longest of the compared
    /// hostile regions, times as many as the bytes to sum are more.
    fn full_hostile(&mut self, lengths: Lengths) -> Result<(), String> {
        let compared = match (lengths, self.hostile.last()) {
            (Lengths::Longest, Some(worst)) => *worst,
            _ => self.compared_hostile(lengths, self.sizes.hostile[self.sizes.hostile.len() - 1])?,
        };
        let length = self.region.len();
        let effort = lengths.effort(length);
        let scaled = compared.seconds.map(|seconds| seconds * effort.bytes as f64 / compared.effort.bytes as f64);
        let mut seconds = None;
        if scaled[0] > TOO_SLOW {
            let (length, scaled) = (bytes(length as u64), figure(scaled[0]));
            eprintln!("left out: {length} would take the library some {scaled} s, by its {}", bytes(compared.length));
        } else {
            seconds = Some(self.library_alone(lengths, effort)?);
        }
        self.full.push(Full { lengths, compared, length: length as u64, effort, scaled, seconds });
        Ok(())
    }

    fn library_alone(&mut self, lengths: Lengths, effort: RawEffort) -> Result<f64, String> {
        self.make_hostile(lengths, self.region.len());
        let mut fewest = f64::INFINITY;
        for round in 0..self.sizes.rounds {
            if round > 0 && fewest > SLOW {
                break;
            }
            let (seconds, answer) = timed(|| library::durable_end(&self.region, self.region.len() as u64))?;
            if answer != (0, effort) {
                return Err(format!("the library answers {answer:?} instead of 0 and {effort:?}"));
            }
            fewest = fewest.min(seconds);
        }
        Ok(fewest)
    }
}

/// The most that two bytes say of a key or a value, and the longest entry.
const LARGEST_LENGTH: usize = 65_535;
const LONGEST_ENTRY: usize = 10 + 2 * LARGEST_LENGTH;

/// The longest entry at a line of a region. A region of whole lines has room for a data entry on each.
fn reach(length: usize, place: usize) -> usize {
    LONGEST_ENTRY.min(length - place)
}

/// The last eight bytes of every line are drawn anew until the checksum of its entry doesn't agree. `covered` tells of a
/// line how many bytes its sum covers. The sums come from one pass over the region, from its end on, and no entry is summed
/// up on its own. The pass takes what the bytes from each place on add to a register, divided by x^8 for each byte: as the
/// checksum is linear, the sum from p to e is (behind[p] + 0xffff) * x^(8 * (e - p)) + behind[e].
fn unverify(region: &mut [u8], covered: impl Fn(usize) -> Option<usize>, rng: &mut Rng) {
    let undo: Vec<u16> = (0..256).map(|low| divided(low, 8)).collect();
    let step = |register: u16, byte: u8| register >> 8 ^ undo[usize::from(register % 256)] ^ u16::from(byte) << 8;
    let mut powers = vec![1; LONGEST_ENTRY];
    for i in 1..powers.len() {
        powers[i] = crc16_ibm3740_fast::update(powers[i - 1], &[0]);
    }
    // The longest entry fits into it.
    let mut behind = vec![0; LONGEST_ENTRY.next_power_of_two()];
    let room = behind.len();
    for place in (0..region.len()).step_by(16).rev() {
        loop {
            for p in (place..place + 16).rev() {
                behind[p % room] = step(behind[(p + 1) % room], region[p]);
            }
            let Some(count) = covered(place) else { break };
            let end = place + count;
            let sum = times(behind[place % room] ^ 0xffff, powers[count]) ^ behind[end % room];
            if sum != u16::from_le_bytes([region[end], region[end + 1]]) {
                break;
            }
            region[place + 8..place + 16].copy_from_slice(&rng.next().to_le_bytes());
        }
    }
}

/// A register divided by x so many times, modulo the checksum's polynomial.
fn divided(register: u16, times: u32) -> u16 {
    (0..times).fold(register, |r, _| if r % 2 == 1 { (r ^ 0x1021) >> 1 | 0x8000 } else { r >> 1 })
}

/// The product of two registers, modulo the checksum's polynomial.
fn times(a: u16, b: u16) -> u16 {
    (0..16).rev().fold(0, |r: u16, bit| {
        let doubled = r << 1 ^ if r >= 0x8000 { 0x1021 } else { 0 };
        doubled ^ if a >> bit & 1 == 1 { b } else { 0 }
    })
}

/// "4,096 bytes".
fn bytes(count: u64) -> String {
    format!("{} bytes", grouped(count))
}

enum Calls<'a> {
    Library(&'a mut library::Tracker, u64),
    Original(&'a original::Tracker, &'a mut File, u64),
}

/// The largest region, which a row of reservations fills from its start on.
const ROOM: u32 = 268_435_456;

fn fresh() -> original::State {
    original::State { slots: Default::default(), queues: Default::default(), next: 1 }
}

/// Sixteen deltas wait on each of the shards 0 to 7, and the shards 8 to 15 have an open slot.
fn busy() -> original::State {
    let mut state = fresh();
    for shard in 0..8 {
        state.queues[shard] = (0..16).map(|i| (state.next + i, 1)).collect();
        state.next += 16;
    }
    for shard in 8..16 {
        let offset = u64::from(ROOM) - 16 * (shard as u64 + 1);
        state.slots[shard] = original::Slot { number: state.next, ordinal: 7, offset };
        state.next += 1;
    }
    state
}
