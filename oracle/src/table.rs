//! What was compared, and how often each answer was met.
use std::collections::BTreeMap;

use crate::{
    calls::{grid_of, Call, Effort, Header, Region, Said, OPERATIONS},
    draw::WINDOW,
    judge::Judged,
    library::Side,
    paper::Paper,
};

/// A sum of so many bytes is a long one.
const LONG: usize = 512;

/// The parting of the operation that has no counterpart in the original.
pub const PART: &str = "part: past the region's end (a slice panics)";

#[derive(Default)]
pub struct Table {
    answers: BTreeMap<(&'static str, String), u64>,
    partings: BTreeMap<&'static str, u64>,
    pub calls: u64,
    /// Calls that told what they took, those of them that summed bytes and found no entry, and all that they took.
    counted: u64,
    in_vain: u64,
    taken: Effort,
    /// Grids that were told, and by kind the entries that they count.
    grids: u64,
    entries: BTreeMap<(usize, usize), u64>,
    largest: u32,
    long: Long,
}

/// Durable ends and counts that met a long entry with a wrong sum; the entries that they found behind the first such one,
/// those of them that are long too, and those whose sum ends as far behind that line as a window reaches, or farther.
#[derive(Default)]
struct Long {
    calls: u64,
    behind: u64,
    long: u64,
    far: u64,
}

impl Table {
    pub fn count(&mut self, call: &Call, judged: &Judged) {
        self.calls += 1;
        *self.answers.entry((call.operation(), call.answer_name(&judged.said))).or_default() += 1;
        if let Some(name) = judged.parting {
            *self.partings.entry(name).or_default() += 1;
        }
        if let Some(Effort { lines, bytes }) = call.effort(&judged.said) {
            self.counted += 1;
            self.taken.lines += lines;
            self.taken.bytes += bytes;
            let no_entry = judged.said.number == 0 && matches!(judged.said.values[..], [.., 0, _, _]);
            self.in_vain += u64::from(no_entry && bytes > 0);
        }
        self.long.count(call, judged);
        if let (Call::CountEntries { .. }, 0) = (call, judged.said.number) {
            self.grids += 1;
            for (kind, ns, number) in cells(&judged.said.bytes).filter(|&(.., number)| number != 0) {
                *self.entries.entry((kind, ns)).or_default() += u64::from(number);
                self.largest = self.largest.max(number);
            }
        }
    }

    fn met(&self, operation: &'static str, answer: &str) -> u64 {
        self.answers.get(&(operation, answer.to_string())).copied().unwrap_or(0)
    }

    /// Answers that an operation can give and that were never met.
    pub fn holes(&self) -> Vec<String> {
        let all = OPERATIONS
            .iter()
            .flat_map(|operation| operation.answers.iter().map(move |answer| (operation.name, *answer)));
        all.filter(|(name, answer)| self.met(name, answer) == 0)
            .map(|(name, answer)| format!("{name}: {answer}"))
            .collect()
    }

    pub fn print(&self) {
        println!("{:<20} {:>11}  answers met", "operation", "calls");
        for operation in OPERATIONS {
            let counts: Vec<(&str, u64)> =
                operation.answers.iter().map(|answer| (*answer, self.met(operation.name, answer))).collect();
            let total: u64 = counts.iter().map(|(_, count)| count).sum();
            let words: Vec<String> =
                counts.iter().map(|(answer, count)| format!("{answer} {}", grouped(*count))).collect();
            println!("{:<20} {:>11}  {}", operation.name, grouped(total), words.join(", "));
        }
        println!("{:<20} {:>11}", "all", grouped(self.calls));
        println!();
        println!("{:>11}  partings, each as docs/DIFFERENCES.md lists it (what the original does)", "calls");
        for (name, count) in &self.partings {
            println!("{:>11}  {name}", grouped(*count));
        }
        let parted: u64 = self.partings.values().sum();
        println!("{:>11}  all", grouped(parted));
        println!();
        // The checksum crate couldn't be had, and a part of a slice is Rust's own.
        let by_rule = ["checksum", "checksum, continued"].map(|name| self.met(name, "sum")).iter().sum::<u64>()
            + self.calls_of("part")
            - self.partings.get(PART).copied().unwrap_or(0);
        println!("{:>11}  the original gave the answer", grouped(self.calls - parted - by_rule));
        println!("{:>11}  checksums and parts, held to the catalogue's rule and to a plain slice", grouped(by_rule));
        println!();
        let Effort { lines, bytes } = self.taken;
        println!(
            "{:>11}  durable ends and boots, their counts held to the original's own: {} lines, {} bytes",
            grouped(self.counted),
            grouped(lines),
            grouped(bytes)
        );
        println!("{:>11}  of them summed bytes and found no entry", grouped(self.in_vain));
        println!(
            "{:>11}  grids of {} entries, of {} of 192 kinds, at most {} in one cell",
            grouped(self.grids),
            grouped(self.entries.values().sum()),
            self.entries.len(),
            grouped(self.largest.into())
        );
        let Long { calls, behind, long, far } = self.long;
        println!(
            "{:>11}  durable ends and counts with a wrong sum of {LONG} bytes or more; behind it {} entries, {} as long, {} past {} bytes",
            grouped(calls),
            grouped(behind),
            grouped(long),
            grouped(far),
            grouped(WINDOW as u64)
        );
    }

    fn calls_of(&self, operation: &str) -> u64 {
        self.answers.iter().filter(|((name, _), _)| *name == operation).map(|(_, count)| count).sum()
    }
}

impl Long {
    /// The entries are those that document 01 written out lists, which the answer was held to.
    fn count(&mut self, call: &Call, judged: &Judged) {
        let (region, header, bound) = match call {
            Call::DurableEnd { region: Region::Dense(region), header, bound } => (region, *header, *bound),
            Call::CountEntries { region: Region::Dense(region), header, .. } => (region, *header, region.len() as u64),
            _ => return,
        };
        if !matches!(judged.said.number, 0 | 10) || !(0..region.len()).step_by(16).any(|p| long_at(region, header, p)) {
            return;
        }
        let listed = Paper::plain().say(&Call::Listing { region: Region::Dense(region.clone()), header, bound });
        let entries: Vec<(usize, usize)> =
            listed.values.chunks_exact(9).map(|entry| (entry[1] as usize, entry[8] as usize)).collect();
        let refused = if listed.number == 10 { listed.values.last().copied() } else { None };
        let end = refused.unwrap_or(bound) as usize;
        let mut from = 0;
        let gaps = entries.iter().copied().chain([(end, end)]).map(|(place, next)| {
            let gap = from..place;
            from = next.next_multiple_of(16);
            gap
        });
        let Some(wrong) = gaps.flat_map(|gap| gap.step_by(16)).find(|&p| long_at(region, header, p)) else { return };
        self.calls += 1;
        for (place, end) in entries.into_iter().filter(|&(place, _)| place > wrong) {
            self.behind += 1;
            self.long += u64::from(end - 2 - place >= LONG);
            self.far += u64::from(end - 2 - wrong >= WINDOW);
        }
    }
}

/// Whether the line has its mark and a long entry that lies whole in the region.
fn long_at(region: &[u8], header: Header, p: usize) -> bool {
    let Some(head) = region.get(p..p + 8) else { return false };
    let length = |i: usize| usize::from(u16::from_le_bytes([head[i], head[i + 1]]));
    let covered = match head[3] >> 6 {
        0..=1 => 8 + length(4) + length(6),
        2 => 6 + length(4),
        _ => return false,
    };
    head[..3] == header.mark(p as u64).to_le_bytes()[..3] && covered >= LONG && p + covered + 2 <= region.len()
}

/// A number with its thousands apart.
pub fn grouped(number: u64) -> String {
    let digits = number.to_string();
    let mut grouped = String::new();
    for (i, digit) in digits.chars().enumerate() {
        if i > 0 && (digits.len() - i) % 3 == 0 {
            grouped.push(',');
        }
        grouped.push(digit);
    }
    grouped
}

/// A grid's cells, each with its type and its namespace.
fn cells(bytes: &[u8]) -> impl Iterator<Item = (usize, usize, u32)> {
    let rows = grid_of(bytes).into_iter().enumerate();
    rows.flat_map(|(kind, row)| row.into_iter().enumerate().map(move |(ns, number)| (kind, ns, number)))
}

/// Of a grid the cells that aren't 0; with a refusal those that aren't as they were lent.
fn shown_grid(lent: &[u8], said: &Said) -> String {
    let before = if said.number == 0 { vec![0; lent.len()] } else { lent.to_vec() };
    let others: Vec<_> = cells(&said.bytes).zip(cells(&before)).filter(|(now, before)| now != before).collect();
    let mut words = format!(", {} cells", others.len());
    for ((kind, ns, number), _) in others.iter().take(12) {
        words += &format!(", type {kind} namespace {ns}: {number}");
    }
    words
}

/// An answer in a few words, for a disagreement.
pub fn shown(call: &Call, said: &Said) -> String {
    let mut words = format!("{} (number {}), values {:?}", call.answer_name(said), said.number, said.values);
    if let (Call::CountEntries { lent, .. }, false) = (call, said.bytes.is_empty()) {
        words += &shown_grid(lent, said);
    } else if !said.bytes.is_empty() {
        let shown = &said.bytes[..said.bytes.len().min(96)];
        let more = if said.bytes.len() > shown.len() { ".." } else { "" };
        words += &format!(", {} bytes {}{more}", said.bytes.len(), crate::codec::to_hex(shown));
    }
    if let Some(state) = &said.state {
        words += &format!(", next {}", state.next);
        for (shard, slot) in state.slots.iter().enumerate().filter(|(_, slot)| slot.number != 0 || slot.offset != 0) {
            words += &format!(", slot {shard}: {} at ({}, {})", slot.number, slot.ordinal, slot.offset);
        }
        for (shard, queue) in state.queues.iter().enumerate().filter(|(_, queue)| !queue.is_empty()) {
            words += &format!(", queue {shard}: {queue:?}");
        }
    }
    words
}
