//! The tables of a run, for the screen and as docs/BENCH.md.
use locker_log::sys::RawEffort;

use crate::cases::{Lengths, Sizes, System, ENTRIES, SLOW, TOO_SLOW};

/// The three sides, as the chart and the table call them.
pub const SIDES: [&str; 3] = ["library", "original, one byte a step", "original, sixteen bytes a step"];

/// Rows with one unit.
#[derive(Clone, Copy, PartialEq, Eq)]
pub enum Panel {
    Scan,
    Append,
    Tracker,
    Hostile,
}

impl Panel {
    pub fn unit(self) -> &'static str {
        match self {
            Panel::Scan => "MB/s",
            Panel::Append => "ns each",
            Panel::Tracker => "ns",
            Panel::Hostile => "s",
        }
    }

    pub fn more_is_faster(self) -> bool {
        self == Panel::Scan
    }
}

/// One case: the figures of the library, of the original with one byte a step and of the original with sixteen.
pub struct Row {
    pub panel: Panel,
    pub title: String,
    /// The title without what the chart's heading says.
    pub label: String,
    pub figures: [f64; 3],
}

impl Row {
    /// How many times as fast as the original the library is.
    fn ratios(&self) -> [f64; 2] {
        let [library, one, sixteen] = self.figures;
        [one, sixteen].map(|original| if self.panel.more_is_faster() { library / original } else { original / library })
    }

    fn cells(&self) -> [String; 6] {
        let [library, one, sixteen] = self.figures.map(figure);
        let [to_one, to_sixteen] = self.ratios().map(ratio);
        [self.panel.unit().to_string(), library, one, sixteen, to_one, to_sixteen]
    }
}

/// A hostile region: what its durable end took, as the library counts it, and the seconds of the three sides.
#[derive(Clone, Copy)]
pub struct Hostile {
    pub length: u64,
    pub effort: RawEffort,
    pub seconds: [f64; 3],
}

impl Hostile {
    fn cells(&self) -> [String; 7] {
        let RawEffort { lines, bytes } = self.effort;
        let [library, one, sixteen] = self.seconds.map(figure);
        let speed = figure(bytes as f64 / self.seconds[0] / 1e9);
        [grouped(self.length), grouped(lines), grouped(bytes), library, one, sixteen, speed]
    }
}

/// All of the region hostile, for the library alone, and a shorter one that all sides were asked about.
pub struct Full {
    pub lengths: Lengths,
    pub compared: Hostile,
    pub length: u64,
    pub effort: RawEffort,
    /// The compared seconds by as many more as the bytes to sum are more.
    pub scaled: [f64; 3],
    /// None where it would have taken too long.
    pub seconds: Option<f64>,
}

impl Full {
    fn cells(&self) -> [[String; 7]; 2] {
        let row = |length, RawEffort { lines, bytes }, [library, one, sixteen]: [String; 3]| {
            let name = self.lengths.to_string();
            [name, grouped(length), grouped(lines), grouped(bytes), library, one, sixteen]
        };
        let [library, one, sixteen] = self.scaled.map(|seconds| format!("{} scaled", figure(seconds)));
        let library = self.seconds.map_or(format!("not run, {library}"), figure);
        let Hostile { length, effort, seconds } = self.compared;
        [row(length, effort, seconds.map(figure)), row(self.length, self.effort, [library, one, sixteen])]
    }
}

/// All of a run.
pub struct Run {
    pub rows: Vec<Row>,
    pub hostile: Vec<Hostile>,
    pub full: Vec<Full>,
    pub system: System,
    pub sizes: Sizes,
    pub processors: String,
    pub load_before: String,
    pub load_after: String,
    pub day: String,
    pub command: String,
}

/// "268,435,456".
pub fn grouped(number: u64) -> String {
    let digits = number.to_string();
    let mut text = String::new();
    for (i, digit) in digits.chars().enumerate() {
        if i > 0 && (digits.len() - i) % 3 == 0 {
            text.push(',');
        }
        text.push(digit);
    }
    text
}

/// "1.08 x".
fn ratio(value: f64) -> String {
    match value {
        v if v >= 99.95 => format!("{} x", grouped(v.round() as u64)),
        v if v >= 9.995 => format!("{v:.1} x"),
        v if v >= 0.0995 => format!("{v:.2} x"),
        v => format!("{v:.4} x"),
    }
}

/// Three digits or more that count.
pub fn figure(value: f64) -> String {
    match value {
        v if v >= 99.95 => grouped(v.round() as u64),
        v if v >= 9.995 => format!("{v:.1}"),
        v if v >= 0.9995 => format!("{v:.2}"),
        v if v >= 0.01 => format!("{v:.3}"),
        v => format!("{v:.5}"),
    }
}

const HEADS: [&str; 7] =
    ["case", "unit", "library", "original 1", "original 16", "times original 1", "times original 16"];

const HOSTILE_HEADS: [&str; 7] = [
    "hostile region, bytes",
    "lines tried",
    "bytes checksummed",
    "library, s",
    "original 1, s",
    "original 16, s",
    "library, GB/s checksummed",
];

const FULL_HEADS: [&str; 7] =
    ["hostile region of", "bytes", "lines tried", "bytes checksummed", "library, s", "original 1, s", "original 16, s"];

impl Run {
    /// What the numbers mean: sentences for the screen and for the document.
    fn notes(&self) -> Vec<String> {
        let sizes = &self.sizes;
        let mut notes = vec![
            "`original 1` and `original 16` are the original's own text with a checksum of one byte a step (one table) and \
             of sixteen bytes a step (sixteen tables). The checksum crate that it names could not be had; both forms are \
             stand-ins, and the crate itself may be faster than either."
                .to_string(),
            "The first table's last two columns tell how many times as fast as the original the library is: over 1, it is \
             faster; below 1, it is slower. MB/s are millions of bytes a second, GB/s thousands of millions."
                .to_string(),
            format!(
                "Best of {} rounds, the three sides in turns in one process. A side that takes over {SLOW} s for a round has \
                 only one. Every answer was compared: all sides gave the same ones, and appends wrote the same bytes.",
                sizes.rounds
            ),
            "The original is compiled as for release: optimised (opt-level 3), without overflow checks and debug assertions; \
             its checksum is a crate of its own, as the one that it names is, with a switch for the form. The library is \
             what tools/native makes of it, called through its C interface. No link-time optimisation \
             on either side."
                .to_string(),
        ];
        notes.push(format!(
            "Scans are of a region of {} bytes. The entries: {}. Neighbours have different keys and values. `every mark \
             wrong` has random bytes and no right mark; `zeros` are zeros that were written. `One damaged entry` is the region \
             of these entries with one byte of a value changed, in the middle: its entry is summed in vain, and every line \
             within it is tried.",
            grouped(sizes.region as u64),
            ENTRIES.iter().map(|entry| format!("{} = {}", grouped(entry.length), entry.words)).collect::<Vec<_>>().join("; ")
        ));
        notes.push(format!(
            "The library is lent the region in memory. The original reads a file in memory through a buffer of 131,072 \
             bytes, so its scans have the system's copying in them, which alone runs at {} MB/s.",
            figure(self.system.reading)
        ));
        notes.push(
            "Count entries finds the used bound, lists the entries up to it and counts each by its type and namespace, those \
             from 0 to 63 in turn here. The original has no such call: its own used bound and its own listing are counted \
             around, without a copy of any key or value."
                .to_string(),
        );
        let writing: Vec<String> = self
            .system
            .writing
            .iter()
            .map(|(length, ns)| format!("{} ns ({})", figure(*ns), grouped(*length)))
            .collect();
        notes.push(format!(
            "Appends are {} in a row, or as many as fill {} bytes, over pages that were written before. In the original's \
             figure: a place in the file reserved in its tracker, a buffer filled, the checksum, one system call that \
             writes to the file in memory, the reservation dropped. The library writes into the lent region and does \
             neither the reservation nor the system call. The writes alone take {}.",
            grouped(sizes.appends),
            grouped(sizes.append_bytes),
            writing.join(", ")
        ));
        notes.push(format!(
            "Tracker calls are {} in a row, a pair as one. Sixteen deltas wait on each of the shards 0 to 7 and the shards 8 to \
             15 have an open slot, but for record and drain, which start from a fresh tracker. Each of the library's calls \
             copies the tracker's 5,128 bytes in from behind its pointer, checks first that they are sound (refusal 28), and \
             copies them out again (a checkpoint has nothing to copy out). The original works in place, with locks and \
             atomics since it serves threads, and checks nothing.",
            grouped(sizes.pairs)
        ));
        notes.push(
            "A hostile region is the worst card of its length: every line has its mark and an entry that reaches as far as it \
             can, 131,080 bytes or to the region's end, and no checksum agrees, so that every line is tried and all of its \
             entry but the checksum's two bytes is summed. Lines tried and bytes checksummed are the library's own counts \
             (document 02, request 8), and were held to that sum; docs/HOSTILE.md tells what a full card costs."
                .to_string(),
        );
        notes.push(format!(
            "The last table has the worst card again, and hostile regions of other entries: of any length (of key and value \
             each any number of two bytes; those that run past the region's end aren't summed), and of no key and a value \
             with which each sum covers 1,000 or 240 bytes. Each was asked of all three sides at the shorter length, and of \
             the library alone at the full one, where its counts were held to what they have to be. `Scaled` are seconds of \
             the shorter length, times as many as the bytes checksummed are more: the original's at the full length, and the \
             library's where they come to over {TOO_SLOW} s, which isn't run."
        ));
        notes.push(
            "Wrong marks and the tracker take no checksum, zeros one of eight bytes: there the two columns of the original \
             differ by chance."
                .to_string(),
        );
        notes
    }

    /// The plain tables.
    pub fn text(&self) -> String {
        let mut rows = vec![HEADS.map(str::to_string)];
        rows.extend(self.rows.iter().map(|row| {
            let [unit, library, one, sixteen, to_one, to_sixteen] = row.cells();
            [row.title.clone(), unit, library, one, sixteen, to_one, to_sixteen]
        }));
        let mut hostile = vec![HOSTILE_HEADS.map(str::to_string)];
        hostile.extend(self.hostile.iter().map(Hostile::cells));
        let mut full = vec![FULL_HEADS.map(str::to_string)];
        full.extend(self.full.iter().flat_map(Full::cells));
        let mut text = format!(
            "{}; load averages {} at the start, {} at the end\n\n{}\n{}\n{}\n",
            self.processors,
            self.load_before,
            self.load_after,
            in_columns(&rows, 2),
            in_columns(&hostile, 0),
            in_columns(&full, 1)
        );
        for note in self.notes() {
            text += &wrapped(&note.replace('`', ""), 100, "- ", "  ");
        }
        text
    }

    /// docs/BENCH.md.
    pub fn document(&self) -> String {
        let mut text = format!(
            "# Measured: the library and the original\n\n\
             `{}` measured this on {}, on a machine with {}; load averages {} at the start, {} at the end. \
             `bench/run --write` measures again and writes this page and its picture.\n\n\
             ![The first table below as bars](bench.svg)\n\n",
            self.command, self.day, self.processors, self.load_before, self.load_after
        );
        text = wrapped_paragraphs(&text);
        text += &format!("| {} |\n|---|---|---:|---:|---:|---:|---:|\n", HEADS.join(" | "));
        for row in &self.rows {
            text += &format!("| {} | {} |\n", row.title, row.cells().join(" | "));
        }
        text += &format!("\n| {} |\n|---:|---:|---:|---:|---:|---:|---:|\n", HOSTILE_HEADS.join(" | "));
        for hostile in &self.hostile {
            text += &format!("| {} |\n", hostile.cells().join(" | "));
        }
        text += &format!("\n| {} |\n|---|---:|---:|---:|---:|---:|---:|\n", FULL_HEADS.join(" | "));
        for cells in self.full.iter().flat_map(Full::cells) {
            text += &format!("| {} |\n", cells.join(" | "));
        }
        text += "\n## What the numbers mean\n\n";
        for note in self.notes() {
            text += &wrapped(&note, 150, "- ", "  ");
        }
        text
    }
}

/// Rows in columns, of which the first `words` have words and the others figures.
fn in_columns(rows: &[[String; 7]], words: usize) -> String {
    let widths: [usize; 7] = std::array::from_fn(|i| rows.iter().map(|row| row[i].len()).max().unwrap_or(0));
    let mut text = String::new();
    for row in rows {
        let mut line = String::new();
        for (i, cell) in row.iter().enumerate() {
            let width = widths[i];
            line += &if i < words { format!("{cell:<width$}  ") } else { format!("{cell:>width$}  ") };
        }
        text += line.trim_end();
        text.push('\n');
    }
    text
}

/// Words in lines of at most `width` letters.
fn wrapped(words: &str, width: usize, first: &str, others: &str) -> String {
    let (mut text, mut line) = (String::new(), first.to_string());
    let mut empty = true;
    for word in words.split_whitespace() {
        if !empty && line.chars().count() + 1 + word.chars().count() > width {
            text += &line;
            text.push('\n');
            line = others.to_string();
            empty = true;
        }
        if !empty {
            line.push(' ');
        }
        line += word;
        empty = false;
    }
    text + &line + "\n"
}

fn wrapped_paragraphs(text: &str) -> String {
    text.trim_end().split("\n\n").map(|paragraph| wrapped(paragraph, 150, "", "") + "\n").collect()
}
