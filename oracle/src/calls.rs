//! A call, as both sides are asked it, and an answer, as both sides give it.
pub use original::{Effort, Slot, State};

pub const MAX_REGION: usize = 268_435_456;
pub const HEADER: usize = 4096;

/// What a file's header says, and what decides its marks.
#[derive(Debug, Clone, Copy, PartialEq, Eq)]
pub struct Header {
    pub version: u64,
    pub ordinal: u64,
}

impl Header {
    /// Document 02's request 10: a file is of one of two versions.
    pub fn known(self) -> bool {
        self.version == 1 || self.version == 2
    }

    /// The mark at an offset: document 01's, and in version 2 request 10's.
    pub fn mark(self, p: u64) -> u32 {
        let ordinal = if self.version == 2 { self.ordinal % (1 << 24) } else { 0 };
        ((p / 16 + 0x5a_17c0 + ordinal) % (1 << 24)) as u32
    }
}

/// Document 02's request 9: a row for each type, and in it a column for each namespace.
pub type Grid = [[u32; 64]; 3];

/// A grid as it is lent and left: row by row, four bytes for each cell.
pub const GRID_BYTES: usize = 768;

/// A data region: all its bytes, or zeros with one run of bytes put over them. The second form is for regions of hundreds
/// of megabytes, of which one place is of interest.
#[derive(Debug, Clone, PartialEq, Eq)]
pub enum Region {
    Dense(Vec<u8>),
    Sparse { length: usize, at: usize, bytes: Vec<u8> },
}

impl Region {
    pub fn len(&self) -> usize {
        match self {
            Region::Dense(bytes) => bytes.len(),
            Region::Sparse { length, .. } => *length,
        }
    }
}

/// A call of the tracker.
#[derive(Debug, Clone, PartialEq, Eq)]
pub enum Step {
    Reserve { shard: u64, ordinal: u64, used: u64, capacity: u64, sealed: bool, length: u64 },
    Complete { shard: u64, number: u64, delta: i8 },
    Abandon { shard: u64, number: u64 },
    Record { shard: u64, delta: i8 },
    Checkpoint { ordinal: u64, used: u64 },
    Drain { limit: u64 },
    Clear,
}

#[derive(Debug, Clone, PartialEq, Eq)]
pub enum Call {
    Hash {
        bytes: Vec<u8>,
    },
    Update {
        state: u16,
        bytes: Vec<u8>,
    },
    ReadHeader {
        bytes: Vec<u8>,
    },
    WriteHeader {
        lent: Vec<u8>,
        header: Header,
    },
    ReadAt {
        region: Region,
        header: Header,
        place: u64,
        hint: u64,
    },
    AppendData {
        region: Region,
        header: Header,
        used: u64,
        kind: u64,
        ns: u64,
        key: Vec<u8>,
        value: Vec<u8>,
    },
    AppendTombstone {
        region: Region,
        header: Header,
        used: u64,
        ns: u64,
        key: Vec<u8>,
    },
    Walk {
        region: Region,
        header: Header,
        bound: u64,
        offset: u64,
    },
    /// The walk repeated from 0, each time from the last entry's end. The original keeps its read buffer all along.
    Listing {
        region: Region,
        header: Header,
        bound: u64,
    },
    Part {
        region: Region,
        at: u64,
        len: u64,
    },
    UsedBound {
        region: Region,
    },
    DurableEnd {
        region: Region,
        header: Header,
        bound: u64,
    },
    /// How many entries of each type stand in each namespace; the bytes are those of the grid that is lent for it.
    CountEntries {
        region: Region,
        header: Header,
        lent: Vec<u8>,
    },
    /// Header, used bound and durable end of a whole file, with what that took, which the original's `open` does in one.
    Boot {
        file: Vec<u8>,
    },
    /// One call on a tracker in any state. A trace is a run of them, each from the state that the last one left.
    Track {
        state: Box<State>,
        step: Step,
    },
    ReplayData {
        klen: u64,
        vlen: u64,
        maximum: u64,
    },
    ReplayTombstone {
        klen: u64,
        maximum: u64,
    },
    StartFile {
        ordinals: Vec<u64>,
        cursor: u64,
    },
}

/// An answer: document 01's number (0 for accepted), the values that go with it, the bytes that a call handed back or left
/// in what was lent to it, and a tracker's state afterwards.
#[derive(Debug, Clone, PartialEq, Eq, Default)]
pub struct Said {
    pub number: u32,
    pub values: Vec<u64>,
    pub bytes: Vec<u8>,
    pub state: Option<Box<State>>,
}

impl Said {
    pub fn refused(number: u32) -> Self {
        Said { number, ..Default::default() }
    }

    pub fn values(values: &[u64]) -> Self {
        Said { values: values.to_vec(), ..Default::default() }
    }
}

/// An operation and the answers it can give, for the table.
pub struct Operation {
    pub name: &'static str,
    pub answers: &'static [&'static str],
}

pub const OPERATIONS: &[Operation] = &[
    Operation { name: "checksum", answers: &["sum"] },
    Operation { name: "checksum, continued", answers: &["sum"] },
    Operation { name: "header reader", answers: &["version 1", "version 2", "1", "2"] },
    Operation { name: "header writer", answers: &["written", "1", "2"] },
    Operation { name: "read at a place", answers: &["insert", "update", "2", "3", "5", "6", "7", "8", "9"] },
    Operation { name: "append data", answers: &["used", "2", "3", "5", "9", "17", "11", "12", "13"] },
    Operation { name: "append tombstone", answers: &["used", "2", "3", "5", "17", "11", "13"] },
    Operation { name: "walk", answers: &["insert", "update", "tombstone", "End", "2", "3", "4", "10"] },
    Operation { name: "listing", answers: &["End", "2", "3", "4", "10"] },
    Operation { name: "part", answers: &["part", "empty"] },
    Operation { name: "used bound", answers: &["bound", "0", "3"] },
    Operation { name: "durable end", answers: &["end", "0", "2", "3", "4", "10"] },
    Operation { name: "count entries", answers: &["grid", "empty", "2", "3", "10"] },
    Operation { name: "boot (open)", answers: &["opened", "1", "2", "10"] },
    Operation { name: "reserve", answers: &["reserved", "28", "14", "16", "15", "5", "3", "13"] },
    Operation { name: "complete", answers: &["Done", "Stale", "28", "14"] },
    Operation { name: "abandon", answers: &["Done", "Stale", "28", "14"] },
    Operation { name: "record", answers: &["recorded", "28", "14", "16", "15"] },
    Operation { name: "checkpoint", answers: &["answered", "28"] },
    Operation { name: "drain", answers: &["sum", "28"] },
    Operation { name: "clear", answers: &["cleared", "28"] },
    Operation { name: "replay data", answers: &["accepted", "3", "11", "12", "13"] },
    Operation { name: "replay tombstone", answers: &["accepted", "3", "11", "13"] },
    Operation { name: "start file", answers: &["place", "Nothing", "18", "22"] },
];

impl Call {
    pub fn operation(&self) -> &'static str {
        match self {
            Call::Hash { .. } => "checksum",
            Call::Update { .. } => "checksum, continued",
            Call::ReadHeader { .. } => "header reader",
            Call::WriteHeader { .. } => "header writer",
            Call::ReadAt { .. } => "read at a place",
            Call::AppendData { .. } => "append data",
            Call::AppendTombstone { .. } => "append tombstone",
            Call::Walk { .. } => "walk",
            Call::Listing { .. } => "listing",
            Call::Part { .. } => "part",
            Call::UsedBound { .. } => "used bound",
            Call::DurableEnd { .. } => "durable end",
            Call::CountEntries { .. } => "count entries",
            Call::Boot { .. } => "boot (open)",
            Call::Track { step, .. } => match step {
                Step::Reserve { .. } => "reserve",
                Step::Complete { .. } => "complete",
                Step::Abandon { .. } => "abandon",
                Step::Record { .. } => "record",
                Step::Checkpoint { .. } => "checkpoint",
                Step::Drain { .. } => "drain",
                Step::Clear => "clear",
            },
            Call::ReplayData { .. } => "replay data",
            Call::ReplayTombstone { .. } => "replay tombstone",
            Call::StartFile { .. } => "start file",
        }
    }

    /// The version and the ordinal that a call on a region takes for its marks.
    pub fn header(&self) -> Option<Header> {
        match self {
            Call::ReadAt { header, .. }
            | Call::AppendData { header, .. }
            | Call::AppendTombstone { header, .. }
            | Call::Walk { header, .. }
            | Call::Listing { header, .. }
            | Call::DurableEnd { header, .. }
            | Call::CountEntries { header, .. } => Some(*header),
            _ => None,
        }
    }

    /// Whether a version decides the answer.
    pub fn has_version(&self) -> bool {
        matches!(self, Call::ReadHeader { .. } | Call::WriteHeader { .. } | Call::Boot { .. })
            || self.header().is_some()
    }

    /// What a durable end or a boot took, where its answer tells it.
    pub fn effort(&self, said: &Said) -> Option<Effort> {
        match (self, said.number, &said.values[..]) {
            (Call::DurableEnd { .. } | Call::Boot { .. }, 0 | 10, &[.., lines, bytes]) => Some(Effort { lines, bytes }),
            _ => None,
        }
    }

    /// The name of an answer to this call, as the table has it.
    pub fn answer_name(&self, said: &Said) -> String {
        if said.number != 0 {
            return said.number.to_string();
        }
        let first = said.values.first().copied();
        let name = match self {
            Call::ReadHeader { .. } => {
                if first == Some(2) {
                    "version 2"
                } else {
                    "version 1"
                }
            }
            Call::ReadAt { .. } => {
                if said.values.get(1) == Some(&0) {
                    "insert"
                } else {
                    "update"
                }
            }
            Call::Walk { .. } => match (first, said.values.get(2)) {
                (Some(1), Some(0)) => "insert",
                (Some(1), Some(1)) => "update",
                (Some(1), _) => "tombstone",
                _ => "End",
            },
            Call::Listing { .. } => "End",
            Call::Part { .. } => {
                if said.values.get(1) == Some(&0) {
                    "empty"
                } else {
                    "part"
                }
            }
            Call::UsedBound { .. } => {
                if first == Some(0) {
                    "0"
                } else {
                    "bound"
                }
            }
            Call::DurableEnd { .. } => {
                if first == Some(0) {
                    "0"
                } else {
                    "end"
                }
            }
            Call::CountEntries { .. } => {
                if said.bytes.iter().all(|&byte| byte == 0) {
                    "empty"
                } else {
                    "grid"
                }
            }
            Call::Track { step: Step::Complete { .. } | Step::Abandon { .. }, .. } => {
                if first == Some(1) {
                    "Done"
                } else {
                    "Stale"
                }
            }
            Call::StartFile { .. } => {
                if first == Some(1) {
                    "place"
                } else {
                    "Nothing"
                }
            }
            _ => {
                let operation = self.operation();
                OPERATIONS.iter().find(|known| known.name == operation).map_or("?", |known| known.answers[0])
            }
        };
        name.to_string()
    }
}

/// An entry's eight numbers in the order of the C interface's struct.
pub fn eight(offset: u64, kind: u64, ns: u64, klen: u64, vlen: u64, end: u64) -> [u64; 8] {
    let header = if kind == 2 { 6 } else { 8 };
    [offset, kind, ns, klen, vlen, offset + header, offset + header + vlen, end]
}

pub fn grid_bytes(grid: &Grid) -> Vec<u8> {
    grid.iter().flatten().flat_map(|cell| cell.to_le_bytes()).collect()
}

/// The grid in as many bytes as one has.
pub fn grid_of(bytes: &[u8]) -> Grid {
    let cell = |i: usize| u32::from_le_bytes(bytes[4 * i..4 * i + 4].try_into().unwrap());
    std::array::from_fn(|kind| std::array::from_fn(|ns| cell(64 * kind + ns)))
}

/// A length rounded up to a line.
pub fn up16(length: u64) -> u64 {
    length.div_ceil(16) * 16
}
