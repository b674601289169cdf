//! The locker log in Rust's own manner: a safe interface to the proved library, with nothing but `core`.
//!
//! Every operation takes any bytes and any numbers, and a [`Tracker`] of any cells. A refusal is an `Err` with document 01's
//! number behind it ([`Refusal::number`]) and changes no byte and no state.
//!
//! ```
//! use locker_log::{append_data, Header, Kind, Region};
//!
//! let header = Header { version: 2, ordinal: 7 };
//! let mut bytes = [0u8; 64];
//! let used = append_data(&mut bytes, header, 0, Kind::Insert, 1, b"A7", b"9").unwrap();
//! assert_eq!(used, 16);
//!
//! let region = Region::new(&bytes, header);
//! let bound = region.used_bound().unwrap();
//! let last = region.listing(bound).last().unwrap().unwrap();
//! assert_eq!((last.key(), last.value()), (&b"A7"[..], &b"9"[..]));
//! let durable = region.durable_end(bound).unwrap();
//! assert_eq!((durable.end, durable.effort.lines, durable.effort.bytes), (16, 1, 11));
//! let counts = region.count_entries().unwrap();
//! assert_eq!((counts.of(Kind::Insert, 1), counts.of(Kind::Update, 1), counts.total()), (1, 0, 1));
//!
//! // the card is used again, as file 8: what file 7 has left isn't seen
//! let later = Region::new(&bytes, Header { version: 2, ordinal: 8 });
//! assert_eq!(later.listing(bound).count(), 0);
//! ```
#![no_std]
#![warn(missing_docs)]

mod refusal;
pub mod sys;
mod tracker;

pub use refusal::{EndError, Refusal, WalkError};
pub use tracker::{
    least_along, ActiveFile, Cells, Delta, Finished, Least, Progress, Reserved, Slot, Tracker, NO_LIMIT, SHARDS,
    WAITING,
};

use sys::{RawEffort, RawEntry};

/// The length of a file's header.
pub const HEADER_LENGTH: usize = 4096;

/// How many types of entries there are.
pub const KINDS: usize = 3;

/// How many namespaces there are, from 0 to 63.
pub const NAMESPACES: usize = 64;

/// What a file's header says: its version, 1 or 2, and its ordinal. Together they decide the marks of its lines. Any
/// other version may be passed too, and each call that needs a mark refuses it with 2.
///
/// In version 1 the ordinal has no effect on the marks. In version 2 it is added to them, so an entry left from an
/// earlier use of the card, under another ordinal, doesn't verify. Ordinals that agree modulo 2^24 share their marks,
/// and those that are 0 modulo 2^24 have version 1's. A line of 0xff is of type 3 where the mark is 0xFFFFFF; under an
/// ordinal that is 0xA5E83F modulo 2^24 that is offset 0, and a walk of a region erased to 0xff gives 10 there.
#[derive(Clone, Copy, Debug, PartialEq, Eq)]
pub struct Header {
    /// 1 or 2.
    pub version: u64,
    /// Which of a site's files it is.
    pub ordinal: u64,
}

/// An entry's type.
#[derive(Clone, Copy, Debug, PartialEq, Eq, Hash)]
pub enum Kind {
    /// A first value for a key.
    Insert,
    /// A later value for a key.
    Update,
    /// The key is removed.
    Tombstone,
}

impl Kind {
    fn from_number(kind: u64) -> Kind {
        match kind {
            0 => Kind::Insert,
            1 => Kind::Update,
            _ => Kind::Tombstone,
        }
    }

    fn number(self) -> u64 {
        match self {
            Kind::Insert => 0,
            Kind::Update => 1,
            Kind::Tombstone => 2,
        }
    }
}

/// The CRC-16/IBM-3740 of the bytes.
pub fn hash(bytes: &[u8]) -> u16 {
    // SAFETY: the pointer and the length are those of one slice.
    unsafe { sys::locker_hash(bytes.as_ptr(), bytes.len()) }
}

/// The checksum's register after more bytes, from any register.
pub fn update(state: u16, bytes: &[u8]) -> u16 {
    // SAFETY: the pointer and the length are those of one slice.
    unsafe { sys::locker_update(state, bytes.as_ptr(), bytes.len()) }
}

/// The version and the ordinal of the file that begins with these bytes. Refuses 1, 2.
pub fn read_header(header: &[u8]) -> Result<Header, Refusal> {
    let (mut version, mut ordinal) = (0, 0);
    // SAFETY: one slice, and two numbers of our own.
    let number = unsafe { sys::locker_read_header(header.as_ptr(), header.len(), &mut version, &mut ordinal) };
    Refusal::check(number).map(|()| Header { version, ordinal })
}

/// Fills the first 4,096 bytes and touches no more. Refuses 1, 2 (neither version).
pub fn write_header(lent: &mut [u8], header: Header) -> Result<(), Refusal> {
    // SAFETY: one slice, lent for writing.
    Refusal::check(unsafe { sys::locker_write_header(lent.as_mut_ptr(), lent.len(), header.version, header.ordinal) })
}

/// Writes a data entry at the used count of a file with this header and answers the new one. Refuses 2, 3, 5, 9 (a
/// tombstone), 17, 11, 12, 13.
pub fn append_data(
    region: &mut [u8],
    header: Header,
    used: usize,
    kind: Kind,
    namespace: u64,
    key: &[u8],
    value: &[u8],
) -> Result<usize, Refusal> {
    let mut next = 0;
    // SAFETY: three slices, of which the one that is written to overlaps no other, and a number of our own.
    let number = unsafe {
        sys::locker_append_data(
            region.as_mut_ptr(),
            region.len(),
            header.version,
            header.ordinal,
            used,
            kind.number(),
            namespace,
            key.as_ptr(),
            key.len(),
            value.as_ptr(),
            value.len(),
            &mut next,
        )
    };
    Refusal::check(number).map(|()| next as usize)
}

/// Writes a tombstone at the used count of a file with this header and answers the new one. Refuses 2, 3, 5, 17, 11,
/// 13.
pub fn append_tombstone(
    region: &mut [u8],
    header: Header,
    used: usize,
    namespace: u64,
    key: &[u8],
) -> Result<usize, Refusal> {
    let mut next = 0;
    // SAFETY: two slices, of which the one that is written to overlaps no other, and a number of our own.
    let number = unsafe {
        sys::locker_append_tombstone(
            region.as_mut_ptr(),
            region.len(),
            header.version,
            header.ordinal,
            used,
            namespace,
            key.as_ptr(),
            key.len(),
            &mut next,
        )
    };
    Refusal::check(number).map(|()| next as usize)
}

/// Whether a recovered entry of these lengths is accepted for replay under a configured maximum region size: a data entry,
/// or a tombstone, whose value length isn't looked at. Refuses 3, 11, 12, 13.
pub fn check_replay(kind: Kind, klen: usize, vlen: usize, maximum: usize) -> Result<(), Refusal> {
    // SAFETY: numbers alone.
    Refusal::check(unsafe {
        match kind {
            Kind::Insert | Kind::Update => sys::locker_replay_data(klen, vlen, maximum),
            Kind::Tombstone => sys::locker_replay_tombstone(klen, maximum),
        }
    })
}

/// The place in the list, as given, of the file at which replay begins: the one with the smallest ordinal at or above the
/// cursor's, else the one with the largest, whatever the list's order; `None` for an empty list. Refuses 18, 22.
pub fn start_file(ordinals: &[u64], cursor: u64) -> Result<Option<usize>, Refusal> {
    let (mut place, mut found) = (0, 0);
    // SAFETY: one slice, and two numbers of our own.
    let number = unsafe { sys::locker_start_file(ordinals.as_ptr(), ordinals.len(), cursor, &mut place, &mut found) };
    Refusal::check(number).map(|()| (found == 1).then_some(place as usize))
}

/// A data file without its header, of which it keeps what the header says.
#[derive(Clone, Copy, Debug)]
pub struct Region<'a> {
    bytes: &'a [u8],
    header: Header,
}

/// An entry of a region, with its own bytes at hand.
#[derive(Clone, Copy, Debug)]
pub struct Entry<'a> {
    region: Region<'a>,
    at: RawEntry,
}

/// What a durable end took, whatever the bytes are: at most one line for each 16 bytes of the bound, rounded up, and at
/// most 131,078 bytes for each line.
#[derive(Clone, Copy, Debug, PartialEq, Eq, Hash)]
pub struct Effort {
    /// How many lines it tried, which is to compare a line's mark: each that it came to below the bound, with at least
    /// eight bytes left in the region. The lines that a verified entry covers it passes over.
    pub lines: u64,
    /// How many bytes it checksummed. A tried line with the right mark, type 0, 1 or 2 and its whole entry within the
    /// region adds the entry's length less 2, whether its checksum agrees or not; any other line adds nothing.
    pub bytes: u64,
}

/// Where writing goes on in a region, and what it took to find that out.
#[derive(Clone, Copy, Debug, PartialEq, Eq, Hash)]
pub struct DurableEnd {
    /// The last verified entry's end rounded up to a line, or 0.
    pub end: usize,
    /// The lines tried and the bytes checksummed.
    pub effort: Effort,
}

/// How many entries of each type stand in each namespace of a region.
#[derive(Clone, Debug, PartialEq, Eq, Hash)]
pub struct Counts {
    rows: [[u32; NAMESPACES]; KINDS],
}

/// The entries of a region from offset 0 on, each with the region's lifetime; a refusal ends it.
#[derive(Clone, Debug)]
pub struct Listing<'a> {
    region: Region<'a>,
    bound: usize,
    next: usize,
    over: bool,
}

impl<'a> Region<'a> {
    /// These bytes, from the first behind the header on, of the file that has this header.
    pub fn new(bytes: &'a [u8], header: Header) -> Region<'a> {
        Region { bytes, header }
    }

    /// One past the last nonzero byte, rounded up to a line, but at most the length. Refuses 3.
    pub fn used_bound(self) -> Result<usize, Refusal> {
        let mut bound = 0;
        // SAFETY: one slice, and a number of our own.
        let number = unsafe { sys::locker_used_bound(self.bytes.as_ptr(), self.bytes.len(), &mut bound) };
        Refusal::check(number).map(|()| bound as usize)
    }

    /// The last verified entry's end rounded up to a line, or 0, and what it took. Refuses 2, 3, 4, then 10 with its
    /// place and with what it took.
    pub fn durable_end(self, bound: usize) -> Result<DurableEnd, EndError> {
        let (mut end, mut place) = (0, 0);
        let mut effort = RawEffort::default();
        // SAFETY: one slice, and two numbers and an effort of our own.
        let number = unsafe {
            sys::locker_durable_end(
                self.bytes.as_ptr(),
                self.bytes.len(),
                self.header.version,
                self.header.ordinal,
                bound,
                &mut end,
                &mut place,
                &mut effort,
            )
        };
        EndError::check(number, end, place, effort)
    }

    /// How many entries of each type stand in each namespace, of all that the listing up to the used bound has. Refuses
    /// 2, 3, then 10 with its place, whatever was counted before it.
    pub fn count_entries(self) -> Result<Counts, WalkError> {
        let mut rows = [[0; NAMESPACES]; KINDS];
        let mut place = 0;
        // SAFETY: one slice, and a grid and a number of our own.
        let number = unsafe {
            sys::locker_count_entries(
                self.bytes.as_ptr(),
                self.bytes.len(),
                self.header.version,
                self.header.ordinal,
                &mut rows,
                &mut place,
            )
        };
        WalkError::check(number, place).map(|()| Counts { rows })
    }

    /// The next verified entry from `offset` on, up to `bound`. Refuses 2, 3, 4, then 10 with its place.
    pub fn walk(self, bound: usize, offset: usize) -> Result<Option<Entry<'a>>, WalkError> {
        let mut at = RawEntry::default();
        let (mut found, mut place) = (0, 0);
        // SAFETY: one slice, and an entry and two numbers of our own.
        let number = unsafe {
            sys::locker_walk(
                self.bytes.as_ptr(),
                self.bytes.len(),
                self.header.version,
                self.header.ordinal,
                bound,
                offset,
                &mut at,
                &mut found,
                &mut place,
            )
        };
        WalkError::check(number, place)?;
        Ok((found == 1).then_some(Entry { region: self, at }))
    }

    /// The data entry at a place, of which at most `hint` bytes are looked at. Its kind is the one that was written,
    /// insert or update, as the walk tells it. Refuses 2, 3, 5, then 6, 7, 6, 8, 9.
    pub fn read_at(self, place: usize, hint: usize) -> Result<Entry<'a>, Refusal> {
        let mut at = RawEntry::default();
        // SAFETY: one slice, and an entry of our own.
        let number = unsafe {
            sys::locker_read_at(
                self.bytes.as_ptr(),
                self.bytes.len(),
                self.header.version,
                self.header.ordinal,
                place,
                hint,
                &mut at,
            )
        };
        Refusal::check(number).map(|()| Entry { region: self, at })
    }

    /// The entries up to `bound`, in order.
    pub fn listing(self, bound: usize) -> Listing<'a> {
        Listing { region: self, bound, next: 0, over: false }
    }

    fn part(self, at: u64, len: u64) -> &'a [u8] {
        let (mut start, mut count) = (0, 0);
        // SAFETY: one slice, and two numbers of our own.
        unsafe {
            sys::locker_part(self.bytes.as_ptr(), self.bytes.len(), at as usize, len as usize, &mut start, &mut count)
        }
        &self.bytes[start as usize..(start + count) as usize]
    }
}

impl<'a> Entry<'a> {
    /// The line that it starts on.
    pub fn offset(&self) -> usize {
        self.at.offset as usize
    }

    /// Its type.
    pub fn kind(&self) -> Kind {
        Kind::from_number(self.at.kind)
    }

    /// Its namespace, 0 to 63.
    pub fn namespace(&self) -> u64 {
        self.at.ns
    }

    /// Its key, the region's own bytes.
    pub fn key(&self) -> &'a [u8] {
        self.region.part(self.at.kplace, self.at.klen)
    }

    /// Its value, the region's own bytes; empty for a tombstone.
    pub fn value(&self) -> &'a [u8] {
        self.region.part(self.at.vplace, self.at.vlen)
    }

    /// One past its checksum, not rounded up.
    pub fn end(&self) -> usize {
        self.at.end as usize
    }
}

impl Counts {
    /// How many entries of this type stand in this namespace: 0 for one over 63, in which no entry can stand.
    pub fn of(&self, kind: Kind, namespace: u64) -> u32 {
        let column = usize::try_from(namespace).unwrap_or(NAMESPACES);
        self.row(kind).get(column).copied().unwrap_or(0)
    }

    /// The entries of one type, by their namespaces from 0 to 63.
    pub fn row(&self, kind: Kind) -> &[u32; NAMESPACES] {
        &self.rows[kind.number() as usize]
    }

    /// All cells: a row for each type, inserts first, then updates, then tombstones.
    pub fn rows(&self) -> &[[u32; NAMESPACES]; KINDS] {
        &self.rows
    }

    /// How many entries there are of all types in all namespaces, at most 16,777,216.
    pub fn total(&self) -> u32 {
        self.rows.iter().flatten().sum()
    }
}

impl<'a> Iterator for Listing<'a> {
    type Item = Result<Entry<'a>, WalkError>;

    fn next(&mut self) -> Option<Self::Item> {
        if self.over {
            return None;
        }
        let walked = self.region.walk(self.bound, self.next).transpose();
        match &walked {
            Some(Ok(entry)) => self.next = entry.end(),
            Some(Err(_)) | None => self.over = true,
        }
        walked
    }
}

impl core::iter::FusedIterator for Listing<'_> {}
