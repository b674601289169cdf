//! Document 01 written out as a plain program, with document 02's requests 4 to 6 and 8 to 10: a third opinion, and the
//! place where `oracle/awake` plants its slips. With no slip it has to agree with the original as the library does.
use std::collections::BTreeSet;

use locker_log::sys::RawEffort;

use crate::{
    calls::{eight, up16, Call, Grid, Header, Region, Said, Slot, State, Step, HEADER, MAX_REGION},
    library::{booted, listing, window, CountOuts, EndOuts, Side},
};

/// Every slip that can be planted: its name, and what a program with it does.
pub const SLIPS: &[(&str, &str)] = &[
    ("sum-start-zero", "the checksum starts at 0 instead of 0xffff"),
    ("header-version-low-byte", "only the version's lowest byte is compared"),
    ("header-signature-unread", "the signature isn't compared"),
    ("header-2-refused", "header reader: version 2 is refused, as by the original"),
    ("header-3-read", "header reader: version 3 is taken"),
    ("header-reads-1", "header reader: version 1 is answered, whatever the version"),
    ("header-writes-1", "header writer: version 1 is written, whatever the version, as by the original"),
    ("header-writes-any", "header writer: any version is taken"),
    ("header-version-first", "header writer: 2 is given before 1"),
    ("header-ordinal-half", "the ordinal's upper half is lost"),
    ("header-rest-unwritten", "the header's last 4,072 bytes aren't zeroed"),
    ("header-writes-on", "the header writer zeroes one byte too many"),
    ("read-type-first", "read: the type is checked before the checksum"),
    ("read-length-first", "read: the entry's length is checked before its mark"),
    ("read-hint-ignored", "read: the hint isn't kept to"),
    ("read-hint-off-by-one", "read: one byte more than the hint is looked at"),
    ("read-update-as-insert", "read: an update is told as an insert, as by the original"),
    ("read-line-late", "read: a place off a line gets 6 before 5"),
    ("read-swapped", "read: key length and value length are swapped"),
    ("append-fill-zero", "append: the filling is 0 instead of 0xff"),
    ("append-fill-missing", "append: the filling isn't written"),
    ("append-mark-next", "append: the mark is that of the entry's end"),
    ("append-sum-swapped", "append: the checksum's two bytes are swapped"),
    ("append-key-first", "append: the key is written before the value"),
    ("append-order-swapped", "append: 12 is given before 11"),
    ("append-namespace-late", "append: 17 is given after the lengths"),
    ("append-room-off-by-one", "append: an entry flush with the region's end gets 13"),
    ("append-unrounded", "append: the new used count isn't rounded up"),
    ("append-key-limit", "append: a key of 4,096 bytes gets 11"),
    ("mark-unreduced", "the mark isn't taken modulo 2^24"),
    ("mark-ordinal-ignored", "version 2: the ordinal isn't part of the mark"),
    ("mark-ordinal-in-1", "version 1: the ordinal is part of the mark"),
    ("mark-ordinal-16-bits", "version 2: the ordinal is taken modulo 2^16"),
    ("mark-ordinal-23-bits", "version 2: the ordinal is taken modulo 2^23"),
    ("mark-sum-unreduced", "version 2: the sum with the ordinal isn't taken modulo 2^24"),
    ("version-unread", "a call takes any version, as version 1"),
    ("version-3-taken", "a call takes version 3, as version 2"),
    ("version-low-byte", "a call looks at its version's lowest byte alone"),
    ("version-low-half", "a call looks at its version's lower half alone"),
    ("version-after-region", "a call gives 2 after 3"),
    ("version-after-place", "a call gives 2 after 3 and after 4 or 5"),
    ("read-under-1", "read: the marks of version 1, whatever the version"),
    ("append-under-1", "append: the marks of version 1, whatever the version"),
    ("walk-under-1", "walk: the marks of version 1, whatever the version"),
    ("boot-under-1", "boot: the marks of version 1, whatever the header says"),
    ("boot-ordinal-lost", "boot: the marks of ordinal 0, whatever the header says"),
    ("walk-stops", "walk: stops at the first bad checksum"),
    ("walk-jumps", "walk: leaves a bad entry by its length instead of by a line"),
    ("walk-end-rounded", "walk: the entry's end is rounded up"),
    ("walk-within-bound", "walk: an entry has to lie within the bound instead of the region"),
    ("walk-needs-ten", "walk: ends with fewer than 10 bytes left instead of 8"),
    ("walk-type-verified", "walk: type 3 is only refused where its checksum agrees"),
    ("walk-type-any-mark", "walk: type 3 is refused whatever the mark"),
    ("walk-update-as-insert", "walk: an update is told as an insert"),
    ("walk-tombstone-long", "walk: a tombstone has a data entry's layout"),
    ("walk-key-shifted", "walk: the key's place is one too far"),
    ("walk-limits", "walk: keys and values over the writer's limits are passed over"),
    ("walk-bound-included", "walk: a line at the bound is tried"),
    ("walk-long-missed", "walk: an entry whose sum covers 512 bytes or more isn't found behind a bad one of as many"),
    ("walk-long-far", "walk: an entry that ends 262,144 bytes or more past the line behind such a bad one isn't found"),
    ("bound-uncapped", "used bound: isn't capped at the region's length"),
    ("bound-unrounded", "used bound: isn't rounded up"),
    ("bound-off-by-one", "used bound: the last byte isn't looked at"),
    ("end-unrounded", "durable end: isn't rounded up"),
    ("end-capped", "durable end: is capped at the region's length"),
    ("effort-short-line", "lines tried: one with fewer than 8 bytes left counts too"),
    ("effort-marked-alone", "lines tried: only those with the right mark count"),
    ("effort-refused-left-out", "lines tried: the refused line of 10 doesn't count"),
    ("effort-line-twice", "lines tried: the line behind a found entry counts twice"),
    ("effort-every-line", "lines tried: every line below the bound counts, those inside found entries too"),
    ("effort-type-3", "bytes checksummed: type 3 adds bytes where it would be a whole entry"),
    ("effort-past-end", "bytes checksummed: an entry that ends past the region adds its length less 2"),
    ("effort-cut-at-end", "bytes checksummed: an entry that ends past the region adds what lies in it"),
    ("effort-within-bound", "bytes checksummed: an entry that ends past the bound adds nothing"),
    ("effort-verified-alone", "bytes checksummed: only verified entries add bytes"),
    ("effort-unverified-alone", "bytes checksummed: verified entries add nothing"),
    ("effort-whole-length", "bytes checksummed: the entry's whole length"),
    ("effort-aligned-length", "bytes checksummed: the entry's length rounded up to a line"),
    ("effort-tombstone-as-data", "bytes checksummed: a tombstone adds as much as data without a value"),
    ("effort-long-once", "bytes checksummed: a bad entry of 512 bytes or more behind another adds nothing"),
    ("effort-last-walk", "durable end: the counts of its last walk alone"),
    ("effort-swapped", "durable end: lines and bytes are swapped"),
    ("effort-16-bits", "durable end: the counts are taken modulo 2^16"),
    ("effort-left-out-with-10", "durable end: no counts with 10"),
    ("effort-with-2", "durable end: counts of 0 and 0 are written with 2"),
    ("effort-with-3", "durable end: counts of 0 and 0 are written with 3"),
    ("effort-with-4", "durable end: counts of 0 and 0 are written with 4"),
    ("counts-exchanged", "count entries: rows and columns are exchanged"),
    ("counts-no-tombstones", "count entries: tombstones aren't counted"),
    ("counts-update-as-insert", "count entries: updates are counted as inserts"),
    ("counts-namespace-32", "count entries: the namespace is taken modulo 32"),
    ("counts-8-bits", "count entries: a cell is taken modulo 256"),
    ("counts-without-first", "count entries: the first entry isn't counted"),
    ("counts-without-last", "count entries: the last entry isn't counted"),
    ("counts-keys", "count entries: an entry whose key stood there before isn't counted"),
    ("counts-nested", "count entries: goes on by a line, and counts entries inside others too"),
    ("counts-stops", "count entries: stops at the first bad checksum"),
    ("counts-under-1", "count entries: the marks of version 1, whatever the version"),
    ("counts-within-bound", "count entries: an entry has to lie within the used bound instead of the region"),
    ("counts-bound-uncapped", "count entries: the used bound isn't capped at the region's length, and 4 is given"),
    ("counts-on-past-3", "count entries: a line of type 3 is passed over"),
    ("counts-version-late", "count entries: 2 is given after 3"),
    ("counts-so-far-with-10", "count entries: what was counted before 10 is handed back"),
    ("counts-zeros-with-10", "count entries: the grid becomes zeros with 10"),
    ("counts-zeros-with-2", "count entries: the grid becomes zeros with 2"),
    ("counts-zeros-with-3", "count entries: the grid becomes zeros with 3"),
    ("counts-no-place", "count entries: no place with 10"),
    ("counts-place-of-end", "count entries: with 10 the end of the last counted entry"),
    ("counts-place-with-grid", "count entries: a place beside the grid"),
    ("counts-added", "count entries: the counts are added to what the grid held"),
    ("counts-zeros-left", "count entries: a cell without an entry is left as it was"),
    ("tracker-number-reused", "record: the next number isn't taken"),
    ("tracker-limit-included", "checkpoint: the limit itself is counted"),
    ("tracker-cursor-offset", "checkpoint: the least offset, whatever the ordinal"),
    ("tracker-limit-greatest", "checkpoint: the limit is the greatest open number"),
    ("tracker-zero-queued", "complete: a delta of 0 is queued"),
    ("tracker-zero-dropped", "record: a delta of 0 isn't queued"),
    ("tracker-slot-wiped", "complete: ordinal and offset become 0 too"),
    ("tracker-number-unmatched", "complete: any open slot is completed"),
    ("tracker-abandon-queues", "abandon: a delta is queued"),
    ("tracker-open-kept", "reserve: an open slot isn't overwritten"),
    ("tracker-room-early", "record: 15 comes at 31 beside an idle slot"),
    ("tracker-sealed-open", "reserve: the sealed flag isn't looked at"),
    ("tracker-pending-slots", "checkpoint: pending looks at slots alone"),
    ("tracker-clear-next", "clear: the next number becomes 1"),
    ("tracker-drain-keeps", "drain: sums but removes nothing"),
    ("tracker-order-swapped", "reserve: 5 is given before 15"),
    ("tracker-joins-back", "complete: the delta joins the back of its queue, as in the original"),
    ("tracker-before-equals", "complete: the delta goes in before its equals"),
    ("tracker-descent-taken", "a queue that doesn't ascend is sound"),
    ("tracker-equals-unsound", "a queue with equal numbers isn't sound"),
    ("replay-unrounded", "replay: the size isn't rounded up"),
    ("replay-tombstone-ten", "replay: a tombstone is measured as a data entry"),
    ("start-above", "start file: the smallest above the cursor's ordinal"),
    ("start-smallest", "start file: the smallest where none is at or above"),
    ("start-as-listed", "start file: the first in the list as given, else its last"),
    ("start-place-sorted", "start file: the place is the one in the sorted list"),
    ("start-twins", "start file: equal ordinals are taken"),
    ("start-twins-first", "start file: 22 is given before 18"),
];

pub struct Paper {
    slip: &'static str,
    big: Vec<u8>,
}

/// An entry of so many bytes has a sum of 512.
const LONG: u64 = 514;

/// What a line holds.
enum Line {
    Pass,
    Unknown,
    Bad { length: u64, whole: bool },
    Entry { kind: u64, ns: u64, klen: u64, vlen: u64, length: u64 },
}

fn u16_at(bytes: &[u8], at: usize) -> u64 {
    u64::from(u16::from_le_bytes([bytes[at], bytes[at + 1]]))
}

fn u32_at(bytes: &[u8], at: usize) -> u32 {
    u32::from_le_bytes(bytes[at..at + 4].try_into().unwrap())
}

impl Paper {
    pub fn plain() -> Self {
        Self::with("")
    }

    pub fn with(slip: &'static str) -> Self {
        Paper { slip, big: Vec::new() }
    }

    fn slips(&self, name: &str) -> bool {
        self.slip == name
    }

    fn hash(&self, bytes: &[u8]) -> u16 {
        crc16_ibm3740_fast::update(if self.slips("sum-start-zero") { 0 } else { 0xffff }, bytes)
    }

    // ---- versions and marks

    /// The version that the program sees in the number that it is given.
    fn seen(&self, version: u64) -> u64 {
        match self.slip {
            "version-unread" if version != 2 => 1,
            "version-3-taken" if version == 3 => 2,
            "version-low-byte" => version & 0xff,
            "version-low-half" => version & 0xffff_ffff,
            _ => version,
        }
    }

    fn mark(&self, header: Header, p: u64) -> u32 {
        let by_ordinal = match self.slip {
            "mark-ordinal-ignored" => false,
            "mark-ordinal-in-1" => true,
            _ => self.seen(header.version) == 2,
        };
        let bits = match self.slip {
            "mark-ordinal-16-bits" => 16,
            "mark-ordinal-23-bits" => 23,
            _ => 24,
        };
        let ordinal = if by_ordinal { header.ordinal % (1 << bits) } else { 0 };
        let place = p / 16 + 0x5a_17c0;
        (match self.slip {
            "mark-unreduced" => place + ordinal,
            "mark-sum-unreduced" => place % (1 << 24) + ordinal,
            _ => (place + ordinal) % (1 << 24),
        }) as u32
    }

    /// The header under whose marks a call works; the slip makes it one of version 1.
    fn under(&self, header: Header, slip: &str) -> Header {
        Header { version: if self.slips(slip) { 1 } else { header.version }, ..header }
    }

    /// The refusals that every call with marks begins with: 2, 3, and then 4 or 5, whichever it has, as `misplaced`.
    fn refusal(&self, header: Header, length: usize, misplaced: Option<u32>) -> u32 {
        let large = (length > MAX_REGION).then_some(3);
        let wrong = (!matches!(self.seen(header.version), 1 | 2)).then_some(2);
        match self.slip {
            "version-after-region" => large.or(wrong).or(misplaced),
            "version-after-place" => large.or(misplaced).or(wrong),
            _ => wrong.or(large).or(misplaced),
        }
        .unwrap_or(0)
    }

    // ---- header

    fn read_header(&self, bytes: &[u8]) -> Said {
        if bytes.len() < HEADER {
            return Said::refused(1);
        }
        let version = u32_at(bytes, 8) & if self.slips("header-version-low-byte") { 0xff } else { u32::MAX };
        let last = match self.slip {
            "header-2-refused" => 1,
            "header-3-read" => 3,
            _ => 2,
        };
        let signed = bytes[..8] == *b"LOCKDAT1" || self.slips("header-signature-unread");
        if !signed || !(1..=last).contains(&version) {
            return Said::refused(2);
        }
        let ordinal = u64::from_le_bytes(bytes[16..24].try_into().unwrap());
        let told = if self.slips("header-reads-1") { 1 } else { version };
        Said::values(&[told.into(), if self.slips("header-ordinal-half") { ordinal & 0xffff_ffff } else { ordinal }])
    }

    fn write_header(&self, lent: &[u8], header: Header) -> Said {
        let mut bytes = lent.to_vec();
        let short = (bytes.len() < HEADER).then_some(1);
        let wrong = (!matches!(header.version, 1 | 2) && !self.slips("header-writes-any")).then_some(2);
        let refused = if self.slips("header-version-first") { wrong.or(short) } else { short.or(wrong) };
        if let Some(number) = refused {
            return Said { number, bytes, ..Default::default() };
        }
        if !self.slips("header-rest-unwritten") {
            bytes[..HEADER].fill(0);
        }
        bytes[..8].copy_from_slice(b"LOCKDAT1");
        let version = if self.slips("header-writes-1") { 1 } else { header.version as u32 };
        bytes[8..12].copy_from_slice(&version.to_le_bytes());
        bytes[12..16].fill(0);
        bytes[16..24].copy_from_slice(&header.ordinal.to_le_bytes());
        if self.slips("header-writes-on") && bytes.len() > HEADER {
            bytes[HEADER] = 0;
        }
        Said { bytes, ..Default::default() }
    }

    // ---- entries

    fn read_at(&self, region: &[u8], header: Header, place: u64, hint: u64) -> Said {
        let off_line = place % 16 != 0 && !self.slips("read-line-late");
        let number = self.refusal(header, region.len(), off_line.then_some(5));
        if number != 0 {
            return Said::refused(number);
        }
        let rest = region.get(place.min(region.len() as u64) as usize..).unwrap_or(&[]);
        let hint = match () {
            () if self.slips("read-hint-ignored") => u64::MAX,
            () if self.slips("read-hint-off-by-one") => hint.saturating_add(1),
            () => hint,
        };
        let seen = &rest[..hint.min(rest.len() as u64) as usize];
        if seen.len() < 8 {
            return Said::refused(6);
        }
        if place % 16 != 0 {
            return Said::refused(5);
        }
        self.parse(seen, self.mark(self.under(header, "read-under-1"), place), place)
    }

    fn parse(&self, seen: &[u8], mark: u32, place: u64) -> Said {
        let word = u32_at(seen, 0);
        let (mut klen, mut vlen) = (u16_at(seen, 4), u16_at(seen, 6));
        let length = 10 + klen + vlen;
        let short = (seen.len() as u64) < length;
        if short && self.slips("read-length-first") {
            return Said::refused(6);
        }
        if word & 0xff_ffff != mark {
            return Said::refused(7);
        }
        if short {
            return Said::refused(6);
        }
        let kind = u64::from(word >> 30);
        let bad = u16_at(seen, length as usize - 2) != u64::from(self.hash(&seen[..length as usize - 2]));
        if bad && !(self.slips("read-type-first") && kind >= 2) {
            return Said::refused(8);
        }
        if kind >= 2 {
            return Said::refused(9);
        }
        if self.slips("read-swapped") {
            std::mem::swap(&mut klen, &mut vlen);
        }
        let told = if self.slips("read-update-as-insert") { 0 } else { kind };
        let values = eight(place, told, u64::from(word >> 24 & 63), klen, vlen, place + length).to_vec();
        let middle = 8 + vlen as usize;
        let bytes = [&seen[middle..middle + klen as usize], &seen[8..middle]].concat();
        Said { values, bytes, ..Default::default() }
    }

    /// The refusals of an append in the table's order; a tombstone has no value and its kind is 2.
    fn append_refusal(
        &self,
        header: Header,
        capacity: usize,
        used: u64,
        kind: u64,
        tombstone: bool,
        ns: u64,
        klen: usize,
        vlen: usize,
    ) -> u32 {
        let longest_key = if self.slips("append-key-limit") { 4095 } else { 4096 };
        let length = up16(if tombstone { 8 + klen } else { 10 + klen + vlen } as u64);
        let room = (capacity as u64).saturating_sub(u64::from(self.slips("append-room-off-by-one")));
        let fits = used.checked_add(length).is_some_and(|end| end <= room);
        let wrong_ns = ns > 63;
        let first = self.refusal(header, capacity, (used % 16 != 0).then_some(5));
        match () {
            () if first != 0 => first,
            () if !tombstone && kind > 1 => 9,
            () if wrong_ns && !self.slips("append-namespace-late") => 17,
            () if self.slips("append-order-swapped") && vlen > 32768 => 12,
            () if klen > longest_key => 11,
            () if vlen > 32768 => 12,
            () if wrong_ns => 17,
            () if !fits => 13,
            () => 0,
        }
    }

    fn entry_bytes(
        &self,
        header: Header,
        at: u64,
        kind: u64,
        tombstone: bool,
        ns: u64,
        key: &[u8],
        value: &[u8],
    ) -> Vec<u8> {
        let length = up16(if tombstone { 8 + key.len() } else { 10 + key.len() + value.len() } as u64);
        let header = self.under(header, "append-under-1");
        let mark = self.mark(header, if self.slips("append-mark-next") { at + length } else { at });
        let mut bytes = (mark | (ns as u32) << 24 | (kind as u32) << 30).to_le_bytes().to_vec();
        bytes.extend((key.len() as u16).to_le_bytes());
        if !tombstone {
            bytes.extend((value.len() as u16).to_le_bytes());
        }
        let parts = if self.slips("append-key-first") { [key, value] } else { [value, key] };
        bytes.extend(parts.concat());
        let sum = self.hash(&bytes);
        bytes.extend(if self.slips("append-sum-swapped") { sum.to_be_bytes() } else { sum.to_le_bytes() });
        if !self.slips("append-fill-missing") {
            bytes.resize(length as usize, if self.slips("append-fill-zero") { 0 } else { 0xff });
        }
        bytes
    }

    fn append(
        &self,
        region: &mut [u8],
        header: Header,
        used: u64,
        kind: u64,
        tombstone: bool,
        ns: u64,
        key: &[u8],
        value: &[u8],
    ) -> Said {
        let number = self.append_refusal(header, region.len(), used, kind, tombstone, ns, key.len(), value.len());
        if number != 0 {
            return Said::refused(number);
        }
        let bytes = self.entry_bytes(header, used, kind, tombstone, ns, key, value);
        region[used as usize..used as usize + bytes.len()].copy_from_slice(&bytes);
        let end = used + (if tombstone { 8 } else { 10 } + key.len() + value.len()) as u64;
        Said::values(&[if self.slips("append-unrounded") { end } else { up16(end) }])
    }

    // ---- walk and tail

    fn line(&self, region: &[u8], header: Header, p: u64, bound: u64) -> Line {
        let rest = &region[p as usize..];
        let word = u32_at(rest, 0);
        let kind = u64::from(word >> 30);
        if kind == 3 && self.slips("walk-type-any-mark") {
            return Line::Unknown;
        }
        if word & 0xff_ffff != self.mark(self.under(header, "walk-under-1"), p) {
            return Line::Pass;
        }
        if kind == 3 && !self.slips("walk-type-verified") {
            return Line::Unknown;
        }
        let tombstone = kind == 2 && !self.slips("walk-tombstone-long");
        let klen = u16_at(rest, 4);
        let vlen = if tombstone { 0 } else { u16_at(rest, 6) };
        let length = klen + vlen + if tombstone { 8 } else { 10 };
        let room = if self.slips("walk-within-bound") { bound.saturating_sub(p) } else { rest.len() as u64 };
        let whole = length <= room.min(rest.len() as u64);
        if !whole || u16_at(rest, length as usize - 2) != u64::from(self.hash(&rest[..length as usize - 2])) {
            return Line::Bad { length, whole };
        }
        if kind == 3 {
            return Line::Unknown;
        }
        if self.slips("walk-limits") && (klen > 4096 || vlen > 32768) {
            return Line::Pass;
        }
        Line::Entry { kind, ns: u64::from(word >> 24 & 63), klen, vlen, length }
    }

    /// Document 02's request 8: what the trial of a line adds to lines tried and bytes checksummed. `rest` is the region
    /// from the line on, of which so many bytes lie below the bound.
    fn effort(&self, line: &Line, rest: &[u8], below: u64) -> RawEffort {
        let as_data = 10 + u16_at(rest, 4) + u16_at(rest, 6);
        let tried = match line {
            Line::Pass => !self.slips("effort-marked-alone"),
            Line::Unknown => !self.slips("effort-refused-left-out"),
            _ => true,
        };
        let summed = match *line {
            Line::Entry { length, .. } if !self.slips("effort-unverified-alone") => length,
            Line::Bad { length, whole: true } if !self.slips("effort-verified-alone") => length,
            Line::Bad { length, whole: false } if self.slips("effort-past-end") => length,
            Line::Bad { whole: false, .. } if self.slips("effort-cut-at-end") => rest.len() as u64 + 2,
            Line::Unknown if self.slips("effort-type-3") && as_data <= rest.len() as u64 => as_data,
            _ => return RawEffort { lines: tried.into(), bytes: 0 },
        };
        let bytes = match self.slip {
            "effort-within-bound" if summed > below => 0,
            "effort-whole-length" => summed,
            "effort-aligned-length" => up16(summed),
            "effort-tombstone-as-data" if rest[3] >> 6 == 2 => summed,
            _ => summed - 2,
        };
        RawEffort { lines: tried.into(), bytes }
    }

    fn walk(&self, region: &[u8], header: Header, bound: u64, offset: u64) -> Said {
        self.counted_walk(region, header, bound, offset, &mut RawEffort::default())
    }

    /// The walk, which adds what it takes.
    fn counted_walk(&self, region: &[u8], header: Header, bound: u64, offset: u64, effort: &mut RawEffort) -> Said {
        let total = region.len() as u64;
        let number = self.refusal(header, region.len(), (bound > total).then_some(4));
        if number != 0 {
            return Said::refused(number);
        }
        if offset >= bound {
            return Said::values(&[0]);
        }
        let least = if self.slips("walk-needs-ten") { 10 } else { 8 };
        let last = bound + u64::from(self.slips("walk-bound-included"));
        let mut p = up16(offset);
        let mut behind_long = None;
        while p < last && p + least <= total {
            let line = self.line_behind(behind_long, self.line(region, header, p, bound), p);
            let added = self.effort(&line, &region[p as usize..], bound.saturating_sub(p));
            let long = matches!(line, Line::Bad { length, whole: true } if length >= LONG);
            effort.lines += added.lines;
            effort.bytes +=
                if long && behind_long.is_some() && self.slips("effort-long-once") { 0 } else { added.bytes };
            if long && behind_long.is_none() {
                behind_long = Some(p + 16);
            }
            match line {
                Line::Unknown => return Said { number: 10, values: vec![p], ..Default::default() },
                Line::Entry { kind, ns, klen, vlen, length } => {
                    return self.found(region, [p, kind, ns, klen, vlen, length])
                }
                Line::Bad { .. } if self.slips("walk-stops") => break,
                Line::Bad { length, .. } if self.slips("walk-jumps") => p += up16(length),
                _ => p += 16,
            }
        }
        effort.lines += u64::from(p < bound && self.slips("effort-short-line"));
        Said::values(&[0])
    }

    /// What the slips in long sums make of the line at `p` behind the walk's first bad long entry.
    fn line_behind(&self, behind_long: Option<u64>, line: Line, p: u64) -> Line {
        let (Some(begin), &Line::Entry { length, .. }) = (behind_long, &line) else { return line };
        let missed = match self.slip {
            "walk-long-missed" => length >= LONG,
            "walk-long-far" => p + length - 2 - begin >= 262_144,
            _ => false,
        };
        if missed {
            Line::Bad { length, whole: true }
        } else {
            line
        }
    }

    fn found(&self, region: &[u8], [p, kind, ns, klen, vlen, length]: [u64; 6]) -> Said {
        let mut e = eight(p, kind, ns, klen, vlen, p + length);
        if self.slips("walk-update-as-insert") && kind == 1 {
            e[1] = 0;
        }
        if self.slips("walk-end-rounded") {
            e[7] = up16(e[7]);
        }
        if self.slips("walk-key-shifted") && klen > 0 {
            e[6] += 1;
        }
        let part = |at: u64, len: u64| &region[at as usize..(at + len) as usize];
        let bytes = [part(e[6], klen), part(e[5], vlen)].concat();
        let mut values = vec![1];
        values.extend(e);
        Said { values, bytes, ..Default::default() }
    }

    fn used_bound(&self, region: &[u8]) -> Said {
        if region.len() > MAX_REGION {
            return Said::refused(3);
        }
        let mut seen = region;
        if self.slips("bound-off-by-one") && !seen.is_empty() {
            seen = &seen[..seen.len() - 1];
        }
        let past = seen.iter().rposition(|&byte| byte != 0).map_or(0, |last| last as u64 + 1);
        let rounded = if self.slips("bound-unrounded") { past } else { up16(past) };
        Said::values(&[if self.slips("bound-uncapped") { rounded } else { rounded.min(region.len() as u64) }])
    }

    fn durable_end(&self, region: &[u8], header: Header, bound: u64) -> Said {
        let mut outs = EndOuts::untouched();
        let number = self.write_end(region, header, bound, &mut outs);
        outs.said(number)
    }

    fn write_end(&self, region: &[u8], header: Header, bound: u64, outs: &mut EndOuts) -> u32 {
        let total = region.len() as u64;
        let (mut end, mut offset, mut effort) = (0, 0, RawEffort::default());
        loop {
            if self.slips("effort-last-walk") {
                effort = RawEffort::default();
            }
            let said = self.counted_walk(region, header, bound, offset, &mut effort);
            match (said.number, said.values.first()) {
                (0, Some(1)) => {
                    offset = said.values[8];
                    end = if self.slips("end-unrounded") { offset } else { up16(offset) };
                    let goes_on = up16(offset) < bound && up16(offset) + 8 <= total;
                    effort.lines += u64::from(goes_on && self.slips("effort-line-twice"));
                }
                (0, _) => {
                    outs.end = if self.slips("end-capped") { end.min(total) } else { end };
                    outs.effort = self.told(effort, bound);
                    return 0;
                }
                (10, Some(&place)) => {
                    outs.place = place;
                    if !self.slips("effort-left-out-with-10") {
                        outs.effort = self.told(effort, bound);
                    }
                    return 10;
                }
                (number, _) => {
                    let with = [("effort-with-2", 2), ("effort-with-3", 3), ("effort-with-4", 4)];
                    if with.contains(&(self.slip, number)) {
                        outs.effort = RawEffort::default();
                    }
                    return number;
                }
            }
        }
    }

    /// The counts as they are told in the end.
    fn told(&self, effort: RawEffort, bound: u64) -> RawEffort {
        let RawEffort { lines, bytes } = effort;
        match self.slip {
            "effort-every-line" => RawEffort { lines: bound.div_ceil(16), bytes },
            "effort-swapped" => RawEffort { lines: bytes, bytes: lines },
            "effort-16-bits" => RawEffort { lines: lines % (1 << 16), bytes: bytes % (1 << 16) },
            _ => effort,
        }
    }

    // ---- grids

    fn count_entries(&self, region: &[u8], header: Header, lent: &[u8]) -> Said {
        // Some slips in the count are those of what it stands on.
        let below = Paper::with(match self.slip {
            "counts-stops" => "walk-stops",
            "counts-under-1" => "walk-under-1",
            "counts-within-bound" => "walk-within-bound",
            "counts-bound-uncapped" => "bound-uncapped",
            "counts-version-late" => "version-after-region",
            other => other,
        });
        let mut outs = CountOuts::lent(lent);
        let mut number = below.refusal(header, region.len(), None);
        if number == 0 {
            number = self.count_up_to(&below, region, header, below.used_bound(region).values[0], &mut outs);
        }
        let with = [("counts-zeros-with-2", 2), ("counts-zeros-with-3", 3), ("counts-zeros-with-10", 10)];
        if with.contains(&(self.slip, number)) {
            outs.grid = [[0; 64]; 3];
        }
        outs.said(number)
    }

    fn count_up_to(&self, below: &Self, region: &[u8], header: Header, bound: u64, outs: &mut CountOuts) -> u32 {
        let (mut counted, mut offset) = (Vec::new(), 0);
        loop {
            let said = below.walk(region, header, bound, offset);
            match (said.number, &said.values[..]) {
                (0, &[1, p, kind, ns, klen, .., end]) => {
                    counted.push((kind as usize, ns as usize, said.bytes[..klen as usize].to_vec()));
                    offset = if self.slips("counts-nested") { p + 1 } else { end };
                }
                (0, _) => {
                    outs.grid = self.grid(counted, &outs.grid);
                    if self.slips("counts-place-with-grid") {
                        outs.place = bound;
                    }
                    return 0;
                }
                (10, &[place]) if self.slips("counts-on-past-3") => offset = place + 1,
                (10, &[place]) => {
                    match self.slip {
                        "counts-no-place" => {}
                        "counts-place-of-end" => outs.place = offset,
                        _ => outs.place = place,
                    }
                    if self.slips("counts-so-far-with-10") {
                        outs.grid = self.grid(counted, &outs.grid);
                    }
                    return 10;
                }
                (number, _) => return number,
            }
        }
    }

    /// Document 02's request 9: each cell is the number of listed entries of that type and namespace. Each entry comes with
    /// its key.
    fn grid(&self, mut listed: Vec<(usize, usize, Vec<u8>)>, lent: &Grid) -> Grid {
        match self.slip {
            "counts-without-first" => drop(listed.drain(..listed.len().min(1))),
            "counts-without-last" => drop(listed.pop()),
            "counts-no-tombstones" => listed.retain(|&(kind, ..)| kind != 2),
            "counts-update-as-insert" => listed.iter_mut().for_each(|(kind, ..)| *kind -= *kind % 2),
            "counts-namespace-32" => listed.iter_mut().for_each(|(_, ns, _)| *ns %= 32),
            "counts-keys" => {
                let mut known = BTreeSet::new();
                listed.retain(|(_, ns, key)| known.insert((*ns, key.clone())));
            }
            _ => {}
        }
        let cell = |kind: usize, ns: usize| {
            let number = listed.iter().filter(|&&(k, n, _)| (k, n) == (kind, ns)).count() as u32;
            match self.slip {
                "counts-8-bits" => number % 256,
                "counts-added" => number.wrapping_add(lent[kind][ns]),
                "counts-zeros-left" if number == 0 => lent[kind][ns],
                _ => number,
            }
        };
        let place = |kind: usize, ns: usize| match self.slip {
            "counts-exchanged" => ((64 * kind + ns) % 3, (64 * kind + ns) / 3),
            _ => (kind, ns),
        };
        std::array::from_fn(|kind| {
            std::array::from_fn(|ns| {
                let (kind, ns) = place(kind, ns);
                cell(kind, ns)
            })
        })
    }

    fn boot(&self, file: &[u8]) -> Said {
        let head = self.read_header(file);
        if head.number != 0 {
            return head;
        }
        let header = match self.slip {
            "boot-under-1" => Header { version: 1, ordinal: head.values[1] },
            "boot-ordinal-lost" => Header { version: head.values[0], ordinal: 0 },
            _ => Header { version: head.values[0], ordinal: head.values[1] },
        };
        let bound = self.used_bound(&file[HEADER..]).values[0];
        let end = self.durable_end(&file[HEADER..], header, bound.min((file.len() - HEADER) as u64));
        booted(Header { version: head.values[0], ordinal: head.values[1] }, bound, end)
    }

    // ---- replay and start

    fn replay(&self, tombstone: bool, klen: u64, vlen: u64, maximum: u64) -> Said {
        let header = if tombstone && !self.slips("replay-tombstone-ten") { 8 } else { 10 };
        Said::refused(match () {
            () if maximum > MAX_REGION as u64 => 3,
            () if klen > 4096 => 11,
            () if vlen > 32768 => 12,
            () if maximum
                < if self.slips("replay-unrounded") { header + klen + vlen } else { up16(header + klen + vlen) } =>
            {
                13
            }
            () => 0,
        })
    }

    fn start_file(&self, ordinals: &[u64], cursor: u64) -> Said {
        let distinct: BTreeSet<u64> = ordinals.iter().copied().collect();
        let twins = distinct.len() < ordinals.len() && !self.slips("start-twins");
        if twins && self.slips("start-twins-first") {
            return Said::refused(22);
        }
        if ordinals.len() > 64 {
            return Said::refused(18);
        }
        if twins {
            return Said::refused(22);
        }
        let (Some(&smallest), Some(&largest)) = (distinct.first(), distinct.last()) else {
            return Said::values(&[0]);
        };
        let suits = |o: &u64| *o > cursor || (*o == cursor && !self.slips("start-above"));
        let otherwise = if self.slips("start-smallest") { smallest } else { largest };
        let ordinal = if self.slips("start-as-listed") {
            ordinals.iter().copied().find(suits).unwrap_or(ordinals[ordinals.len() - 1])
        } else {
            distinct.iter().copied().find(suits).unwrap_or(otherwise)
        };
        let place = if self.slips("start-place-sorted") {
            distinct.range(..ordinal).count()
        } else {
            ordinals.iter().position(|&o| o == ordinal).unwrap()
        };
        Said::values(&[1, place as u64])
    }

    fn lend(
        &mut self,
        region: &Region,
        window: std::ops::Range<usize>,
        call: impl FnOnce(&Self, &mut [u8]) -> Said,
    ) -> Said {
        match region {
            Region::Dense(bytes) => call(self, &mut bytes.clone()),
            Region::Sparse { length, at, bytes } => {
                let mut big = std::mem::take(&mut self.big);
                if big.is_empty() {
                    big = vec![0; MAX_REGION + 4096];
                }
                big[*at..at + bytes.len()].copy_from_slice(bytes);
                let said = call(self, &mut big[..*length]);
                big[window].fill(0);
                self.big = big;
                said
            }
        }
    }

    fn look(&mut self, region: &Region, call: impl FnOnce(&Self, &[u8]) -> Said) -> Said {
        self.lend(region, window(region, u64::MAX, 0), |paper, lent| call(paper, lent))
    }

    fn put(
        &mut self,
        region: &Region,
        header: Header,
        used: u64,
        kind: u64,
        tombstone: bool,
        ns: u64,
        key: &[u8],
        value: &[u8],
    ) -> Said {
        let length = up16(if tombstone { 8 + key.len() } else { 10 + key.len() + value.len() } as u64);
        let window = window(region, used, length);
        self.lend(region, window.clone(), |paper, lent| {
            let said = paper.append(lent, header, used, kind, tombstone, ns, key, value);
            Said { bytes: lent[window].to_vec(), ..said }
        })
    }
}

impl Side for Paper {
    fn say(&mut self, call: &Call) -> Said {
        match call {
            Call::Hash { bytes } => Said::values(&[self.hash(bytes).into()]),
            Call::Update { state, bytes } => Said::values(&[crc16_ibm3740_fast::update(*state, bytes).into()]),
            Call::ReadHeader { bytes } => self.read_header(bytes),
            Call::WriteHeader { lent, header } => self.write_header(lent, *header),
            Call::ReadAt { region, header, place, hint } => {
                self.look(region, |paper, lent| paper.read_at(lent, *header, *place, *hint))
            }
            Call::AppendData { region, header, used, kind, ns, key, value } => {
                self.put(region, *header, *used, *kind, false, *ns, key, value)
            }
            Call::AppendTombstone { region, header, used, ns, key } => {
                self.put(region, *header, *used, 2, true, *ns, key, &[])
            }
            Call::Walk { region, header, bound, offset } => {
                self.look(region, |paper, lent| paper.walk(lent, *header, *bound, *offset))
            }
            Call::Listing { region, header, bound } => {
                self.look(region, |paper, lent| listing(|offset| paper.walk(lent, *header, *bound, offset)))
            }
            Call::Part { region, at, len } => self.look(region, |_, lent| {
                let end = at.checked_add(*len).filter(|&end| end <= lent.len() as u64);
                match end {
                    Some(end) => Said {
                        values: vec![*at, *len],
                        bytes: lent[*at as usize..end as usize].to_vec(),
                        ..Default::default()
                    },
                    None => Said::values(&[0, 0]),
                }
            }),
            Call::UsedBound { region } => self.look(region, |paper, lent| paper.used_bound(lent)),
            Call::DurableEnd { region, header, bound } => {
                self.look(region, |paper, lent| paper.durable_end(lent, *header, *bound))
            }
            Call::CountEntries { region, header, lent: grid } => {
                self.look(region, |paper, lent| paper.count_entries(lent, *header, grid))
            }
            Call::Boot { file } => self.boot(file),
            Call::Track { state, step } => self.track(state, step),
            Call::ReplayData { klen, vlen, maximum } => self.replay(false, *klen, *vlen, *maximum),
            Call::ReplayTombstone { klen, maximum } => self.replay(true, *klen, 0, *maximum),
            Call::StartFile { ordinals, cursor } => self.start_file(ordinals, *cursor),
        }
    }
}

// ---- tracker

/// Document 01: a value is sound if each queue length is at most 32, and at most 31 beside an open slot, the next number
/// is at least 1, and every open or waiting number is below it.
pub fn fits(state: &State) -> bool {
    state.next >= 1
        && state.slots.iter().zip(&state.queues).all(|(slot, queue)| {
            queue.len() + usize::from(slot.number != 0) <= 32
                && slot.number < state.next
                && queue.iter().all(|&(number, _)| number < state.next)
        })
}

/// Any two neighbours in a queue stand in the right order.
fn neighbours(state: &State, right: impl Fn(u64, u64) -> bool) -> bool {
    state.queues.iter().all(|queue| queue.windows(2).all(|pair| right(pair[0].0, pair[1].0)))
}

/// Document 02's request 6: each queue ascends, equal numbers allowed.
pub fn ascends(state: &State) -> bool {
    neighbours(state, |before, behind| before <= behind)
}

pub fn sound(state: &State) -> bool {
    fits(state) && ascends(state)
}

impl Paper {
    fn sound(&self, state: &State) -> bool {
        match self.slip {
            "tracker-descent-taken" => fits(state),
            "tracker-equals-unsound" => fits(state) && neighbours(state, |before, behind| before < behind),
            _ => sound(state),
        }
    }

    fn track(&self, state: &State, step: &Step) -> Said {
        let mut after = state.clone();
        let answer = if self.sound(state) { self.step(&mut after, step) } else { Err(28) };
        match answer {
            Ok(values) => Said { values, state: Some(Box::new(after)), ..Default::default() },
            Err(number) => Said { number, state: Some(Box::new(state.clone())), ..Default::default() },
        }
    }

    fn step(&self, t: &mut State, step: &Step) -> Result<Vec<u64>, u32> {
        match *step {
            Step::Reserve { shard, ordinal, used, capacity, sealed, length } => {
                self.reserve(t, shard, ordinal, used, capacity, sealed, length)
            }
            Step::Complete { shard, number, delta } => self.finish(t, shard, number, delta),
            Step::Abandon { shard, number } => {
                self.finish(t, shard, number, i8::from(self.slips("tracker-abandon-queues")))
            }
            Step::Record { shard, delta } => self.record(t, shard, delta),
            Step::Checkpoint { ordinal, used } => Ok(self.checkpoint(t, ordinal, used)),
            Step::Drain { limit } => Ok(vec![self.drain(t, limit) as u64]),
            Step::Clear => {
                t.slots = [Slot::default(); 16];
                t.queues = Default::default();
                if self.slips("tracker-clear-next") {
                    t.next = 1;
                }
                Ok(vec![])
            }
        }
    }

    fn reserve(
        &self,
        t: &mut State,
        shard: u64,
        ordinal: u64,
        used: u64,
        capacity: u64,
        sealed: bool,
        length: u64,
    ) -> Result<Vec<u64>, u32> {
        let off_line = used % 16 != 0 || length % 16 != 0 || length == 0;
        let sealed = sealed && !self.slips("tracker-sealed-open");
        let fits = used.checked_add(length).is_some_and(|end| end <= capacity);
        let full = |t: &State| t.queues[shard as usize].len() == 32;
        let number = match () {
            () if shard > 15 => 14,
            () if t.next == u64::MAX => 16,
            () if self.slips("tracker-order-swapped") && off_line => 5,
            () if full(t) => 15,
            () if off_line => 5,
            () if capacity > MAX_REGION as u64 => 3,
            () if sealed || !fits => 13,
            () => 0,
        };
        if number != 0 {
            return Err(number);
        }
        let taken = t.next;
        t.next += 1;
        let slot = &mut t.slots[shard as usize];
        if slot.number == 0 || !self.slips("tracker-open-kept") {
            *slot = Slot { number: taken, ordinal, offset: used };
        }
        Ok(vec![taken, used])
    }

    fn record(&self, t: &mut State, shard: u64, delta: i8) -> Result<Vec<u64>, u32> {
        if shard > 15 {
            return Err(14);
        }
        if t.next == u64::MAX {
            return Err(16);
        }
        let open = t.slots[shard as usize].number != 0;
        let queue = &mut t.queues[shard as usize];
        if queue.len() + usize::from(open || self.slips("tracker-room-early")) >= 32 {
            return Err(15);
        }
        if delta != 0 || !self.slips("tracker-zero-dropped") {
            queue.push((t.next, delta.into()));
        }
        let taken = t.next;
        if !self.slips("tracker-number-reused") {
            t.next += 1;
        }
        Ok(vec![taken])
    }

    fn finish(&self, t: &mut State, shard: u64, number: u64, delta: i8) -> Result<Vec<u64>, u32> {
        if shard > 15 {
            return Err(14);
        }
        let slot = &mut t.slots[shard as usize];
        let matches = slot.number == number || self.slips("tracker-number-unmatched");
        if slot.number == 0 || number == 0 || !matches {
            return Ok(vec![0]);
        }
        slot.number = 0;
        if self.slips("tracker-slot-wiped") {
            *slot = Slot::default();
        }
        if delta != 0 || self.slips("tracker-zero-queued") {
            let queue = &mut t.queues[shard as usize];
            queue.insert(self.place_in(queue, number), (number, delta.into()));
        }
        Ok(vec![1])
    }

    /// Where a completed delta goes in its queue: behind its equals.
    fn place_in(&self, queue: &[(u64, i64)], number: u64) -> usize {
        match self.slip {
            "tracker-joins-back" => queue.len(),
            "tracker-before-equals" => queue.iter().filter(|&&(waiting, _)| waiting < number).count(),
            _ => queue.iter().filter(|&&(waiting, _)| waiting <= number).count(),
        }
    }

    /// How many deltas of a queue count under a limit, and their sum.
    fn counted(&self, queue: &[(u64, i64)], limit: u64, included: bool) -> (usize, i64) {
        let counts = |number: u64| number < limit || (included && number == limit);
        let front = queue.iter().take_while(|&&(number, _)| counts(number));
        front.fold((0, 0), |(count, sum), &(_, delta)| (count + 1, sum + delta))
    }

    fn checkpoint(&self, t: &State, ordinal: u64, used: u64) -> Vec<u64> {
        let open: Vec<&Slot> = t.slots.iter().filter(|slot| slot.number != 0).collect();
        let by_offset = self.slips("tracker-cursor-offset");
        let least = open.iter().min_by_key(|slot| (if by_offset { 0 } else { slot.ordinal }, slot.offset));
        let (ordinal, offset) = least.map_or((ordinal, used), |slot| (slot.ordinal, slot.offset));
        let numbers = open.iter().map(|slot| slot.number);
        let limit =
            if self.slips("tracker-limit-greatest") { numbers.max() } else { numbers.min() }.unwrap_or(u64::MAX);
        let included = self.slips("tracker-limit-included");
        let sum: i64 = t.queues.iter().map(|queue| self.counted(queue, limit, included).1).sum();
        let waiting = t.queues.iter().any(|queue| !queue.is_empty()) && !self.slips("tracker-pending-slots");
        vec![ordinal, offset, sum as u64, limit, u64::from(!open.is_empty() || waiting)]
    }

    fn drain(&self, t: &mut State, limit: u64) -> i64 {
        let mut total = 0;
        for queue in &mut t.queues {
            let (count, sum) = self.counted(queue, limit, false);
            if !self.slips("tracker-drain-keeps") {
                queue.drain(..count);
            }
            total += sum;
        }
        total
    }
}
