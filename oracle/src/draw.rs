//! Inputs at random: logs, damaged logs, nested entries, entries flush with the region's end, marks without entries,
//! hostile regions, long entries, and traces of the tracker. Most are small, because most that can go wrong does so on a
//! few lines.
use crate::{
    calls::{up16, Call, Header, Region, Said, Slot, State, Step, GRID_BYTES, HEADER, MAX_REGION},
    rng::Rng,
};

/// The original's walk reads so many bytes at once.
pub const BUFFER_END: usize = 131_072;

/// In version 2 the mark at offset 0 of a file with this ordinal is 0xFFFFFF: a line of filling is a type 3 line there.
pub const FILLING_ORDINAL: u64 = 0xa5_e83f;

/// Versions that no file has: some are cut to 1 or 2 where a byte, or 32 bits, are kept of them.
pub const NO_VERSIONS: [u64; 7] = [0, 3, 0x101, 0x102, (1 << 32) + 1, (1 << 32) + 2, u64::MAX];

/// One call in so many has long entries: the original sums up to some 20,000,000 bytes for each.
const LONG_ONCE_IN: u64 = 4096;

/// A call that is drawn for its place in the stream alone has this.
const PLAIN: Header = Header { version: 1, ordinal: 0 };

/// The line whose mark is 0.
pub fn mark_zero(header: Header) -> usize {
    ((1 << 24) - header.mark(0) as usize) % (1 << 24) * 16
}

/// An entry's bytes without filling, of any type and layout, and with a right checksum.
pub fn entry(header: Header, p: usize, kind: u32, ns: u32, tombstone: bool, key: &[u8], value: &[u8]) -> Vec<u8> {
    let mut bytes = (header.mark(p as u64) | ns << 24 | kind << 30).to_le_bytes().to_vec();
    bytes.extend((key.len() as u16).to_le_bytes());
    if !tombstone {
        bytes.extend((value.len() as u16).to_le_bytes());
        bytes.extend(value);
    }
    bytes.extend(key);
    let sum = crc16_ibm3740_fast::hash(&bytes) as u16;
    bytes.extend(sum.to_le_bytes());
    bytes
}

/// The longest entries that can be: of data, and a tombstone.
const LONGEST_DATA: usize = 10 + 2 * 65_535;
const LONGEST_TOMBSTONE: usize = 8 + 65_535;

/// The first eight bytes of an entry that takes all of the room, or as much as one can.
fn reaching(header: Header, p: usize, room: usize) -> [u8; 8] {
    let line = (p / 16) as u32;
    let tombstone = room < 10 || (line % 3 == 2 && room <= LONGEST_TOMBSTONE);
    let (kind, klen, vlen) = if tombstone {
        (2, room.saturating_sub(8), 0)
    } else {
        let body = room.min(LONGEST_DATA) - 10;
        (line % 2, body / 2, body - body / 2)
    };
    let word = (header.mark(p as u64) | (line % 64) << 24 | kind << 30).to_le_bytes();
    let lengths = (klen as u32 | (vlen as u32) << 16).to_le_bytes();
    [word, lengths].concat().try_into().unwrap()
}

/// A region in which the walk has most to do: each line has its mark, and an entry that reaches as far as one can, mostly
/// to the region's last byte. All of these have their checksum in the two last bytes.
pub fn hostile(header: Header, length: usize, last: [u8; 2]) -> Vec<u8> {
    let mut region = vec![0; length];
    for p in (0..length).step_by(16) {
        put(&mut region, p, &reaching(header, p, length - p));
    }
    put(&mut region, length.saturating_sub(2), &last);
    region
}

/// A line with its mark and a whole entry's lengths, by how many bytes the entry's sum covers.
pub struct Claim {
    pub place: usize,
    pub covered: usize,
    pub kind: u32,
    pub right: bool,
}

/// The fewest and the most bytes that a sum covers.
const LEAST_COVERED: usize = 8;
pub const MOST_COVERED: usize = LONGEST_DATA - 2;

/// So many bytes are as many as a window of sums reaches over, and so many lie between two of its places.
pub const WINDOW: usize = 262_144;
pub const WINDOW_STEP: usize = 256;

/// Puts these lines, which ascend, over the region, whatever it holds. The right sums are set from the last line to the
/// first, so that none that a walk comes to covers bytes that change afterwards; the others are what the region has there.
pub fn put_claims(header: Header, region: &mut [u8], claims: &[Claim]) {
    for &Claim { place, covered, kind, .. } in claims {
        let tombstone = kind == 2 && covered < LONGEST_TOMBSTONE - 1;
        let (kind, klen, vlen) = if tombstone {
            (2, covered - 6, 0)
        } else {
            let klen = (covered - 8) / 2;
            (if kind == 2 { 1 } else { kind }, klen, covered - 8 - klen)
        };
        let word = header.mark(place as u64) | (place as u32 / 16 % 64) << 24 | kind << 30;
        put(region, place, &word.to_le_bytes());
        put(region, place + 4, &(klen as u16).to_le_bytes());
        if !tombstone {
            put(region, place + 6, &(vlen as u16).to_le_bytes());
        }
    }
    for &Claim { place, covered, .. } in claims.iter().rev().filter(|claim| claim.right) {
        let end = place + covered;
        if end <= region.len() {
            let sum = crc16_ibm3740_fast::hash(&region[place..end]) as u16;
            put(region, end, &sum.to_le_bytes());
        }
    }
}

/// An entry whose last bytes are zeros, so many of them and both of its checksum: the first two bytes of its value, or of a
/// tombstone's key, bring the sum to 0, and zeros leave it there.
pub fn ending_in_zeros(header: Header, p: usize, kind: u32, ns: u32, zeros: usize) -> Vec<u8> {
    let body = vec![0; 2 + zeros];
    let (key, value) = if kind == 2 { (&body[..], &[][..]) } else { (&[][..], &body[..]) };
    let mut bytes = entry(header, p, kind, ns, kind == 2, key, value);
    let (before, end) = (if kind == 2 { 6 } else { 8 }, bytes.len() - 2);
    let sum = crc16_ibm3740_fast::hash(&bytes[..before]) as u16;
    bytes[before..before + 2].copy_from_slice(&sum.to_be_bytes());
    bytes[end..].fill(0);
    bytes
}

/// Puts as many of the bytes over the region as it has room for.
pub fn put(region: &mut [u8], at: usize, bytes: &[u8]) {
    if at < region.len() {
        let count = bytes.len().min(region.len() - at);
        region[at..at + count].copy_from_slice(&bytes[..count]);
    }
}

pub fn fresh_state() -> State {
    State { slots: [Slot::default(); 16], queues: Default::default(), next: 1 }
}

pub struct Draw {
    pub rng: Rng,
    /// Versions and ordinals have a stream of their own, and so have hostile regions, the counts of entries and the calls
    /// with long entries.
    versions: Rng,
    efforts: Rng,
    counts: Rng,
    long: Rng,
    /// What the call is given, and whose marks its region is built with.
    header: Header,
    built: Header,
    trace: State,
    steps_left: u32,
    /// In a trace, how many shards are used and how often a delta is recorded, so that queues fill in some of them.
    shards: u64,
    records: u64,
}

impl Draw {
    pub fn new(seed: u64) -> Self {
        Draw {
            rng: Rng::new(seed),
            versions: Rng::new(!seed),
            efforts: Rng::new(seed ^ (1 << 63)),
            counts: Rng::new(seed ^ (1 << 62)),
            long: Rng::new(seed ^ (1 << 61)),
            header: PLAIN,
            built: PLAIN,
            trace: fresh_state(),
            steps_left: 0,
            shards: 1,
            records: 1,
        }
    }

    /// Now and then a call with long entries comes in between. Of the others one in sixteen counts entries, and the rest
    /// are a seed's calls in their order.
    pub fn call(&mut self) -> Call {
        if self.long.once_in(LONG_ONCE_IN) {
            return self.long_call();
        }
        if self.counts.once_in(16) {
            return self.count_entries();
        }
        self.other_call()
    }

    /// A call with a version is drawn twice from one place of the stream, since it depends on the region's bytes how
    /// much of the stream a draw takes: first with version 1's marks, for the place at which the next call begins, so
    /// that a seed's other calls are the same whatever the versions; then with its own.
    pub fn other_call(&mut self) -> Call {
        let begin = self.rng.clone();
        let call = self.some_call();
        if !call.has_version() {
            return call;
        }
        let next = std::mem::replace(&mut self.rng, begin);
        self.header = self.some_header();
        self.built = self.builder();
        let call = self.some_call();
        let call = self.with_effort(call);
        (self.rng, self.header, self.built) = (next, PLAIN, PLAIN);
        call
    }

    fn some_call(&mut self) -> Call {
        match self.rng.below(100) {
            0..=2 => self.hash(),
            3..=6 => self.header(),
            7..=21 => self.read_at(),
            22..=34 => self.append_data(),
            35..=41 => self.append_tombstone(),
            42..=61 => self.walk(),
            62..=67 => self.listing(),
            68 => self.part(),
            69..=73 => Call::UsedBound { region: self.dense() },
            74..=79 => self.durable_end(),
            80..=81 => self.boot(),
            82..=95 => self.track(),
            96..=98 => self.replay(),
            _ => self.start_file(),
        }
    }

    /// Takes the state that a call of the tracker left, for the trace to go on from.
    pub fn learn(&mut self, said: &Said) {
        if let Some(state) = &said.state {
            self.trace = (**state).clone();
        }
    }

    // ---- versions

    /// About half of version 1, whose marks don't depend on the ordinal, half of version 2, and some of neither.
    fn some_header(&mut self) -> Header {
        let rng = &mut self.versions;
        let version = match rng.below(16) {
            0 => rng.pick(&NO_VERSIONS),
            1..=8 => 2,
            _ => 1,
        };
        let ordinal = match rng.below(8) {
            0..=1 => rng.below(8),
            2 => FILLING_ORDINAL + 2 - rng.below(24),
            3 => (rng.within(1, 4) << 24) + 2 - rng.below(5),
            4 => u64::MAX - rng.below(4),
            _ => rng.next() >> rng.below(64),
        };
        Header { version, ordinal }
    }

    /// Mostly the call's own header. Else the card is a recycled one: the region was written in another file, whose
    /// marks may still be the same.
    fn builder(&mut self) -> Header {
        match self.versions.below(8) {
            0 => self.some_header(),
            1 => {
                let steps = [1, 1 << 16, 1 << 23, 1 << 24, 1 << 32, u64::MAX, u64::MAX << 24];
                let ordinal = self.header.ordinal.wrapping_add(self.versions.pick(&steps));
                Header { ordinal, ..self.header }
            }
            _ => self.header,
        }
    }

    // ---- regions

    fn length(&mut self) -> usize {
        let rng = &mut self.rng;
        (match rng.below(400) {
            0..=19 => rng.within(0, 24),
            20..=179 => rng.within(0, 200),
            180..=319 => 16 * rng.within(0, 20) + rng.pick(&[0, 0, 0, 1, 7, 8, 9, 10, 13, 15]),
            320..=395 => rng.within(200, 4096),
            396..=398 => rng.within(60_000, 70_000),
            _ => rng.pick(&[BUFFER_END as u64 - 40, 140_000, 262_100]) + rng.below(4200),
        }) as usize
    }

    fn short(&mut self) -> usize {
        let rng = &mut self.rng;
        (match rng.below(20) {
            0..=4 => 0,
            5..=14 => rng.within(0, 8),
            15..=18 => rng.within(0, 40),
            _ => rng.within(0, 600),
        }) as usize
    }

    /// Lengths of key and value for an entry that has about this much room.
    fn lengths(&mut self, room: usize) -> (usize, usize) {
        if room < 5000 || self.rng.once_in(3) {
            return (self.short(), self.short());
        }
        let long = [4095, 4096, 4097, 32_767, 32_768, 32_769, 65_534, 65_535];
        let klen = self.rng.pick(&[0, 1, 4095, 4096, 4097, 65_535]);
        let left = room.saturating_sub(10 + klen).min(65_535);
        let vlen = if self.rng.once_in(2) { left } else { self.rng.pick(&long) };
        (klen, vlen)
    }

    fn some_entry(&mut self, p: usize, room: usize) -> Vec<u8> {
        let (klen, vlen) = self.lengths(room);
        let kind = self.rng.pick(&[0, 0, 0, 0, 1, 1, 1, 2, 2, 2, 2, 3]);
        let tombstone = if self.rng.once_in(16) { self.rng.once_in(2) } else { kind == 2 };
        let ns = self.rng.below(64) as u32;
        let (key, value) = (self.rng.bytes(klen), self.rng.bytes(vlen));
        entry(self.built, p, kind, ns, tombstone, &key, &value)
    }

    fn some_line(&mut self, length: usize) -> usize {
        16 * self.rng.below(length as u64 / 16 + 1) as usize
    }

    /// A log from offset 0 on, with a gap here and there.
    fn log(&mut self, region: &mut [u8]) {
        let mut p = 0;
        let entries = self.rng.below(24);
        for _ in 0..entries {
            if p >= region.len() {
                return;
            }
            let mut bytes = self.some_entry(p, region.len() - p);
            // A type 3 entry ends every walk, so most logs have none.
            if bytes[3] >> 6 == 3 && !self.rng.once_in(6) {
                bytes[3] &= 0x7f;
                let end = bytes.len() - 2;
                let sum = crc16_ibm3740_fast::hash(&bytes[..end]) as u16;
                bytes[end..].copy_from_slice(&sum.to_le_bytes());
            }
            bytes.resize(up16(bytes.len() as u64) as usize, 0xff);
            put(region, p, &bytes);
            p += bytes.len() + if self.rng.once_in(8) { 16 * self.rng.below(4) as usize } else { 0 };
        }
    }

    /// One of the ways in which a region isn't a clean log.
    fn disturb(&mut self, region: &mut [u8]) {
        let length = region.len();
        let line = self.some_line(length);
        let any = self.rng.below(length.max(1) as u64) as usize;
        match self.rng.below(12) {
            0..=1 => {
                let bytes = self.some_entry(line, length - line);
                put(region, line, &bytes);
            }
            2 => self.flush_with_end(region),
            3 => self.nested(region, line),
            4 => {
                let lengths = self.rng.pick(&[0u32, 1, 0xffff, 0xffff_ffff, 0x0010_0010]).to_le_bytes();
                let word = (self.built.mark(line as u64) | (self.rng.next() as u32) << 24).to_le_bytes();
                put(region, line, &[word, lengths].concat());
            }
            5 => put(region, line + 3, &[self.rng.next() as u8]),
            6 => {
                let at = line + self.rng.below(10) as usize;
                put(region, at, &[self.rng.next() as u8]);
            }
            7..=8 if length > 0 => region[any] ^= 1 << self.rng.below(8),
            9 => {
                let bytes = vec![self.rng.pick(&[0, 0, 0xff]); self.rng.below(64) as usize];
                put(region, any, &bytes);
            }
            10 if length > 0 => {
                let end = region.len() - self.rng.below(20).min(region.len() as u64) as usize;
                region[end..].fill(0);
            }
            _ => {
                let bytes = self.rng.bytes(20);
                put(region, any, &bytes);
            }
        }
    }

    /// A log over the place where the original's first read buffer ends.
    fn over_buffer_end(&mut self, region: &mut [u8]) {
        let mut p = BUFFER_END - 16 * self.rng.below(12) as usize;
        for _ in 0..self.rng.below(12) {
            let room = if self.rng.once_in(4) { 140_000 } else { 100 };
            let bytes = self.some_entry(p, room);
            put(region, p, &bytes);
            p += up16(bytes.len() as u64) as usize;
        }
    }

    /// An entry whose last byte is the region's last, or one past it.
    fn flush_with_end(&mut self, region: &mut [u8]) {
        let line = self.some_line(region.len());
        let room = region.len() - line.min(region.len()) + usize::from(self.rng.once_in(3));
        let tombstone = self.rng.once_in(2);
        let least = if tombstone { 8 } else { 10 };
        if room < least || room - least > 131_070 {
            return;
        }
        let body = room - least;
        let klen = if tombstone { body } else { self.rng.below(body as u64 + 1) as usize };
        let vlen = body - klen;
        if klen <= 65_535 && vlen <= 65_535 {
            let (key, value) = (self.rng.bytes(klen), self.rng.bytes(vlen));
            let kind = if tombstone { 2 } else { self.rng.below(2) as u32 };
            put(region, line, &entry(self.built, line, kind, 1, tombstone, &key, &value));
        }
    }

    /// An entry whose value holds entries that would verify at their own lines; sometimes the outer one is damaged.
    fn nested(&mut self, region: &mut [u8], line: usize) {
        let inner_lines = self.rng.within(1, 5) as usize;
        let mut value = vec![0; 8 + 16 * inner_lines + 40];
        for i in 0..inner_lines {
            let p = line + 16 * (i + 1);
            let inner = self.some_entry(p, 100);
            put(&mut value, 8 + 16 * i, &inner);
        }
        let mut outer = entry(self.built, line, self.rng.below(2) as u32, 2, false, b"outer", &value);
        if self.rng.once_in(2) {
            let last = outer.len() - 1;
            outer[last] ^= 1;
        }
        put(region, line, &outer);
    }

    /// A third of the calls that tell what they took have a hostile region, drawn from a stream of its own, so that a
    /// seed's other calls are the same.
    fn with_effort(&mut self, call: Call) -> Call {
        std::mem::swap(&mut self.rng, &mut self.efforts);
        let call = match call {
            Call::DurableEnd { region: Region::Dense(_), header, .. } if self.rng.once_in(3) => {
                let region = self.hostile_region();
                let bound = self.bound(region.len());
                Call::DurableEnd { region: Region::Dense(region), header, bound }
            }
            Call::Boot { mut file } if file.len() >= HEADER && self.rng.once_in(3) => {
                file.truncate(HEADER);
                file.extend(self.hostile_region());
                Call::Boot { file }
            }
            call => call,
        };
        std::mem::swap(&mut self.rng, &mut self.efforts);
        call
    }

    /// A hostile region, with a few lines that are otherwise.
    fn hostile_region(&mut self) -> Vec<u8> {
        let length = (match self.rng.below(400) {
            0 => self.rng.within(4096, 20_000),
            1..=30 => self.rng.within(200, 2000),
            _ => self.rng.within(0, 200),
        }) as usize;
        let last = (self.rng.next() as u16).to_le_bytes();
        let mut region = hostile(self.built, length, last);
        for _ in 0..self.rng.pick(&[0, 0, 1, 1, 2, 3, 5]) {
            self.disturb_line(&mut region);
        }
        region
    }

    /// A line of a hostile region made otherwise: another mark, type 3, an entry one byte past the region's end or of any
    /// length, or one that verifies, alone, flush with the region's end or around others.
    fn disturb_line(&mut self, region: &mut [u8]) {
        let length = region.len();
        let line = self.some_line(length);
        match self.rng.below(10) {
            0..=1 if line < length => region[line] ^= 1 << self.rng.below(8),
            2 if line + 3 < length => region[line + 3] |= 0xc0,
            3 => put(region, line, &reaching(self.built, line, length + 1 - line)),
            4..=5 => {
                let lengths = [self.rng.below(40) as u16, self.rng.below(40) as u16].map(u16::to_le_bytes).concat();
                put(region, line + 4, &lengths);
            }
            6 => self.flush_with_end(region),
            7 => self.nested(region, line),
            _ => {
                let bytes = self.some_entry(line, 100);
                put(region, line, &bytes);
            }
        }
    }

    // ---- long entries

    /// A durable end or a count of entries in a region with long entries, of which most don't verify. All that it draws
    /// comes from its own stream, the version too.
    fn long_call(&mut self) -> Call {
        std::mem::swap(&mut self.rng, &mut self.long);
        let header = Header { version: self.rng.within(1, 2), ordinal: self.rng.next() >> self.rng.below(64) };
        let bytes = self.long_region(header);
        let bound = self.bound(bytes.len());
        let region = Region::Dense(bytes);
        let call = match self.rng.below(2) {
            0 => Call::DurableEnd { region, header, bound },
            _ => Call::CountEntries { region, header, lent: self.rng.bytes(GRID_BYTES) },
        };
        std::mem::swap(&mut self.rng, &mut self.long);
        call
    }

    /// Up to 700,000 random bytes or zeros with 50 to 300 lines that have their marks, alone and side by side. Of their sums
    /// some are right, or none; in one region of eight a line is of type 3.
    fn long_region(&mut self, header: Header) -> Vec<u8> {
        let length = self.rng.pick(&[300_000, 420_000, 700_000]) - self.rng.below(200_000) as usize;
        let mut region = if self.rng.once_in(2) { self.rng.bytes(length) } else { vec![0; length] };
        let mut places = vec![self.some_line(length / 8)];
        for _ in 0..self.rng.within(50, 300) {
            let last = *places.last().unwrap();
            places.push(match self.rng.below(4) {
                0 => last + 16,
                1 => last + 16 * self.rng.within(1, 40) as usize,
                _ => self.some_line(length),
            });
        }
        places.retain(|place| place + LEAST_COVERED + 2 <= length);
        places.sort_unstable();
        places.dedup();
        let rights = self.rng.pick(&[0, 2, 4, 10, 20, 60]);
        let unknown = if self.rng.once_in(8) { self.rng.pick(&places) } else { length };
        let claims: Vec<Claim> = (0..places.len())
            .map(|i| Claim {
                place: places[i],
                covered: self.covered(&places[..=i], length),
                kind: if places[i] == unknown { 3 } else { self.rng.pick(&[0, 0, 1, 1, 2]) },
                right: rights > 0 && self.rng.once_in(rights),
            })
            .collect();
        put_claims(header, &mut region, &claims);
        region
    }

    /// How many bytes the sum of the last of these lines covers: those around which a sum counts as long, about the most,
    /// all that the region has, some more than a long one's, any number, or so many that they end near where a window ends
    /// that begins at an earlier line or behind it, or near one of its places. Mostly the entry then lies in the region.
    fn covered(&mut self, places: &[usize], length: usize) -> usize {
        let place = *places.last().unwrap();
        let room = length - place - 2;
        let covered = match self.rng.below(10) {
            0 => self.rng.pick(&[255, 256, 257, 511, 512, 513]),
            1 => MOST_COVERED - self.rng.below(8) as usize,
            2 => room,
            3..=4 => self.rng.within(512, 5000) as usize,
            5..=7 => {
                let first = if self.rng.once_in(2) { places[0] } else { self.rng.pick(places) };
                let begin = first + self.rng.pick(&[0, 16]);
                let far = begin + WINDOW > place && begin + WINDOW < place + MOST_COVERED;
                let steps = self.rng.pick(&[4, 16, (MOST_COVERED / WINDOW_STEP) as u64]);
                let near = WINDOW_STEP * self.rng.within(2, steps) as usize;
                let end = begin + if far { WINDOW } else { (place - first) / WINDOW_STEP * WINDOW_STEP + near };
                (end + self.rng.pick(&[0, 1, 2, 2, 2, 3, 4]) - 2).saturating_sub(place)
            }
            _ => self.rng.below(MOST_COVERED as u64 + 1) as usize,
        };
        let covered = if self.rng.once_in(16) { covered } else { covered.min(room) };
        covered.clamp(LEAST_COVERED, MOST_COVERED)
    }

    pub fn bytes_of_region(&mut self) -> Vec<u8> {
        let length = self.length();
        let mut region = if self.rng.once_in(12) { self.rng.bytes(length) } else { vec![0; length] };
        if !self.rng.once_in(5) {
            self.log(&mut region);
        }
        if length > BUFFER_END - 200 && !self.rng.once_in(4) {
            self.over_buffer_end(&mut region);
        }
        for _ in 0..self.rng.pick(&[0, 0, 0, 1, 1, 2, 3, 6]) {
            self.disturb(&mut region);
        }
        region
    }

    fn dense(&mut self) -> Region {
        if self.rng.once_in(300) {
            return Region::Sparse { length: MAX_REGION + 1 + self.rng.below(64) as usize, at: 0, bytes: vec![] };
        }
        Region::Dense(self.bytes_of_region())
    }

    /// A region of the largest size, or one byte more, of which a few lines around the mark 0 are of interest.
    fn sparse(&mut self) -> (Region, usize) {
        let zero = mark_zero(self.built).clamp(32, MAX_REGION - 4096);
        let line = zero + 16 * self.rng.below(5) as usize - 32;
        let mut bytes = if self.rng.once_in(2) { self.some_entry(line, 100) } else { vec![0; 8] };
        if self.rng.once_in(2) {
            self.disturb(&mut bytes);
        }
        let small = line + bytes.len() + self.rng.below(200) as usize;
        let length = self.rng.pick(&[MAX_REGION, MAX_REGION - 1, MAX_REGION + 1, small, small, line + bytes.len()]);
        (Region::Sparse { length, at: line, bytes }, line)
    }

    // ---- calls on regions

    fn place(&mut self, region: &Region) -> u64 {
        let length = region.len();
        let line = self.some_line(length) as u64;
        match self.rng.below(40) {
            0..=1 => line + self.rng.below(16),
            2 => up16(length as u64) + 16 * self.rng.below(3),
            3 => self.rng.pick(&[
                1 << 62,
                (1 << 63) - 4112,
                (1 << 63) - 4096,
                1 << 63,
                u64::MAX - 4111,
                u64::MAX - 4095,
                u64::MAX - 15,
                u64::MAX,
            ]),
            4..=32 => self.entry_line(region).unwrap_or(line),
            _ => line,
        }
    }

    /// A line of the region with the mark that it was built with.
    fn entry_line(&mut self, region: &Region) -> Option<u64> {
        let Region::Dense(bytes) = region else { return None };
        let built = self.built;
        let marked = |p: usize| bytes.len() >= p + 4 && bytes[p..p + 3] == built.mark(p as u64).to_le_bytes()[..3];
        let lines: Vec<usize> = (0..bytes.len().min(8192)).step_by(16).filter(|&p| marked(p)).collect();
        if lines.is_empty() {
            None
        } else {
            Some(self.rng.pick(&lines) as u64)
        }
    }

    fn hint(&mut self, region: &Region, place: u64) -> u64 {
        if let (Region::Dense(bytes), true) = (region, self.rng.once_in(2)) {
            if let Some(fields) = bytes.get(place as usize..).and_then(|rest| rest.get(4..8)) {
                let length = |i: usize| u64::from(u16::from_le_bytes([fields[i], fields[i + 1]]));
                return (10 + length(0) + length(2) + self.rng.below(5)).saturating_sub(2);
            }
        }
        match self.rng.below(20) {
            0 => self.rng.below(12),
            1 => self.rng.pick(&[u64::MAX, 1 << 63, (1 << 63) - 1, 1 << 40, 1 << 20]),
            2..=5 => self.rng.below(200),
            6..=9 => region.len() as u64 + self.rng.below(3),
            _ => 512 * self.rng.within(1, 8),
        }
    }

    fn read_at(&mut self) -> Call {
        if self.rng.once_in(60) {
            let (region, line) = self.sparse();
            return Call::ReadAt { region, header: self.header, place: line as u64, hint: 512 };
        }
        let mut region = self.bytes_of_region();
        // Whole entries of types 2 and 3 in a data entry's layout are met too seldom otherwise.
        if self.rng.once_in(10) {
            let line = self.some_line(region.len());
            let (kind, klen, vlen) = (self.rng.within(1, 3) as u32, self.short(), self.short());
            let bytes = entry(self.built, line, kind, 5, false, &self.rng.bytes(klen), &self.rng.bytes(vlen));
            put(&mut region, line, &bytes);
        }
        let region = Region::Dense(region);
        let place = self.place(&region);
        let hint = self.hint(&region, place);
        Call::ReadAt { region, header: self.header, place, hint }
    }

    fn namespace(&mut self) -> u64 {
        match self.rng.below(30) {
            0 => self.rng.pick(&[64, 65, 127, 128, 255, 256, 1 << 32, u64::MAX]),
            1 => self.rng.pick(&[0, 63]),
            _ => self.rng.below(64),
        }
    }

    /// A key's or value's length: short, now and then at a limit, or so that the entry is flush with the region's end.
    fn run(&mut self, limit: u64) -> Vec<u8> {
        let count = match self.rng.below(200) {
            0..=2 => self.rng.within(limit - 1, limit + 1),
            3 => self.rng.pick(&[65_535, 65_536, 65_537, 65_552]),
            _ => self.short() as u64,
        };
        self.rng.bytes(count as usize)
    }

    fn capacity_for(&mut self, used: u64, length: u64) -> usize {
        let end = (used + up16(length)) as usize;
        match self.rng.below(10) {
            0..=5 => end + self.rng.below(40) as usize,
            6..=7 => end,
            8 => end - 1,
            _ => (used + self.rng.below(up16(length) + 1)) as usize,
        }
    }

    fn used(&mut self) -> u64 {
        match self.rng.below(40) {
            0 => self.rng.below(300),
            1 => self.rng.pick(&[u64::MAX - 15, u64::MAX - 31, u64::MAX - 4095, 1 << 63, u64::MAX]),
            _ => 16 * self.rng.below(12),
        }
    }

    fn append_region(&mut self, used: u64, length: u64) -> Region {
        let capacity = if used > 1 << 20 { self.rng.below(100) as usize } else { self.capacity_for(used, length) };
        let mut region = self.rng.bytes(capacity);
        if self.rng.once_in(2) {
            region.fill(0);
        }
        Region::Dense(region)
    }

    /// An append with several things wrong at once, for the order of refusals.
    fn wrong_append(&mut self) -> Call {
        let mut length = |limit: u64| if self.rng.once_in(3) { limit + 1 } else { self.rng.below(20) };
        let (klen, vlen) = (length(4096) as usize, length(32_768) as usize);
        let (key, value) = (vec![1; klen], vec![2; vlen]);
        let kind = self.rng.pick(&[0, 1, 2, 3]);
        let ns = self.rng.pick(&[1, 63, 64]);
        let used = self.rng.pick(&[0, 16, 16, 17, u64::MAX - 15]);
        let region = match self.rng.below(6) {
            0 => Region::Sparse { length: MAX_REGION + 1, at: 0, bytes: vec![] },
            1 => Region::Dense(vec![3; 40_000]),
            _ => Region::Dense(vec![3; 64]),
        };
        if self.rng.once_in(3) {
            return Call::AppendTombstone { region, header: self.header, used, ns, key };
        }
        Call::AppendData { region, header: self.header, used, kind, ns, key, value }
    }

    fn append_data(&mut self) -> Call {
        if self.rng.once_in(40) {
            return self.wrong_append();
        }
        let (key, value) = (self.run(4096), self.run(32_768));
        let kind = if self.rng.once_in(40) { self.rng.pick(&[2, 3, 4, 1 << 32, u64::MAX]) } else { self.rng.below(2) };
        let ns = self.namespace();
        if self.rng.once_in(60) {
            let (region, line) = self.sparse();
            return Call::AppendData { region, header: self.header, used: line as u64, kind, ns, key, value };
        }
        let used = self.used();
        let region = self.append_region(used, (10 + key.len() + value.len()) as u64);
        Call::AppendData { region, header: self.header, used, kind, ns, key, value }
    }

    fn append_tombstone(&mut self) -> Call {
        let (key, ns) = (self.run(4096), self.namespace());
        if self.rng.once_in(60) {
            let (region, line) = self.sparse();
            return Call::AppendTombstone { region, header: self.header, used: line as u64, ns, key };
        }
        let used = self.used();
        let region = self.append_region(used, (8 + key.len()) as u64);
        Call::AppendTombstone { region, header: self.header, used, ns, key }
    }

    fn bound(&mut self, length: usize) -> u64 {
        let length = length as u64;
        match self.rng.below(30) {
            0 => self.rng.pick(&[length + 1, length + 15, length + 16, length + 5000, 1 << 63, u64::MAX]),
            1..=8 => self.rng.below(length + 1),
            9..=12 => length.saturating_sub(self.rng.below(17)),
            _ => length,
        }
    }

    fn walk(&mut self) -> Call {
        if self.rng.once_in(60) {
            let (region, line) = self.sparse();
            let bound = (line as u64 + self.rng.below(300)).min(region.len() as u64);
            let offset = (line as u64).saturating_sub(self.rng.below(64));
            return Call::Walk { region, header: self.header, bound, offset };
        }
        let region = self.dense();
        if let Region::Sparse { length, .. } = region {
            return Call::Walk { region, header: self.header, bound: length as u64, offset: 0 };
        }
        let length = region.len() as u64;
        let bound = self.bound(region.len());
        let offset = match self.rng.below(20) {
            0 => length + self.rng.below(40),
            1 => self.rng.pick(&[u64::MAX, u64::MAX - 15, u64::MAX - 16, u64::MAX - 5000, 1 << 63]),
            2..=9 => 0,
            10..=13 => self.entry_line(&region).unwrap_or(0).saturating_sub(self.rng.below(40)),
            _ => self.rng.below(length + 1),
        };
        Call::Walk { region, header: self.header, bound, offset }
    }

    fn listing(&mut self) -> Call {
        let region = self.dense();
        let bound = self.bound(region.len());
        Call::Listing { region, header: self.header, bound }
    }

    fn durable_end(&mut self) -> Call {
        let region = self.dense();
        let bound = self.bound(region.len());
        Call::DurableEnd { region, header: self.header, bound }
    }

    /// All that such a call draws comes from its own stream, the version too.
    pub fn count_entries(&mut self) -> Call {
        std::mem::swap(&mut self.rng, &mut self.counts);
        let own = Rng::new(self.rng.next());
        let versions = std::mem::replace(&mut self.versions, own);
        self.header = self.some_header();
        self.built = self.builder();
        let region = self.counted_region();
        let lent = if self.rng.once_in(2) { vec![0; GRID_BYTES] } else { self.rng.bytes(GRID_BYTES) };
        let call = Call::CountEntries { region, header: self.header, lent };
        (self.versions, self.header, self.built) = (versions, PLAIN, PLAIN);
        std::mem::swap(&mut self.rng, &mut self.counts);
        call
    }

    /// Mostly a region as others have it. Else one that is too large, whatever stands in it, a crowd, an entry that
    /// reaches past the used bound, or a hostile region.
    fn counted_region(&mut self) -> Region {
        let bytes = match self.rng.below(32) {
            0 => {
                let length = MAX_REGION + 1 + self.rng.below(64) as usize;
                return Region::Sparse { length, at: 0, bytes: self.some_entry(0, 100) };
            }
            1..=2 => self.crowd(),
            3..=4 => self.past_used_bound(),
            5..=7 => self.hostile_region(),
            _ => self.bytes_of_region(),
        };
        Region::Dense(bytes)
    }

    /// Short entries edge to edge, many of one kind, and with few keys.
    fn crowd(&mut self) -> Vec<u8> {
        let entries = self.rng.pick(&[10, 40, 40, 600]);
        let (kinds, namespaces) = (self.rng.within(1, 3), self.rng.pick(&[1, 2, 8, 64]));
        let mut region = Vec::new();
        for _ in 0..self.rng.below(entries) {
            let (kind, ns) = (self.rng.below(kinds) as u32, self.rng.below(namespaces) as u32);
            let key = vec![b'k'; self.rng.below(3) as usize];
            region.extend(entry(self.built, region.len(), kind, ns, kind == 2, &key, &[]));
            region.resize(up16(region.len() as u64) as usize, 0xff);
        }
        region
    }

    /// A log, and behind it an entry that ends in zeros: flush with the region's end, before it, or one byte past it.
    fn past_used_bound(&mut self) -> Vec<u8> {
        let line = 16 * self.rng.below(8) as usize;
        let (kind, ns, zeros) = (self.rng.below(3) as u32, self.rng.below(64) as u32, self.rng.below(60) as usize);
        let written = ending_in_zeros(self.built, line, kind, ns, zeros);
        let behind = self.rng.pick(&[0, 0, 1, 2, 20]);
        let mut region = vec![0; line + written.len() + behind - 1];
        self.log(&mut region[..line]);
        put(&mut region, line, &written);
        region
    }

    fn part(&mut self) -> Call {
        let length = self.rng.below(80);
        let mut number = || if self.rng.once_in(10) { u64::MAX - self.rng.below(40) } else { self.rng.below(60) };
        let (at, len) = (number(), number());
        Call::Part { region: Region::Dense(self.rng.bytes(length as usize)), at, len }
    }

    // ---- checksum, header, boot

    fn hash(&mut self) -> Call {
        let count = self.rng.pick(&[0, 1, 7, 8, 9, 15, 16, 17, 31, 64, 255, 1000, 4096]) + self.rng.below(20);
        let bytes = self.rng.bytes(count as usize);
        match self.rng.below(2) {
            0 => Call::Hash { bytes },
            _ => Call::Update { state: self.rng.next() as u16, bytes },
        }
    }

    fn head(&mut self) -> Vec<u8> {
        let mut bytes = vec![0; HEADER];
        bytes[..8].copy_from_slice(b"LOCKDAT1");
        bytes[8..12].copy_from_slice(&(self.header.version as u32).to_le_bytes());
        let any = self.rng.next() >> self.rng.below(64);
        let ordinal = if self.header.version == 1 { any } else { self.header.ordinal };
        bytes[16..24].copy_from_slice(&ordinal.to_le_bytes());
        match self.rng.below(8) {
            0 => bytes[self.rng.below(12) as usize] ^= 1 << self.rng.below(8),
            1 => bytes[8..12]
                .copy_from_slice(&self.rng.pick(&[0u32, 2, 0x101, 0x0100_0000, u32::MAX, 0x0002_0003]).to_le_bytes()),
            2..=3 => {
                let rest = self.rng.bytes(HEADER - 12);
                bytes[12..].copy_from_slice(&rest);
            }
            _ => {}
        }
        bytes
    }

    fn header(&mut self) -> Call {
        if self.rng.once_in(3) {
            let length = if self.rng.once_in(4) { self.rng.below(4200) } else { 4096 + self.rng.below(40) };
            let lent = self.rng.bytes(length as usize);
            return Call::WriteHeader { lent, header: Header { ordinal: self.rng.next(), ..self.header } };
        }
        let mut bytes = self.head();
        if self.rng.once_in(3) {
            let length = self.rng.pick(&[0, 8, 24, 4094, 4095, 4097, 5000]);
            bytes.resize(length, 7);
        }
        Call::ReadHeader { bytes }
    }

    fn boot(&mut self) -> Call {
        let mut file = self.head();
        if self.rng.once_in(12) {
            file.truncate(self.rng.below(4096) as usize);
        } else {
            file.extend(self.bytes_of_region());
        }
        Call::Boot { file }
    }

    // ---- replay

    fn around(&mut self, limits: &[u64]) -> u64 {
        self.rng.pick(limits).saturating_add(self.rng.below(3)).saturating_sub(1)
    }

    fn replay(&mut self) -> Call {
        let klen = if self.rng.once_in(2) { self.rng.below(4200) } else { self.around(&[0, 2, 16, 4096, 65_536]) };
        let vlen = if self.rng.once_in(2) { self.rng.below(34_000) } else { self.around(&[0, 16, 32_768, 65_536]) };
        let tombstone = self.rng.once_in(3);
        let size = up16(if tombstone { 8 + klen } else { 10 + klen + vlen });
        let maximum = match self.rng.below(8) {
            0 => self.around(&[MAX_REGION as u64, u32::MAX.into(), u64::MAX - 1]),
            1 => self.rng.next() >> self.rng.below(64),
            2..=3 => self.rng.below(size + 200),
            _ => (size + self.rng.below(33)).saturating_sub(16),
        };
        if tombstone {
            Call::ReplayTombstone { klen, maximum }
        } else {
            Call::ReplayData { klen, vlen, maximum }
        }
    }

    /// A list in any order or sorted, of a few ordinals or about as many as it may have, with equal ones or without: those
    /// are told apart by their places, without a further draw, so that a seed's other calls stay as they are.
    fn start_file(&mut self) -> Call {
        let count = if self.rng.once_in(3) { self.rng.within(60, 70) } else { self.rng.below(8) };
        let spread = self.rng.pick(&[3, 10, 100, u64::MAX]);
        let mut ordinals: Vec<u64> = (0..count).map(|_| self.rng.below(spread)).collect();
        if self.rng.once_in(2) {
            ordinals.sort_unstable();
        }
        let mut cursor = if self.rng.once_in(4) { u64::MAX - self.rng.below(2) } else { self.rng.below(spread) };
        if spread < u64::MAX && cursor % 2 == 0 {
            let met = ordinals.iter().position(|&ordinal| ordinal == cursor);
            for (place, ordinal) in ordinals.iter_mut().enumerate() {
                *ordinal = *ordinal * 128 + place as u64;
            }
            cursor = met.map_or(cursor.saturating_mul(128), |place| ordinals[place]);
        }
        Call::StartFile { ordinals, cursor }
    }

    // ---- tracker

    fn track(&mut self) -> Call {
        if self.steps_left == 0 {
            self.begin_trace();
        }
        self.steps_left -= 1;
        if self.rng.once_in(16) {
            let state = Box::new(self.unsound_state());
            self.steps_left = 0;
            return Call::Track { state, step: self.step() };
        }
        Call::Track { state: Box::new(self.trace.clone()), step: self.step() }
    }

    fn begin_trace(&mut self) {
        self.steps_left = self.rng.within(5, 120) as u32;
        self.shards = self.rng.pick(&[1, 2, 3, 16]);
        self.records = self.rng.pick(&[2, 4, 12]);
        self.trace = if self.rng.once_in(3) { fresh_state() } else { self.sound_state() };
    }

    /// A call of one trace, for the recorder: a new trace begins where it says so, and no unsound state comes in.
    pub fn trace_call(&mut self, begin: bool) -> Call {
        if begin {
            self.begin_trace();
            // Few shards with something in them keep the written states short.
            self.trace.queues[3..].fill(Vec::new());
            self.trace.slots[6..].fill(Slot::default());
        }
        loop {
            self.steps_left = self.steps_left.max(2);
            let call = self.track();
            match &call {
                Call::Track { state, .. } if crate::paper::sound(state) => return call,
                _ => {}
            }
        }
    }

    fn below_next(&mut self, next: u64) -> u64 {
        match self.rng.below(4) {
            0 => self.rng.below(next),
            1 => self.rng.below(next.min(4)),
            _ => next - 1 - self.rng.below(next.min(40)),
        }
    }

    fn sound_state(&mut self) -> State {
        let mut state = fresh_state();
        let near_last = u64::MAX - 1 - self.rng.below(40);
        state.next = self.rng.pick(&[1, 2, 3, 40, 1 << 32, near_last, u64::MAX - 1, u64::MAX]);
        for shard in 0..16 {
            if self.rng.once_in(3) && state.next > 1 {
                let number = self.below_next(state.next);
                let (ordinal, offset) = (self.rng.below(4), 16 * self.rng.below(8));
                state.slots[shard] = Slot { number, ordinal, offset };
            }
            let most = if state.slots[shard].number == 0 { 32 } else { 31 };
            let count = self.rng.pick(&[0, 0, 0, 1, 2, 5, most - 1, most]);
            state.queues[shard] = (0..count).map(|_| (self.below_next(state.next), self.delta().into())).collect();
            // Even numbers alone, so that more of them are equal.
            if self.rng.once_in(2) {
                state.queues[shard].iter_mut().for_each(|(number, _)| *number -= *number % 2);
            }
            state.queues[shard].sort_by_key(|&(number, _)| number);
        }
        state
    }

    /// A state that lacks one thing of a sound one. A queue that doesn't ascend falls once, at its first pair or at its last.
    fn unsound_state(&mut self) -> State {
        let mut state = self.sound_state();
        let shard = self.rng.below(16) as usize;
        match self.rng.below(6) {
            0 => state.next = 0,
            1 => state.slots[shard].number = state.next,
            2 => state.queues[shard] = vec![(state.next, 1)],
            3 => state.queues[shard] = vec![(0, 1); 33],
            4 => {
                state.next = state.next.max(2);
                state.slots[shard].number = 1;
                state.queues[shard] = vec![(0, 1); 32];
            }
            _ => {
                let queue = &mut state.queues[shard];
                let one = queue.len().min(1);
                if shard % 2 == 0 {
                    queue.rotate_left(one);
                } else {
                    queue.rotate_right(one);
                }
                if crate::paper::ascends(&state) {
                    state.next = state.next.max(2);
                    state.slots[shard].number = 0;
                    state.queues[shard] = vec![(1, 1), (0, 1)];
                }
            }
        }
        state
    }

    fn delta(&mut self) -> i8 {
        match self.rng.below(6) {
            0 => 0,
            1 => self.rng.next() as i8,
            2 => self.rng.pick(&[127, -128]),
            _ => self.rng.pick(&[1, 1, -1]),
        }
    }

    fn shard(&mut self) -> u64 {
        if self.rng.once_in(40) {
            return self.rng.pick(&[16, 17, 1 << 32, u64::MAX]);
        }
        self.rng.below(self.shards)
    }

    /// Mostly a shard whose slot is open, where there is one.
    fn open_shard(&mut self, other: u64) -> u64 {
        let open: Vec<u64> = (0..16).filter(|&shard| self.trace.slots[shard as usize].number != 0).collect();
        if open.is_empty() || other > 15 || self.rng.once_in(4) {
            other
        } else {
            self.rng.pick(&open)
        }
    }

    /// Mostly the number that the shard's slot has.
    fn number_for(&mut self, shard: u64) -> u64 {
        let held = self.trace.slots[(shard % 16) as usize].number;
        match self.rng.below(8) {
            0 => 0,
            1 => held.wrapping_add(1),
            2 => self.rng.below(8),
            _ => held,
        }
    }

    fn step(&mut self) -> Step {
        let shard = self.shard();
        match self.rng.below(14 + self.records) {
            0..=3 => self.reserve(shard),
            4..=6 => {
                let shard = self.open_shard(shard);
                Step::Complete { shard, number: self.number_for(shard), delta: self.delta() }
            }
            7 => {
                let shard = self.open_shard(shard);
                Step::Abandon { shard, number: self.number_for(shard) }
            }
            8..=11 => Step::Checkpoint { ordinal: self.rng.below(5), used: self.rng.next() >> self.rng.below(64) },
            12 if self.rng.once_in(3) => Step::Clear,
            12..=13 => {
                let next = self.trace.next;
                let near = next.wrapping_sub(self.rng.below(20));
                Step::Drain { limit: self.rng.pick(&[near, near, near, 0, 1, u64::MAX]) }
            }
            _ => Step::Record { shard, delta: self.delta() },
        }
    }

    /// A reserve with several things wrong at once, for the order of refusals.
    fn wrong_reserve(&mut self, shard: u64) -> Step {
        Step::Reserve {
            shard,
            ordinal: 1,
            used: self.rng.pick(&[0, 16, 8, u64::MAX - 15]),
            capacity: self.rng.pick(&[16, 64, MAX_REGION as u64 + 1]),
            sealed: self.rng.once_in(3),
            length: self.rng.pick(&[0, 8, 16, 64]),
        }
    }

    fn reserve(&mut self, shard: u64) -> Step {
        if self.rng.once_in(8) {
            return self.wrong_reserve(shard);
        }
        let used = match self.rng.below(20) {
            0 => self.rng.below(200),
            1 => u64::MAX - 15 - 16 * self.rng.below(4),
            _ => 16 * self.rng.below(40),
        };
        let length = match self.rng.below(20) {
            0 => self.rng.below(40),
            1 => self.rng.pick(&[0, u64::MAX - 15, 1 << 63, u64::MAX]),
            _ => 16 * self.rng.within(1, 6),
        };
        let end = used.saturating_add(length);
        let capacity = match self.rng.below(12) {
            0 => end.saturating_sub(1),
            1 => end,
            2 => self.rng.pick(&[MAX_REGION as u64, MAX_REGION as u64 + 1, u32::MAX.into(), 1 << 40, u64::MAX]),
            3 => self.rng.below(1000),
            _ => MAX_REGION as u64,
        };
        Step::Reserve { shard, ordinal: self.rng.below(4), used, capacity, sealed: self.rng.once_in(16), length }
    }
}
