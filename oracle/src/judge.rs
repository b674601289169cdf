//! What the original says to a call, put into document 01's words. Where document 01 or a request of document 02 says
//! otherwise (docs/DIFFERENCES.md) the original is asked all the same, has to do what the list says it does, and the parting
//! is counted by its name.
use std::{
    fs,
    io::ErrorKind,
    os::unix::fs::FileExt,
    path::{Path, PathBuf},
    sync::atomic::{AtomicU32, Ordering},
};

use original::{Buffer, Failure, File, Found, Opened, Tracker};

use crate::{
    calls::{eight, grid_bytes, up16, Call, Effort, Grid, Header, Region, Said, State, Step, HEADER, MAX_REGION},
    draw::put,
    library::{listing, window},
    paper::{ascends, fits},
};

/// The answer that is right, and the parting's name where the original doesn't give it.
#[derive(Clone)]
pub struct Judged {
    pub said: Said,
    pub parting: Option<&'static str>,
}

/// Or what the original did that is on no list.
pub type Judgement = Result<Judged, String>;

fn same(said: Said) -> Judgement {
    Ok(Judged { said, parting: None })
}

fn parted(said: Said, name: &'static str) -> Judgement {
    Ok(Judged { said, parting: Some(name) })
}

/// Sizes that the original is asked with: it would fill a buffer of the hint's size before it reads, and can't get more.
const LARGEST_HINT: u64 = 1 << 20;

/// Document 02's request 4: the one parting of a read that both sides accept.
const UPDATE_READ: &str = "read: an update (told as an insert)";

/// Document 02's request 6: a completion that both sides accept, with the delta at different places.
const JOINS_BACK: &str = "complete: a larger number waits (joins the back)";

/// Document 02's request 10: the original knows version 1 alone.
const VERSION_2_READ: &str = "header reader: version 2 (refused)";
const VERSION_2_WRITTEN: &str = "header writer: version 2 (version 1 is written)";
const VERSION_2_BOOTED: &str = "boot: version 2 (refused)";
const NEITHER_VERSION: &str = "version: neither 1 nor 2 (no counterpart)";

/// Partings that are recorded too: those in which both sides accept or request 10's versions decide.
pub const RECORDED: [&str; 5] = [UPDATE_READ, JOINS_BACK, VERSION_2_READ, VERSION_2_WRITTEN, NEITHER_VERSION];

/// How much the original's walk reads at once.
const READ_BUFFER: u64 = 128 * 1024;

/// A walk that is short enough to be asked of a region that is too large.
const SHORT_WALK: u64 = 1 << 20;

/// Document 02's request 8: bytes checksummed are at most so many for each line tried.
const MOST_BYTES_A_LINE: u64 = 131_078;

/// Lengths of keys and values that the original is asked about.
pub const LONGEST: usize = 200_000;

pub struct Judge {
    folder: PathBuf,
    small: File,
    big: File,
    head: fs::File,
    tracker: Tracker,
    zeros: Vec<u8>,
    /// A scan of all of a too large region takes a quarter of a second: the original is asked for the first of them.
    large_bound_asked: bool,
    large_end_asked: bool,
    large_count_asked: bool,
}

/// A file in memory, where there is such a folder, so that no disk slows the comparison.
fn room() -> PathBuf {
    let memory = Path::new("/dev/shm");
    let under = if memory.is_dir() { memory.to_path_buf() } else { std::env::temp_dir() };
    leave_clean(&under);
    // One folder for each judge of a process.
    static COUNT: AtomicU32 = AtomicU32::new(0);
    let count = COUNT.fetch_add(1, Ordering::Relaxed);
    let folder = under.join(format!("{FOLDER}{}-{count}", std::process::id()));
    fs::create_dir_all(&folder).expect("a folder for files");
    folder
}

const FOLDER: &str = "locker-oracle-";

/// Takes away what an earlier run left that was ended before it could.
fn leave_clean(under: &Path) {
    for entry in fs::read_dir(under).into_iter().flatten().flatten() {
        let name = entry.file_name();
        let id = name.to_str().and_then(|name| name.strip_prefix(FOLDER)).and_then(|rest| rest.split('-').next());
        let process = id.and_then(|id| id.parse::<u32>().ok());
        if process.is_some_and(|id| !Path::new(&format!("/proc/{id}")).exists()) {
            let _ = fs::remove_dir_all(entry.path());
        }
    }
}

fn fresh_file(folder: &Path, name: &str) -> fs::File {
    let path = folder.join(name);
    let file = fs::File::options().create(true).truncate(true).read(true).write(true).open(&path).expect("a file");
    // Open, it needs no name; and it is gone with the process.
    fs::remove_file(path).expect("the file's name");
    file
}

impl Drop for Judge {
    fn drop(&mut self) {
        let _ = fs::remove_dir_all(&self.folder);
    }
}

fn entry_values(found: &Found) -> [u64; 8] {
    let (klen, vlen) = (found.key.len() as u64, found.value.len() as u64);
    eight(found.offset, found.kind.into(), found.ns.into(), klen, vlen, found.end)
}

fn entry_bytes(found: &Found) -> Vec<u8> {
    [&found.key[..], &found.value[..]].concat()
}

/// The number that goes with the text's own words.
fn number_of(failure: &Failure) -> Result<u32, String> {
    match failure {
        Failure::Rotate => Ok(13),
        Failure::Said(kind, words) => match (kind, words.as_str()) {
            (ErrorKind::UnexpectedEof, "data file header too short") => Ok(1),
            (ErrorKind::InvalidData, "invalid data file header") => Ok(2),
            (ErrorKind::UnexpectedEof, "entry too short") => Ok(6),
            (ErrorKind::InvalidData, "corrupt entry magic") => Ok(7),
            (ErrorKind::InvalidData, "checksum mismatch") => Ok(8),
            (ErrorKind::InvalidData, "invalid entry type") => Ok(9),
            (ErrorKind::InvalidData, "unknown data entry type") => Ok(10),
            _ => Err(format!("the original gives an error that has no number: {failure:?}")),
        },
        _ => Err(format!("the original gives no answer: {failure:?}")),
    }
}

thread_local! {
    /// What the original did in the last call, in its own words; only kept where somebody wants to print it.
    static DID: std::cell::RefCell<Option<String>> = const { std::cell::RefCell::new(None) };
}

/// What the original does in `call`, in its own words.
pub fn explained(judge: &mut Judge, call: &Call) -> String {
    DID.set(Some("was not asked".to_string()));
    let _ = judge.judge(call);
    DID.take().unwrap_or_default()
}

fn note(answer: &dyn std::fmt::Debug) {
    DID.with_borrow_mut(|did| {
        if let Some(words) = did {
            *words = format!("{answer:?}");
        }
    });
}

fn panicked<T: std::fmt::Debug>(answer: &Result<T, Failure>, with: &str) -> Result<(), String> {
    note(answer);
    match answer {
        Err(Failure::Panicked(words)) if words.contains(with) => Ok(()),
        other => Err(format!("the original was to panic with `{with}`, and gave {other:?}")),
    }
}

/// A call outside document 01's domain that the original answers in some way, without a panic.
fn goes_on<T: std::fmt::Debug>(answer: &Result<T, Failure>) -> Result<(), String> {
    note(answer);
    match answer {
        Err(Failure::Panicked(_)) => Err(format!("the original was to go on, and gave {answer:?}")),
        _ => Ok(()),
    }
}

const OVERFLOW: &str = "attempt to add with overflow";

// ---- versions

/// The version and the ordinal that stand in a header, whatever else does.
fn stated(head: &[u8]) -> Option<Header> {
    let version = u32::from_le_bytes(head.get(8..12)?.try_into().ok()?);
    let ordinal = u64::from_le_bytes(head.get(16..24)?.try_into().ok()?);
    Some(Header { version: version.into(), ordinal })
}

fn put_version(head: &mut [u8], version: u32) {
    head[8..12].copy_from_slice(&version.to_le_bytes());
}

/// The original knows version 1 alone, so what it accepts is of version 1, and it has to refuse a file of version 2. It
/// is asked again with version 1 in that file's header: what it says then is right but for the version.
fn in_either_version(file: &[u8], parting: &'static str, ask: impl Fn(&[u8]) -> Result<Said, String>) -> Judgement {
    let said = ask(file)?;
    if said.number != 2 || stated(file).is_none_or(|header| header.version != 2) {
        return same(said);
    }
    let mut as_1 = file.to_vec();
    put_version(&mut as_1, 1);
    let mut right = ask(&as_1)?;
    if right.number == 2 {
        return same(said);
    }
    note(&format!("refused with {}", said.number));
    if right.number == 0 {
        right.values[0] = 2;
    }
    parted(right, parting)
}

/// What an append may write to, with some bytes around it, or the grid for a count, as it is lent.
fn lent_to(call: &Call) -> Vec<u8> {
    let (region, used, length) = match call {
        Call::AppendData { region, used, key, value, .. } => (region, *used, 10 + key.len() + value.len()),
        Call::AppendTombstone { region, used, key, .. } => (region, *used, 8 + key.len()),
        Call::CountEntries { lent, .. } => return lent.clone(),
        _ => return vec![],
    };
    let window = window(region, used, up16(length as u64));
    match region {
        Region::Dense(bytes) => bytes.clone(),
        Region::Sparse { at, bytes, .. } => {
            let mut lent = vec![0; window.len()];
            put(&mut lent, at - window.start, bytes);
            lent
        }
    }
}

impl Judge {
    pub fn new() -> Self {
        let folder = room();
        let small = File::new(fresh_file(&folder, "small"));
        let big = File::new(fresh_file(&folder, "big"));
        let head = fresh_file(&folder, "head");
        Judge {
            folder,
            small,
            big,
            head,
            tracker: Tracker::new(),
            zeros: vec![0; LONGEST],
            large_bound_asked: false,
            large_end_asked: false,
            large_count_asked: false,
        }
    }

    pub fn judge(&mut self, call: &Call) -> Judgement {
        if let Some(header) = call.header() {
            if !header.known() {
                return parted(Said { number: 2, bytes: lent_to(call), ..Default::default() }, NEITHER_VERSION);
            }
            original::under(header.version, header.ordinal);
        }
        match call {
            Call::Hash { bytes } => same(Said::values(&[crc16_ibm3740_fast::hash(bytes)])),
            Call::Update { state, bytes } => same(Said::values(&[crc16_ibm3740_fast::update(*state, bytes).into()])),
            Call::ReadHeader { bytes } => self.read_header(bytes),
            Call::WriteHeader { lent, header } => self.write_header(lent, *header),
            Call::ReadAt { region, place, hint, .. } => self.read_at(region, *place, *hint),
            Call::AppendData { region, header, used, kind, ns, key, value } => {
                self.append(region, header.mark(*used), *used, *kind, *ns, key, Some(value))
            }
            Call::AppendTombstone { region, header, used, ns, key } => {
                self.append(region, header.mark(*used), *used, 2, *ns, key, None)
            }
            Call::Walk { region, bound, offset, .. } => self.walk(region, *bound, *offset),
            Call::Listing { region, bound, .. } => self.listing(region, *bound),
            Call::Part { region, at, len } => part(region, *at, *len),
            Call::UsedBound { region } => self.used_bound(region),
            Call::DurableEnd { region, bound, .. } => self.durable_end(region, *bound),
            Call::CountEntries { region, lent, .. } => self.count_entries(region, lent),
            Call::Boot { file } => self.boot(file),
            Call::Track { state, step } => self.track(state, step),
            Call::ReplayData { klen, vlen, maximum } => self.replay(*klen, Some(*vlen), *maximum),
            Call::ReplayTombstone { klen, maximum } => self.replay(*klen, None, *maximum),
            Call::StartFile { ordinals, cursor } => start_file(ordinals, *cursor),
        }
    }

    // ---- header

    fn put_head(&self, bytes: &[u8]) {
        self.head.set_len(bytes.len() as u64).expect("the file's length");
        self.head.write_all_at(bytes, 0).expect("the file's bytes");
    }

    fn read_header(&self, bytes: &[u8]) -> Judgement {
        in_either_version(bytes, VERSION_2_READ, |bytes| {
            self.put_head(bytes);
            match original::read_header(&self.head) {
                Ok(ordinal) => Ok(Said::values(&[1, ordinal])),
                Err(failure) => Ok(Said::refused(number_of(&failure)?)),
            }
        })
    }

    fn write_header(&self, lent: &[u8], header: Header) -> Judgement {
        let refused = |number| Said { number, bytes: lent.to_vec(), ..Default::default() };
        if lent.len() < HEADER {
            return parted(refused(1), "header writer: under 4,096 bytes lent (the original makes its own file)");
        }
        if !header.known() {
            return parted(refused(2), NEITHER_VERSION);
        }
        let capacity = (lent.len() - HEADER) as u32;
        original::create(&self.folder, header.ordinal, capacity).map_err(|failure| format!("create: {failure:?}"))?;
        let mut bytes = fs::read(self.folder.join("data_0000")).expect("the file that was created");
        if bytes.len() != lent.len() || bytes[HEADER..].iter().any(|&byte| byte != 0) {
            return Err("create: the file has another length, or more than the header was written".to_string());
        }
        bytes[HEADER..].copy_from_slice(&lent[HEADER..]);
        if header.version == 1 {
            return same(Said { bytes, ..Default::default() });
        }
        if stated(&bytes).is_none_or(|written| written.version != 1) {
            return Err("create: another version than 1 was written".to_string());
        }
        note(&"version 1 is written");
        put_version(&mut bytes, 2);
        parted(Said { bytes, ..Default::default() }, VERSION_2_WRITTEN)
    }

    fn boot(&self, file: &[u8]) -> Judgement {
        if let Some(header) = stated(file) {
            original::under(header.version, header.ordinal);
        }
        in_either_version(file, VERSION_2_BOOTED, |file| {
            fs::write(self.folder.join("data_0000"), file).expect("the file's bytes");
            let (answer, Effort { lines, bytes }) = original::counted(|| original::open(&self.folder, 1 << 20));
            match answer {
                Ok(Opened { ordinal, bound, used }) => Ok(Said::values(&[1, ordinal, bound, used, lines, bytes])),
                Err(failure) => Ok(match number_of(&failure)? {
                    10 => Said { number: 10, ..Said::values(&[lines, bytes]) },
                    number => Said::refused(number),
                }),
            }
        })
    }

    // ---- region

    /// The file with the region in it.
    fn lent(&mut self, region: &Region) -> &mut File {
        match region {
            Region::Dense(bytes) => {
                self.small.set_length(bytes.len() as u64);
                self.small.put(0, bytes);
                &mut self.small
            }
            Region::Sparse { length, at, bytes } => {
                self.big.set_length(*length as u64);
                self.big.put(*at as u64, bytes);
                &mut self.big
            }
        }
    }

    /// Puts a sparse region back to zeros.
    fn give_back(&mut self, region: &Region, window: std::ops::Range<usize>) {
        if let Region::Sparse { .. } = region {
            self.big.put(window.start as u64, &vec![0; window.len()]);
        }
    }

    fn look<T>(&mut self, region: &Region, call: impl FnOnce(&mut File) -> T) -> T {
        let answer = call(self.lent(region));
        self.give_back(region, window(region, u64::MAX, 0));
        answer
    }

    // ---- read at a place

    fn read_at(&mut self, region: &Region, place: u64, hint: u64) -> Judgement {
        self.look(region, |file| read_at(file, region.len() as u64, place, hint))
    }

    // ---- append

    /// The refusals that the original doesn't have.
    fn append_parting(
        region: &Region,
        used: u64,
        kind: u64,
        ns: u64,
        klen: usize,
        value: Option<usize>,
    ) -> Option<(u32, &'static str)> {
        match () {
            () if region.len() > MAX_REGION => Some((3, "append: region over 268,435,456 (written)")),
            () if used % 16 != 0 => Some((5, "append: used count off a line (written there)")),
            () if value.is_some() && kind > 1 => Some((9, "append: type 2 or 3 (written)")),
            () if ns > 63 => Some((17, "append: namespace over 63 (runs into the type's bits)")),
            () if klen > 4096 => Some((11, "append: key over 4,096 (written; from 65,536 on its length wraps)")),
            () if value.is_some_and(|vlen| vlen > 32768) => {
                Some((12, "append: value over 32,768 (written; its length wraps too)"))
            }
            () => None,
        }
    }

    fn append(
        &mut self,
        region: &Region,
        mark: u32,
        used: u64,
        kind: u64,
        ns: u64,
        key: &[u8],
        value: Option<&[u8]>,
    ) -> Judgement {
        let length = up16((key.len() + value.map_or(8, |value| 10 + value.len())) as u64);
        let window = window(region, used, length);
        let parting = Self::append_parting(region, used, kind, ns, key.len(), value.map(<[u8]>::len));
        let total = region.len() as u64;
        let file = self.lent(region);
        let before = file.get(window.start as u64, window.len());
        let answer = file.append(used, total as u32, kind.min(3) as u8, ns.min(255) as u8, key, value);
        let after = if file.length_now() == total { Some(file.get(window.start as u64, window.len())) } else { None };
        let start = window.start;
        self.give_back(region, window);
        let overflows = used.checked_add(length).is_none();
        if overflows {
            panicked(&answer, OVERFLOW)?;
        }
        let refused = |number| Said { number, bytes: before.clone(), ..Default::default() };
        if let Some((number, name)) = parting {
            if !overflows {
                note(&answer);
                let run = written(mark, kind.min(3) as u32, ns.min(255) as u32, key, value);
                writes_all_the_same(&answer, total, used, &run, &before, after.as_deref(), start)?;
            }
            return parted(refused(number), name);
        }
        if overflows {
            return parted(refused(13), "append: used count + length over 2^64 - 1 (overflows)");
        }
        let bytes = after.ok_or("append: the file's length changed")?;
        match answer {
            Ok((place, aligned)) if place == used && aligned == length => {
                same(Said { values: vec![place + aligned], bytes, ..Default::default() })
            }
            Ok(other) => Err(format!("append: place and length are {other:?}")),
            Err(failure) if bytes == before => same(refused(number_of(&failure)?)),
            Err(failure) => Err(format!("append: bytes were written, and the answer is {failure:?}")),
        }
    }

    // ---- walk and tail

    fn walk(&mut self, region: &Region, bound: u64, offset: u64) -> Judgement {
        if region.len() > MAX_REGION {
            if bound.saturating_sub(offset) < SHORT_WALK {
                goes_on(&self.look(region, |file| file.walk(bound, offset, &mut Buffer::default())))?;
            }
            return parted(Said::refused(3), "walk: region over 268,435,456 (walked)");
        }
        self.look(region, |file| {
            let total = region.len() as u64;
            if bound > total {
                walks_past(file, total, bound, offset)?;
                return parted(Said::refused(4), "walk: bound over the region (walked to its end)");
            }
            let said = walked(file, bound, offset, &mut Buffer::default())?;
            // Now and then the same with a buffer that an earlier walk left, further back or further on.
            if (bound ^ offset) & 3 == 0 && said.number == 0 {
                let mut left = Buffer::default();
                let _ = file.walk(bound, bound.saturating_sub(offset) / 2, &mut left);
                if walked(file, bound, offset, &mut left)? != said {
                    return Err("walk: the answer depends on what the read buffer holds".to_string());
                }
            }
            same(said)
        })
    }

    fn listing(&mut self, region: &Region, bound: u64) -> Judgement {
        if region.len() > MAX_REGION {
            return parted(Said::refused(3), "walk: region over 268,435,456 (walked)");
        }
        if bound > region.len() as u64 {
            return parted(Said::refused(4), "walk: bound over the region (walked to its end)");
        }
        self.look(region, |file| same(listed(file, bound)?))
    }

    fn used_bound(&mut self, region: &Region) -> Judgement {
        if region.len() > MAX_REGION {
            if !std::mem::replace(&mut self.large_bound_asked, true) {
                goes_on(&self.look(region, |file| file.used_bound(region.len() as u64)))?;
            }
            return parted(Said::refused(3), "used bound: region over 268,435,456 (answered)");
        }
        self.look(region, |file| match file.used_bound(region.len() as u64) {
            Ok(bound) => same(Said::values(&[bound])),
            Err(failure) => Err(format!("used bound: {failure:?}")),
        })
    }

    fn durable_end(&mut self, region: &Region, bound: u64) -> Judgement {
        if region.len() > MAX_REGION {
            if !std::mem::replace(&mut self.large_end_asked, true) {
                goes_on(&self.look(region, |file| file.durable_end(bound)))?;
            }
            return parted(Said::refused(3), "durable end: region over 268,435,456 (answered)");
        }
        self.look(region, |file| {
            let total = region.len() as u64;
            if bound > total {
                let answer = file.durable_end(bound);
                note(&answer);
                if answer != file.durable_end(total) {
                    return Err("durable end: a bound over the region answers otherwise than its end".to_string());
                }
                return parted(Said::refused(4), "durable end: bound over the region (walked to its end)");
            }
            // This one call is counted, and none of those that look for the place.
            let (answer, Effort { lines, bytes }) = original::counted(|| file.durable_end(bound));
            if lines > bound.div_ceil(16) || bytes > MOST_BYTES_A_LINE * lines {
                return Err(format!("durable end: over the most that it may take: {lines} lines, {bytes} bytes"));
            }
            match answer {
                Ok(end) => same(Said::values(&[end, lines, bytes])),
                Err(failure) => {
                    let number = number_of(&failure)?;
                    let place = least_line(0, bound, |bound| file.durable_end(bound).is_err());
                    same(Said { number, ..Said::values(&[place, lines, bytes]) })
                }
            }
        })
    }

    /// The original has no such call. The grid is made of its own answers: the used bound that it finds, and each entry
    /// that it lists up to there.
    fn count_entries(&mut self, region: &Region, lent: &[u8]) -> Judgement {
        let left = |said: Said| Said { bytes: lent.to_vec(), ..said };
        let total = region.len() as u64;
        if region.len() > MAX_REGION {
            if !std::mem::replace(&mut self.large_count_asked, true) {
                goes_on(&self.look(region, |file| {
                    let bound = file.used_bound(total)?;
                    file.walk(bound, 0, &mut Buffer::default())
                }))?;
            }
            return parted(left(Said::refused(3)), "count entries: region over 268,435,456 (walked)");
        }
        self.look(region, |file| {
            let bound = file.used_bound(total).map_err(|failure| format!("used bound: {failure:?}"))?;
            let said = listed(file, bound)?;
            match (said.number, &said.values[..]) {
                (0, values) => same(Said { bytes: grid_bytes(&counted(values)), ..Default::default() }),
                (number, &[.., place]) => same(left(Said { number, ..Said::values(&[place]) })),
                (number, []) => Err(format!("the listing ends with {number}, and tells no place")),
            }
        })
    }

    // ---- replay

    fn replay(&self, klen: u64, vlen: Option<u64>, maximum: u64) -> Judgement {
        let number = match () {
            () if klen > 4096 => 11,
            () if vlen.is_some_and(|vlen| vlen > 32768) => 12,
            () => 13,
        };
        let asked = [klen, vlen.unwrap_or(0)].map(|length| self.zeros.get(..length as usize));
        let (Ok(most), [Some(key), Some(value)]) = (u32::try_from(maximum), asked) else {
            let number = if maximum > MAX_REGION as u64 { 3 } else { number };
            return parted(Said::refused(number), "replay: numbers that the original can't be given");
        };
        let accepts = match vlen {
            Some(_) => original::accepts_data(key, value, most),
            None => original::accepts_tombstone(key, most),
        };
        if maximum > MAX_REGION as u64 {
            note(&if accepts { "accepted" } else { "refused" });
            if accepts != (klen <= 4096 && vlen.unwrap_or(0) <= 32_768) {
                return Err("replay: a configured maximum over 268,435,456 isn't taken".to_string());
            }
            return parted(Said::refused(3), "replay: configured maximum over 268,435,456 (taken)");
        }
        same(Said::refused(if accepts { 0 } else { number }))
    }
}

/// An entry as the original writes it whatever it is given: lengths wrap, and a namespace over 63 runs into the type's bits.
fn written(mark: u32, kind: u32, ns: u32, key: &[u8], value: Option<&[u8]>) -> Vec<u8> {
    let mut run = (mark | kind << 30 | ns << 24).to_le_bytes().to_vec();
    run.extend((key.len() as u16).to_le_bytes());
    if let Some(value) = value {
        run.extend((value.len() as u16).to_le_bytes());
        run.extend(value);
    }
    run.extend(key);
    let sum = crc16_ibm3740_fast::hash(&run) as u16;
    run.extend(sum.to_le_bytes());
    run.resize(up16(run.len() as u64) as usize, 0xff);
    run
}

/// Outside the domain the original writes `run` at the used count where it fits, and else asks for another file.
fn writes_all_the_same(
    answer: &Result<(u64, u64), Failure>,
    total: u64,
    used: u64,
    run: &[u8],
    before: &[u8],
    after: Option<&[u8]>,
    start: usize,
) -> Result<(), String> {
    let end = used + run.len() as u64;
    let mut right = before.to_vec();
    let fits = end <= total;
    if fits {
        right[used as usize - start..end as usize - start].copy_from_slice(run);
    }
    let answered = match answer {
        Ok((place, length)) => fits && *place == used && *length == run.len() as u64,
        Err(failure) => !fits && *failure == Failure::Rotate,
    };
    match after {
        Some(after) if answered && *after == right => Ok(()),
        _ => Err(format!("append outside the domain: {answer:?}, or other bytes than the list says")),
    }
}

/// The system reads nothing that would end past 2^63 - 1.
fn past_files(place: u64, count: u64) -> bool {
    count > 0 && u128::from(place) + HEADER as u128 + u128::from(count) > i64::MAX as u128
}

/// A read gives an entry or an error of the text's own, but where the system reads nothing.
fn reads_somehow(answer: &Result<Found, Failure>, place: u64, asked: u64) -> Result<(), String> {
    note(answer);
    match answer {
        Ok(_) => Ok(()),
        Err(Failure::System(ErrorKind::InvalidInput)) if past_files(place, asked) => Ok(()),
        Err(failure) => number_of(failure).map(|_| ()),
    }
}

fn read_at(file: &File, total: u64, place: u64, hint: u64) -> Judgement {
    let header = HEADER as u64;
    let overflows = place.checked_add(header).is_none();
    let unallocated = hint > isize::MAX as u64;
    // Every read is asked, also one outside the domain, with a hint that can be allocated or one that never can.
    let asked = if unallocated { hint } else { hint.min(LARGEST_HINT) };
    let answer = file.read_at(place, asked as usize);
    match () {
        () if overflows => panicked(&answer, OVERFLOW)?,
        () if unallocated => panicked(&answer, "capacity overflow")?,
        () => reads_somehow(&answer, place, asked)?,
    }
    match () {
        () if total > MAX_REGION as u64 => return parted(Said::refused(3), "read: region over 268,435,456 (read)"),
        () if place % 16 != 0 => return parted(Said::refused(5), "read: place off a line (read)"),
        () if overflows => return parted(Said::refused(6), "read: place over 2^64 - 4,097 (overflows)"),
        () => {}
    }
    if unallocated {
        let all = file.read_at(place, LARGEST_HINT as usize);
        let said = if past_files(place, LARGEST_HINT) { Said::refused(6) } else { read_said(file, all)? };
        return parted(said, "read: hint over 2^63 - 1 (capacity overflow)");
    }
    if past_files(place, asked) {
        return match answer {
            Err(Failure::System(ErrorKind::InvalidInput)) => {
                parted(Said::refused(6), "read: place + hint over what files have, 2^63 - 1 (the system's error)")
            }
            other => Err(format!("the system was to refuse the place, and the original gave {other:?}")),
        };
    }
    let said = read_said(file, answer)?;
    if said.values.get(1) == Some(&1) {
        return parted(said, UPDATE_READ);
    }
    same(said)
}

/// What the original reads, with the type that its word says. The original itself tells every entry as an insert, and is
/// held to that.
fn read_said(file: &File, answer: Result<Found, Failure>) -> Result<Said, String> {
    let found = match answer {
        Ok(found) => found,
        Err(failure) => return Ok(Said::refused(number_of(&failure)?)),
    };
    let written = file.get(found.offset, 4)[3] >> 6;
    if found.kind != 0 || written > 1 {
        return Err(format!("the original was to tell data as an insert, and told type {written} as {}", found.kind));
    }
    let found = Found { kind: written.into(), ..found };
    Ok(Said { values: entry_values(&found).to_vec(), bytes: entry_bytes(&found), ..Default::default() })
}

/// The original doesn't tell where it met type 3. It is the least line under whose bound it meets it.
fn least_line(offset: u64, bound: u64, mut meets: impl FnMut(u64) -> bool) -> u64 {
    let (mut low, mut high) = (up16(offset) / 16, (bound - 1) / 16);
    while low < high {
        let middle = (low + high) / 2;
        if meets(16 * middle + 1) {
            high = middle;
        } else {
            low = middle + 1;
        }
    }
    16 * low
}

fn walked(file: &mut File, bound: u64, offset: u64, buffer: &mut Buffer) -> Result<Said, String> {
    match file.walk(bound, offset, buffer) {
        Ok(None) => Ok(Said::values(&[0])),
        Ok(Some(found)) => {
            let mut values = vec![1];
            values.extend(entry_values(&found));
            Ok(Said { values, bytes: entry_bytes(&found), ..Default::default() })
        }
        Err(failure) => {
            let number = number_of(&failure)?;
            let meets = |bound| file.walk(bound, offset, &mut Buffer::default()).is_err();
            Ok(Said { number, values: vec![least_line(offset, bound, meets)], ..Default::default() })
        }
    }
}

/// The listing up to a bound, with the read buffer kept.
fn listed(file: &mut File, bound: u64) -> Result<Said, String> {
    let mut kept = Buffer::default();
    let mut wrong = None;
    let said = listing(|offset| {
        walked(file, bound, offset, &mut kept).unwrap_or_else(|why| {
            wrong = Some(why);
            Said::refused(901)
        })
    });
    wrong.map_or(Ok(said), Err)
}

/// A listing's entries, each counted by its type and namespace. An entry has nine values, and End one.
fn counted(listed: &[u64]) -> Grid {
    let mut grid = [[0; 64]; 3];
    for entry in listed.chunks_exact(9) {
        grid[entry[2] as usize][entry[3] as usize] += 1;
    }
    grid
}

/// A bound past the region's end is as good as its end to the original, but for offsets that no file has.
fn walks_past(file: &mut File, total: u64, bound: u64, offset: u64) -> Result<(), String> {
    let answer = file.walk(bound, offset, &mut Buffer::default());
    note(&answer);
    if offset >= bound {
        return if answer == Ok(None) { Ok(()) } else { Err(format!("no End at the bound: {answer:?}")) };
    }
    let Some(line) = offset.checked_next_multiple_of(16) else { return panicked(&answer, OVERFLOW) };
    match line.checked_add(HEADER as u64) {
        _ if line >= bound && answer == Ok(None) => Ok(()),
        None => panicked(&answer, OVERFLOW),
        Some(_) if past_files(line, READ_BUFFER) && matches!(answer, Err(Failure::System(_))) => Ok(()),
        _ if answer == file.walk(total, offset, &mut Buffer::default()) => Ok(()),
        _ => Err(format!("a bound over the region answers otherwise than its end: {answer:?}")),
    }
}

fn part(region: &Region, at: u64, len: u64) -> Judgement {
    let Region::Dense(bytes) = region else { return Err("parts are of small regions".to_string()) };
    let end = at.checked_add(len).filter(|&end| end <= bytes.len() as u64);
    match end {
        Some(end) => {
            let bytes = bytes[at as usize..end as usize].to_vec();
            same(Said { values: vec![at, len], bytes, ..Default::default() })
        }
        None => {
            note(&"a slice of the original's buffer would panic");
            parted(Said::values(&[0, 0]), crate::table::PART)
        }
    }
}

fn start_file(ordinals: &[u64], cursor: u64) -> Judgement {
    let chosen = original::start_file(ordinals, cursor);
    note(&chosen);
    let mut places: Vec<usize> = (0..ordinals.len()).collect();
    places.sort_by_key(|&place| ordinals[place]);
    let parting = if ordinals.len() > 64 {
        Some((18, "start file: over 64 ordinals (chosen)"))
    } else if places.windows(2).any(|two| ordinals[two[0]] == ordinals[two[1]]) {
        Some((22, "start file: two equal ordinals (chosen)"))
    } else {
        None
    };
    let Some((number, name)) = parting else {
        return same(chosen.map_or(Said::values(&[0]), |place| Said::values(&[1, place as u64])));
    };
    let first = places.iter().find(|&&place| ordinals[place] >= cursor).or(places.last());
    if chosen.as_ref() != first {
        return Err(format!("start file: of a list that is refused {chosen:?} is chosen"));
    }
    parted(Said::refused(number), name)
}

// ---- tracker

impl Judge {
    fn track(&mut self, state: &State, step: &Step) -> Judgement {
        let refused = |number| Said { number, state: Some(Box::new(state.clone())), ..Default::default() };
        if !fits(state) {
            return parted(refused(28), "tracker: value not sound (no counterpart)");
        }
        // In a trace the tracker is as the last call left it, and isn't touched.
        if self.tracker.state() != *state {
            self.tracker.set_state(state);
        }
        let outside = tracker_parting(state, step);
        let answer = self.step(state, step, outside.is_some());
        let falls = (!ascends(state)).then_some((28, "tracker: a queue that doesn't ascend (taken as it stands)"));
        if let Some((number, name)) = falls.or(outside) {
            let left = self.tracker.state();
            self.tracker.set_state(state);
            takes_a_number(state, step, &left)?;
            // Where the answer is the empty one, its own words are noted already.
            if answer? != Said::default() {
                note(&format!(
                    "goes on, next number {}, waiting {:?}",
                    left.next,
                    left.queues.iter().find(|queue| !queue.is_empty())
                ));
            }
            let stale = Said { values: vec![0], state: Some(Box::new(state.clone())), ..Default::default() };
            return parted(if number == 0 { stale } else { refused(number) }, name);
        }
        let said = answer?;
        if said.number != 0 && self.tracker.state() != *state {
            return Err("tracker: refused, and the state changed".to_string());
        }
        match goes_in(state, step) {
            Some((shard, item)) => self.in_order(state, shard, item, said),
            None => same(Said { state: Some(Box::new(self.tracker.state())), ..said }),
        }
    }

    /// A delta that is completed beside larger numbers: the original puts it at the back. Its queue sorted by number, where
    /// equals keep their order, is the right one.
    fn in_order(&self, state: &State, shard: usize, item: (u64, i64), said: Said) -> Judgement {
        let mut left = self.tracker.state();
        let queue = &mut left.queues[shard];
        note(&format!("waiting {queue:?}"));
        if *queue != [&state.queues[shard][..], &[item]].concat() {
            return Err(format!("complete: not at the back, but {queue:?}"));
        }
        queue.sort_by_key(|&(number, _)| number);
        parted(Said { state: Some(Box::new(left)), ..said }, JOINS_BACK)
    }

    /// The original's answer. Outside the domain only what the list says it does is looked at.
    fn step(&mut self, state: &State, step: &Step, outside: bool) -> Result<Said, String> {
        let shown = |failure| format!("tracker: {failure:?}");
        match *step {
            Step::Reserve { shard, ordinal, used, capacity, sealed, length } => {
                let capacity = capacity.min(u32::MAX.into()) as u32;
                let answer =
                    self.tracker.reserve(&mut self.small, shard as usize, ordinal, used, capacity, sealed, length);
                if outside {
                    let now = self.small.used_now();
                    return reserve_outside(&answer, shard, used, capacity, sealed, length, now)
                        .map(|()| Said::default());
                }
                match answer {
                    Ok((number, place, now)) if now == place + length => Ok(Said::values(&[number, place])),
                    Ok(other) => Err(format!("reserve: {other:?}")),
                    Err(failure) => Ok(Said::refused(number_of(&failure)?)),
                }
            }
            Step::Complete { shard, number, delta } => {
                let answer = self.tracker.complete(shard as usize, number, delta);
                self.finished(state, shard, number, delta, answer)
            }
            Step::Abandon { shard, number } => {
                let answer = self.tracker.abandon(shard as usize, number);
                self.finished(state, shard, number, 0, answer)
            }
            Step::Record { shard, delta } => {
                let answer = self.tracker.record(shard as usize, delta);
                if shard > 15 {
                    panicked(&answer, "index out of bounds")?;
                    return Ok(Said::default());
                }
                answer.map_err(shown)?;
                let queue = &self.tracker.state().queues[shard as usize];
                let joined = queue.last() == Some(&(state.next, delta.into()));
                if joined {
                    Ok(Said::values(&[state.next]))
                } else {
                    Err("record: no delta at the back".to_string())
                }
            }
            Step::Checkpoint { ordinal, used } => {
                let (ordinal, offset, sum, limit, pending) =
                    self.tracker.checkpoint(&mut self.small, ordinal, used).map_err(shown)?;
                Ok(Said::values(&[ordinal, offset, sum as u64, limit, pending.into()]))
            }
            Step::Drain { limit } => Ok(Said::values(&[self.tracker.drain(limit).map_err(shown)? as u64])),
            Step::Clear => self.tracker.clear().map(|()| Said::default()).map_err(shown),
        }
    }

    /// The original doesn't tell Done from Stale: Done is a slot that had the number and has it no more.
    fn finished(
        &self,
        state: &State,
        shard: u64,
        number: u64,
        delta: i8,
        answer: Result<(), Failure>,
    ) -> Result<Said, String> {
        if shard > 15 {
            return panicked(&answer, "index out of bounds").map(|()| Said::default());
        }
        answer.map_err(|failure| format!("tracker: {failure:?}"))?;
        let after = self.tracker.state();
        if number == 0 && state.slots[shard as usize].number == 0 {
            let mut queue = state.queues[shard as usize].clone();
            queue.extend((delta != 0).then_some((0, delta.into())));
            let queued = after.queues[shard as usize] == queue;
            return if queued { Ok(Said::values(&[0])) } else { Err("complete: number 0 on an idle slot".to_string()) };
        }
        let held = state.slots[shard as usize].number == number;
        let idle = after.slots[shard as usize].number == 0;
        Ok(Said::values(&[u64::from(held && idle)]))
    }
}

/// Outside the domain too a record takes the next number, and so does a reserve that finds space, even on a shard that isn't
/// there; after 2^64 - 1 comes 0.
fn takes_a_number(state: &State, step: &Step, left: &State) -> Result<(), String> {
    let takes = match *step {
        Step::Record { .. } => true,
        Step::Reserve { used, capacity, sealed, length, .. } => {
            !sealed && used.checked_add(length).is_some_and(|end| end <= capacity.min(u32::MAX.into()))
        }
        _ => false,
    };
    let next = if takes { state.next.wrapping_add(1) } else { state.next };
    if left.next == next {
        Ok(())
    } else {
        Err(format!("tracker outside the domain: the next number is {}", left.next))
    }
}

/// The shard where a delta is completed beside a larger number, and what goes in.
fn goes_in(state: &State, step: &Step) -> Option<(usize, (u64, i64))> {
    let Step::Complete { shard, number, delta } = *step else { return None };
    let shard = shard as usize;
    let held = state.slots[shard].number == number && number != 0 && delta != 0;
    let larger = state.queues[shard].iter().any(|&(waiting, _)| waiting > number);
    (held && larger).then_some((shard, (number, delta.into())))
}

/// The refusals that the original doesn't have, and the one parting that is Stale here (0).
fn tracker_parting(state: &State, step: &Step) -> Option<(u32, &'static str)> {
    let shard = match *step {
        Step::Reserve { shard, .. }
        | Step::Complete { shard, .. }
        | Step::Abandon { shard, .. }
        | Step::Record { shard, .. } => shard,
        _ => return None,
    };
    if shard > 15 {
        return Some((14, "tracker: shard over 15 (index out of bounds)"));
    }
    let open = state.slots[shard as usize].number != 0;
    let waiting = state.queues[shard as usize].len();
    match *step {
        Step::Reserve { used, capacity, sealed, length, .. } => match () {
            () if state.next == u64::MAX => Some((16, "reserve: numbers used up (run over to 0)")),
            () if waiting == 32 => Some((15, "reserve: no waiting room (reserved)")),
            () if used % 16 != 0 || length % 16 != 0 => Some((5, "reserve: off a line (reserved)")),
            () if length == 0 => Some((5, "reserve: length 0 (reserved)")),
            () if capacity > MAX_REGION as u64 => Some((3, "reserve: capacity over 268,435,456 (taken)")),
            () if !sealed && used.checked_add(length).is_none() => {
                Some((13, "reserve: used count + length over 2^64 - 1 (overflows)"))
            }
            () => None,
        },
        Step::Record { .. } => match () {
            () if state.next == u64::MAX => Some((16, "record: numbers used up (run over to 0)")),
            () if waiting + usize::from(open) >= 32 => Some((15, "record: no waiting room (a 33rd is taken)")),
            () => None,
        },
        Step::Complete { number: 0, delta, .. } if !open && delta != 0 => {
            Some((0, "complete: number 0 on an idle slot (queues the delta)"))
        }
        _ => None,
    }
}

/// What a reserve outside the domain does: sealed and full files come first, then the sum overflows, then space is taken
/// and the shard looked up.
fn reserve_outside(
    answer: &Result<(u64, u64, u64), Failure>,
    shard: u64,
    used: u64,
    capacity: u32,
    sealed: bool,
    length: u64,
    now: u64,
) -> Result<(), String> {
    note(answer);
    let rotates = matches!(answer, Err(Failure::Rotate));
    match used.checked_add(length) {
        _ if sealed && rotates => Ok(()),
        None => panicked(answer, OVERFLOW),
        Some(end) if end > capacity.into() && rotates => Ok(()),
        Some(end) if shard > 15 && now == end => panicked(answer, "index out of bounds"),
        Some(end) if answer.as_ref().is_ok_and(|&(_, place, now)| place == used && now == end) => Ok(()),
        _ => Err(format!("reserve outside the domain: {answer:?}")),
    }
}
