//! What the text takes from `internal.rs`: document 01's values where it has them, else the commit's, and the commit's own
//! functions and structs, cut out of its text by `build.rs`.
use std::{
    cell::Cell,
    fs::File,
    path::{Path, PathBuf},
};

use crate::types::{Error, Result};

// Document 01, "Values the text names".
pub const FILE_OFFSET_ALIGNMENT: u64 = 16;
pub const DATA_ENTRY_OFFSET_MASK: u32 = (1 << 24) - 1;
pub const KEY_NAMESPACE_BITS: u8 = 6;
pub const MAX_KEY_NAMESPACE: u8 = 63;
pub const DATA_FILE_SIGNATURE: &[u8; 8] = &[0x4c, 0x4f, 0x43, 0x4b, 0x44, 0x41, 0x54, 0x31];
pub const DATA_FILE_VERSION: u32 = 1;

// Document 01 doesn't name these: the commit's.
pub const PAGE_SIZE: usize = 4096;
pub const READ_BUFFER_SIZE: usize = 128 * 1024;
pub const SIZE_HINT_UNIT: usize = 512;

/// Document 01: a mark is the line's number and this, modulo 2^24.
const ADDED: u64 = 0x5a_17c0;

thread_local! {
    /// What is added in the file that is asked about.
    static ADDED_HERE: Cell<u64> = const { Cell::new(ADDED) };
    /// How many marks were asked for.
    static MARKS_ASKED: Cell<u64> = const { Cell::new(0) };
}

/// The marks of the calls from here on: document 01's, and for version 2 those of document 02's request 10, which adds
/// the ordinal too. The text only asks for the mark at an offset, so all of it runs under either.
pub fn under(version: u64, ordinal: u64) {
    ADDED_HERE.set(ADDED + if version == 2 { ordinal % (1 << 24) } else { 0 });
}

/// How many marks were asked for on this thread since this was asked last.
pub fn take_marks_asked() -> u64 {
    MARKS_ASKED.take()
}

/// Document 01: the mark at offset p is (p/16 + 0x5A17C0) mod 2^24. The text's walk asks for it once for each line whose
/// mark it compares.
pub fn entry_magic_offset(file_offset: u64) -> u32 {
    let mut added = ADDED;
    if cfg!(feature = "versions") {
        MARKS_ASKED.set(MARKS_ASKED.get() + 1);
        added = ADDED_HERE.get();
    }
    (((file_offset / FILE_OFFSET_ALIGNMENT) + added) % (1 << 24)) as u32
}

/// Document 01 numbers namespaces from 0 to 63 and names none. The text only casts them.
pub type KeyNamespace = u8;

/// The text's `indexed_live_bytes` takes these. It is left out, so there are none.
pub enum EntryPointer {}

impl EntryPointer {
    pub fn file_offset(&self) -> u64 {
        match *self {}
    }

    pub fn size_hint(&self) -> usize {
        match *self {}
    }
}

include!(concat!(env!("OUT_DIR"), "/internal_cut.rs"));
