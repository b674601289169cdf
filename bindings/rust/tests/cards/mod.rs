//! Files of both versions and what stands in them, for several test files, not each of which takes all of it.
#![allow(dead_code)]

use locker_log::{append_data, append_tombstone, Header, Kind};

/// Files of both versions.
pub const FILES: [Header; 3] = [
    Header { version: 1, ordinal: u64::MAX },
    Header { version: 2, ordinal: 7 },
    Header { version: 2, ordinal: u64::MAX },
];

/// Document 01's sample in a file with this header, insert `9`, update `10` and a tombstone of A7 in namespace 1, and a
/// line of zeros behind it: entries of 13, 14 and 10 bytes.
pub fn sample(file: Header) -> [u8; 64] {
    let mut bytes = [0u8; 64];
    let used = append_data(&mut bytes, file, 0, Kind::Insert, 1, b"A7", b"9").unwrap();
    let used = append_data(&mut bytes, file, used, Kind::Update, 1, b"A7", b"10").unwrap();
    assert_eq!(append_tombstone(&mut bytes, file, used, 1, b"A7"), Ok(48));
    bytes
}

/// Puts the first eight bytes of a data entry at a line, with the right mark and any lengths.
pub fn put_start(bytes: &mut [u8], file: Header, line: usize, klen: u16, vlen: u16) {
    let added = if file.version == 2 { file.ordinal % (1 << 24) } else { 0 };
    let word = ((line / 16 + 0x5a_17c0) as u64 + added) % (1 << 24);
    bytes[line..line + 4].copy_from_slice(&(word as u32).to_le_bytes());
    bytes[line + 4..line + 6].copy_from_slice(&klen.to_le_bytes());
    bytes[line + 6..line + 8].copy_from_slice(&vlen.to_le_bytes());
}

/// A region whose every line has its mark and an entry that reaches to the end, and of which no checksum agrees.
pub fn hostile<const LENGTH: usize>(file: Header) -> [u8; LENGTH] {
    let mut bytes = [0x5a; LENGTH];
    for line in (0..LENGTH).step_by(16) {
        put_start(&mut bytes, file, line, (LENGTH - line - 10) as u16, 0);
    }
    bytes
}
