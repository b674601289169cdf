//! Both versions of a file: its marks, what a card that is used again still shows, and versions that are neither.

mod cards;

use cards::sample;
use locker_log::{
    append_data, append_tombstone, read_header, write_header, DurableEnd, Effort, EndError, Header, Kind, Refusal,
    Region, WalkError, HEADER_LENGTH,
};

/// Neither version, though some are if they are cut to one, two or four bytes.
const NEITHER: [u64; 8] = [0, 3, 0x101, 0x10002, 1 << 32, (1 << 32) + 1, (1 << 32) + 2, u64::MAX];

fn v1(ordinal: u64) -> Header {
    Header { version: 1, ordinal }
}

fn v2(ordinal: u64) -> Header {
    Header { version: 2, ordinal }
}

/// A durable end, after so many lines and bytes.
fn ends(end: usize, lines: u64, bytes: u64) -> Result<DurableEnd, EndError> {
    Ok(DurableEnd { end, effort: Effort { lines, bytes } })
}

/// The offsets that the listing has if the region is read as this file's.
fn offsets(bytes: &[u8], file: Header) -> Vec<usize> {
    Region::new(bytes, file).listing(bytes.len()).map(|entry| entry.unwrap().offset()).collect()
}

#[test]
fn headers_of_both_versions() {
    for file in [v1(0), v1(u64::MAX), v2(0), v2(u64::MAX), v2(0x0102_0304_0506_0708)] {
        let mut lent = [0xeeu8; HEADER_LENGTH + 1];
        write_header(&mut lent, file).unwrap();
        assert_eq!(&lent[..8], b"LOCKDAT1");
        assert_eq!(lent[8..16], file.version.to_le_bytes());
        assert_eq!(lent[16..24], file.ordinal.to_le_bytes());
        assert_eq!(lent[HEADER_LENGTH], 0xee);
        assert_eq!(read_header(&lent), Ok(file));
    }
}

#[test]
fn marks_of_both_versions() {
    let marks = [
        (v1(0), 0x5a_17c0),
        (v1(7), 0x5a_17c0),
        (v1(u64::MAX), 0x5a_17c0),
        (v2(0), 0x5a_17c0),
        (v2(1), 0x5a_17c1),
        (v2(7), 0x5a_17c7),
        (v2((1 << 24) - 1), 0x5a_17bf),
        (v2(1 << 24), 0x5a_17c0),
        (v2((1 << 24) + 7), 0x5a_17c7),
        (v2(0xa5_e83f), 0xff_ffff),
        (v2(0xa5_e840), 0),
        (v2(u64::MAX), 0x5a_17bf),
    ];
    for (file, first) in marks {
        let bytes = sample(file);
        for line in 0..3u32 {
            let mark = (first + line) % (1 << 24);
            let at = 16 * line as usize;
            assert_eq!(bytes[at..at + 3], mark.to_le_bytes()[..3], "{file:?}, offset {at}");
        }
        assert_eq!(offsets(&bytes, file), [0, 16, 32]);
    }
    assert_eq!(sample(v1(5)), sample(v2(1 << 24)));
}

#[test]
fn a_card_that_is_used_again() {
    let old = sample(v2(7));
    for same in [v2((1 << 24) + 7), v2(u64::MAX - 0xff_fff8)] {
        assert_eq!(offsets(&old, same), [0, 16, 32], "{same:?} has the same marks");
    }
    for other in [v2(6), v2(8), v2(0), v2((1 << 24) + 8), v2(u64::MAX), v1(7), v1((1 << 24) + 7)] {
        let region = Region::new(&old, other);
        assert!(offsets(&old, other).is_empty(), "{other:?}");
        assert_eq!(region.durable_end(64), ends(0, 4, 0));
        for place in [0, 16, 32] {
            assert_eq!(region.read_at(place, 64).unwrap_err(), Refusal::WrongMark);
        }
        // the later file's first entry alone is listed, and each file's walk goes past the other's entries
        let mut bytes = old;
        append_data(&mut bytes, other, 0, Kind::Insert, 2, b"B2", b"5").unwrap();
        assert_eq!(offsets(&bytes, other), [0]);
        assert_eq!(Region::new(&bytes, other).durable_end(64), ends(16, 4, 11));
        assert_eq!(offsets(&bytes, v2(7)), [16, 32]);
    }
    // what version 2 is for: in version 1 the old entries come back behind the new one
    let mut bytes = sample(v1(7));
    append_data(&mut bytes, v1(8), 0, Kind::Insert, 2, b"B2", b"5").unwrap();
    assert_eq!(offsets(&bytes, v1(8)), [0, 16, 32]);
}

#[test]
fn neither_version_is_refused_before_all_else() {
    let header = [0xeeu8; HEADER_LENGTH];
    for version in NEITHER {
        let file = Header { version, ordinal: 7 };
        let mut lent = header;
        assert_eq!(write_header(&mut lent, file), Err(Refusal::WrongHeader));
        assert_eq!(write_header(&mut lent[1..], file), Err(Refusal::HeaderTooShort));
        assert_eq!(lent, header);
        let mut bytes = sample(v1(7));
        let before = bytes;
        for (used, kind, namespace) in [(48, Kind::Insert, 1), (1, Kind::Tombstone, 64)] {
            let answer = append_data(&mut bytes, file, used, kind, namespace, b"A7", b"9");
            assert_eq!(answer, Err(Refusal::WrongHeader));
            assert_eq!(append_tombstone(&mut bytes, file, used, namespace, b"A7"), Err(Refusal::WrongHeader));
        }
        assert_eq!(bytes, before);
        let region = Region::new(&bytes, file);
        for bound in [48, 65] {
            assert_eq!(region.walk(bound, 0).unwrap_err(), WalkError::Refused(Refusal::WrongHeader));
            assert_eq!(region.durable_end(bound), Err(EndError::Refused(Refusal::WrongHeader)));
        }
        for place in [0, 1] {
            assert_eq!(region.read_at(place, 64).unwrap_err(), Refusal::WrongHeader);
        }
        assert_eq!(region.count_entries(), Err(WalkError::Refused(Refusal::WrongHeader)));
        assert_eq!(region.used_bound(), Ok(48), "it needs no mark");
        let mut listing = region.listing(48);
        assert_eq!(listing.next().unwrap().unwrap_err(), WalkError::Refused(Refusal::WrongHeader));
        assert!(listing.next().is_none());
    }
    let mut lent = header;
    for version in [0u32, 3, 0x101, 0x0100_0002, u32::MAX] {
        write_header(&mut lent, v2(7)).unwrap();
        lent[8..12].copy_from_slice(&version.to_le_bytes());
        assert_eq!(read_header(&lent), Err(Refusal::WrongHeader));
        assert_eq!(read_header(&lent[..HEADER_LENGTH - 1]), Err(Refusal::HeaderTooShort));
    }
}

#[test]
fn a_region_erased_to_ff() {
    let erased = [0xffu8; 64];
    for (file, unknown) in [
        (v2(0xa5_e83f), Some(0)),
        (v2((1 << 24) + 0xa5_e83f), Some(0)),
        (v2(0xa5_e83e), Some(16)),
        (v2(0xa5_e840), None),
        (v1(0xa5_e83f), None),
    ] {
        let region = Region::new(&erased, file);
        assert_eq!(region.used_bound(), Ok(64));
        let refused = |place| EndError::UnknownAt { place, effort: Effort { lines: place as u64 / 16 + 1, bytes: 0 } };
        let end = unknown.map_or(ends(0, 4, 0), |place| Err(refused(place)));
        assert_eq!(region.durable_end(64), end, "{file:?}");
        let found = unknown.map_or(Ok(None), |place| Err(WalkError::UnknownAt(place)));
        assert_eq!(region.walk(64, 0).map(|entry| entry.map(|e| e.offset())), found, "{file:?}");
    }
}
