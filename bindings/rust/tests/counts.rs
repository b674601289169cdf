//! How many entries of each type stand in each namespace, document 02's request 9, by examples worked out by hand and by
//! the listing.

mod cards;

use cards::{hostile, put_start, sample, FILES};
use locker_log::{append_data, append_tombstone, Counts, Header, Kind, Refusal, Region, WalkError, KINDS, NAMESPACES};

const ALL: [Kind; KINDS] = [Kind::Insert, Kind::Update, Kind::Tombstone];

fn counted(bytes: &[u8], file: Header) -> Result<Counts, WalkError> {
    Region::new(bytes, file).count_entries()
}

/// The rows of these bytes, held to the entries that the listing up to the used bound has, one by one.
fn rows(bytes: &[u8], file: Header) -> [[u32; NAMESPACES]; KINDS] {
    let region = Region::new(bytes, file);
    let mut rows = [[0; NAMESPACES]; KINDS];
    for entry in region.listing(region.used_bound().unwrap()) {
        let entry = entry.unwrap();
        let row = ALL.iter().position(|kind| *kind == entry.kind()).unwrap();
        rows[row][entry.namespace() as usize] += 1;
    }
    let counts = region.count_entries().unwrap();
    assert_eq!(*counts.rows(), rows);
    assert_eq!(counts.total(), region.listing(bytes.len()).count() as u32);
    rows
}

/// Appends an entry of this type, which takes one line, and answers the new used count.
fn append(bytes: &mut [u8], file: Header, used: usize, kind: Kind, namespace: u64) -> usize {
    match kind {
        Kind::Tombstone => append_tombstone(bytes, file, used, namespace, b"key"),
        _ => append_data(bytes, file, used, kind, namespace, b"key", b"v"),
    }
    .unwrap()
}

#[test]
fn the_sample_of_every_length() {
    for file in FILES {
        let bytes = sample(file);
        for length in 0..=64 {
            let mut wanted = [[0; NAMESPACES]; KINDS];
            for (row, end) in [13, 30, 42].into_iter().enumerate() {
                wanted[row][1] = (length >= end).into();
            }
            assert_eq!(rows(&bytes[..length], file), wanted, "length {length}");
        }
    }
}

#[test]
fn every_cell() {
    for file in FILES {
        // another number of entries in each cell
        let cells: Vec<_> = ALL.into_iter().flat_map(|kind| (0..64).map(move |namespace| (kind, namespace))).collect();
        let mut bytes = vec![0; 16 * 192 * 193 / 2];
        let mut used = 0;
        for (place, (kind, namespace)) in cells.iter().enumerate() {
            for _ in 0..=place {
                used = append(&mut bytes, file, used, *kind, *namespace);
            }
        }
        let counts = counted(&bytes, file).unwrap();
        for (place, (kind, namespace)) in cells.iter().enumerate() {
            assert_eq!(counts.of(*kind, *namespace), place as u32 + 1);
            assert_eq!(counts.row(*kind)[*namespace as usize], place as u32 + 1);
        }
        assert_eq!((used, counts.total()), (bytes.len(), 192 * 193 / 2));
        assert_eq!(rows(&bytes, file), *counts.rows());
        for namespace in [64, 255, 256, 1 << 32, u64::MAX] {
            assert!(ALL.iter().all(|kind| counts.of(*kind, namespace) == 0), "no namespace {namespace}");
        }
        // an entry alone
        for (kind, namespace) in cells {
            let mut line = [0; 16];
            append(&mut line, file, 0, kind, namespace);
            let counts = counted(&line, file).unwrap();
            assert_eq!((counts.of(kind, namespace), counts.total()), (1, 1));
        }
    }
}

#[test]
fn nothing_to_count() {
    for file in FILES {
        for length in 0..=64 {
            assert_eq!(rows(&[0; 64][..length], file), [[0; NAMESPACES]; KINDS]);
        }
        assert_eq!(rows(&hostile::<4096>(file), file), [[0; NAMESPACES]; KINDS]);
    }
}

#[test]
fn type_3_before_between_and_behind() {
    for file in FILES {
        for line in [0, 16, 32, 48] {
            let mut bytes = sample(file);
            put_start(&mut bytes, file, line, 0, 0);
            bytes[line + 3] = 0xc0;
            assert_eq!(counted(&bytes, file), Err(WalkError::UnknownAt(line)));
            assert_eq!(counted(&bytes[..line + 8], file), Err(WalkError::UnknownAt(line)));
            // a byte too few for a line
            assert_eq!(counted(&bytes[..line + 7], file).unwrap().total(), line as u32 / 16);
        }
    }
}

#[test]
fn entries_within_an_entry() {
    for file in FILES {
        // as an entry's value, from offset 8 on: the lines 16 and 32 of a region in which they are entries, and 48 of type 3
        let mut inner = [0; 80];
        append(&mut inner, file, 16, Kind::Tombstone, 2);
        append(&mut inner, file, 32, Kind::Update, 3);
        put_start(&mut inner, file, 48, 0, 0);
        inner[51] = 0xc0;
        let mut bytes = [0; 96];
        assert_eq!(append_data(&mut bytes, file, 0, Kind::Insert, 63, b"", &inner[8..70]), Ok(80));
        assert_eq!(rows(&bytes, file)[0][63], 1);
        assert_eq!(counted(&bytes, file).unwrap().total(), 1);
        // it doesn't verify any more, so the lines in it are tried
        bytes[70] ^= 1;
        assert_eq!(counted(&bytes, file), Err(WalkError::UnknownAt(48)));
        bytes[48] ^= 1;
        let counts = counted(&bytes, file).unwrap();
        assert_eq!((counts.of(Kind::Tombstone, 2), counts.of(Kind::Update, 3), counts.total()), (1, 1, 2));
    }
}

#[test]
fn a_card_that_is_used_again() {
    let [_, old, _] = FILES;
    let new = Header { version: 2, ordinal: 8 };
    let mut bytes = sample(old);
    assert_eq!(counted(&bytes, new).unwrap().total(), 0);
    append(&mut bytes, new, 0, Kind::Update, 1);
    let (before, after) = (rows(&bytes, old), rows(&bytes, new));
    assert_eq!([before[0][1], before[1][1], before[2][1]], [0, 1, 1]);
    assert_eq!([after[0][1], after[1][1], after[2][1]], [0, 1, 0]);
    // a region erased to 0xff: type 3 where the mark is 0xffffff
    let erased = [0xff; 64];
    for (ordinal, place) in [(0xa5_e83f, 0), (0xa5_e83c, 48)] {
        assert_eq!(counted(&erased, Header { version: 2, ordinal }), Err(WalkError::UnknownAt(place)));
        assert_eq!(counted(&erased, Header { version: 1, ordinal }).unwrap().total(), 0);
    }
}

#[test]
fn refusals_in_their_order() {
    for file in FILES {
        // one byte too many, with type 3 in its first line
        let mut bytes = vec![0; 268_435_457];
        put_start(&mut bytes, file, 0, 0, 0);
        bytes[3] = 0xc0;
        let neither = Header { version: 3, ordinal: file.ordinal };
        assert_eq!(counted(&bytes, neither), Err(WalkError::Refused(Refusal::WrongHeader)));
        assert_eq!(counted(&bytes, file), Err(WalkError::Refused(Refusal::RegionTooLarge)));
        assert_eq!(counted(&bytes[..268_435_456], file), Err(WalkError::UnknownAt(0)));
    }
}
