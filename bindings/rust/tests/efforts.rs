//! What a durable end took, document 02's request 8: lines tried and bytes checksummed, by examples worked out by hand.

mod cards;

use cards::{hostile, put_start, sample, FILES};
use locker_log::{append_data, hash, DurableEnd, EndError, Header, Kind, Region};

/// The most bytes that one line adds: those of an entry whose key and value have 65,535 bytes each, without its checksum.
const MOST: u64 = 131_078;

/// The end, or the place of a line of type 3, and with both the lines and the bytes, which keep the request's bounds.
fn told(bytes: &[u8], file: Header, bound: usize) -> (Result<usize, usize>, u64, u64) {
    let (at, effort) = match Region::new(bytes, file).durable_end(bound) {
        Ok(DurableEnd { end, effort }) => (Ok(end), effort),
        Err(EndError::UnknownAt { place, effort }) => (Err(place), effort),
        Err(EndError::Refused(refusal)) => panic!("{refusal}"),
    };
    assert!(effort.lines <= bound.div_ceil(16) as u64);
    assert!(effort.bytes <= MOST * effort.lines);
    (at, effort.lines, effort.bytes)
}

#[test]
fn the_sample_under_every_bound() {
    for file in FILES {
        let bytes = sample(file);
        for bound in 0..=64usize {
            let lines = bound.div_ceil(16);
            let added = [0, 11, 11 + 12, 11 + 12 + 8, 11 + 12 + 8][lines];
            assert_eq!(told(&bytes, file, bound), (Ok((16 * lines).min(48)), lines as u64, added), "bound {bound}");
        }
        assert_eq!(told(&bytes[..48], file, 48), (Ok(48), 3, 31));
    }
}

#[test]
fn zeros_of_every_length() {
    for file in FILES {
        for length in 0..=64 {
            for bound in 0..=length {
                let lines = (0..bound).step_by(16).filter(|line| length - line >= 8).count();
                assert_eq!(told(&[0; 64][..length], file, bound), (Ok(0), lines as u64, 0), "{length}, {bound}");
            }
        }
    }
}

#[test]
fn an_entry_adds_if_it_lies_within_the_region() {
    for file in FILES {
        let bytes = sample(file);
        assert_eq!(told(&bytes[..13], file, 13), (Ok(16), 1, 11));
        assert_eq!(told(&bytes[..13], file, 1), (Ok(16), 1, 11));
        assert_eq!(told(&bytes[..12], file, 12), (Ok(0), 1, 0));
        assert_eq!(told(&bytes[..8], file, 8), (Ok(0), 1, 0));
        assert_eq!(told(&bytes[..7], file, 7), (Ok(0), 0, 0));
        assert_eq!(told(&bytes[..42], file, 42), (Ok(48), 3, 31));
        assert_eq!(told(&bytes[..41], file, 41), (Ok(32), 3, 23));
        assert_eq!(told(&bytes[..40], file, 40), (Ok(32), 3, 23));
        assert_eq!(told(&bytes[..39], file, 39), (Ok(32), 2, 23));
    }
}

#[test]
fn damage_to_the_second_entry() {
    for file in FILES {
        let changed = |at: usize, byte: u8| {
            let mut bytes = sample(file);
            bytes[at] = byte;
            told(&bytes, file, 64)
        };
        let mark = sample(file)[16];
        assert_eq!(changed(16, !mark), (Ok(48), 4, 11 + 8), "a wrong mark");
        assert_eq!(changed(24, b'2'), (Ok(48), 4, 11 + 12 + 8), "a wrong checksum");
        assert_eq!(changed(20, 36), (Ok(48), 4, 11 + 46 + 8), "a key that reaches to the region's end");
        assert_eq!(changed(20, 37), (Ok(48), 4, 11 + 8), "a key that reaches a byte past it");
        assert_eq!(changed(19, 0xc1), (Err(16), 2, 11), "type 3");
        assert_eq!(changed(3, 0xc1), (Err(0), 1, 0), "type 3 of the first");
        assert_eq!(changed(35, 0xc1), (Err(32), 3, 11 + 12), "type 3 of the third");
    }
}

#[test]
fn a_verified_entrys_own_lines_are_passed_over() {
    for file in FILES {
        let mut bytes = [0u8; 96];
        assert_eq!(append_data(&mut bytes, file, 0, Kind::Insert, 63, &[b'k'; 20], &[b'v'; 40]), Ok(80));
        assert_eq!(told(&bytes, file, 96), (Ok(80), 2, 68));
        assert_eq!(told(&bytes, file, 80), (Ok(80), 1, 68));
        bytes[8] ^= 1;
        assert_eq!(told(&bytes, file, 96), (Ok(0), 6, 68));
    }
}

#[test]
fn the_most_that_a_line_adds() {
    for file in FILES {
        let mut bytes = vec![0u8; 131_080];
        put_start(&mut bytes, file, 0, u16::MAX, u16::MAX);
        assert_eq!(told(&bytes, file, 1), (Ok(0), 1, MOST));
        assert_eq!(told(&bytes, file, 131_080), (Ok(0), 8_193, MOST));
        assert_eq!(told(&bytes[..131_079], file, 131_079), (Ok(0), 8_192, 0));
        let sum = hash(&bytes[..131_078]).to_le_bytes();
        bytes[131_078..].copy_from_slice(&sum);
        assert_eq!(told(&bytes, file, 131_080), (Ok(131_088), 1, MOST));
    }
}

#[test]
fn a_hostile_region() {
    const LINES: usize = 256;
    for file in FILES {
        let bytes = hostile::<{ 16 * LINES }>(file);
        let lines = LINES as u64;
        assert_eq!(told(&bytes, file, bytes.len()), (Ok(0), lines, 8 * lines * lines + 6 * lines));
        assert_eq!(told(&bytes, file, 16), (Ok(0), 1, 16 * lines - 2));
    }
}
