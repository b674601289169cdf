//! Every operation of the data file at its limits and refusals, and document 01's own examples, in a version 1 file.

use locker_log::{
    append_data, append_tombstone, hash, read_header, update, write_header, DurableEnd, Effort, EndError, Entry,
    Header, Kind, Refusal, Region, WalkError, HEADER_LENGTH,
};

const LARGEST: usize = 268_435_456;
const FILE: Header = Header { version: 1, ordinal: 0x0102_0304_0506_0708 };

/// Document 01's sample: insert `9`, update `10` and a tombstone of A7 in namespace 1.
fn sample(bytes: &mut [u8]) -> usize {
    let used = append_data(bytes, FILE, 0, Kind::Insert, 1, b"A7", b"9").unwrap();
    let used = append_data(bytes, FILE, used, Kind::Update, 1, b"A7", b"10").unwrap();
    append_tombstone(bytes, FILE, used, 1, b"A7").unwrap()
}

/// A durable end, after so many lines and bytes.
fn ends(end: usize, lines: u64, bytes: u64) -> Result<DurableEnd, EndError> {
    Ok(DurableEnd { end, effort: Effort { lines, bytes } })
}

#[test]
fn the_catalogues_check_value() {
    assert_eq!(hash(b"123456789"), 0x29b1);
    assert_eq!(update(hash(b"1234"), b"56789"), 0x29b1);
    assert_eq!(hash(b""), 0xffff);
    assert_eq!(update(7, b""), 7);
}

#[test]
fn header_written_and_read() {
    let mut lent = [0xeeu8; HEADER_LENGTH + 1];
    write_header(&mut lent, FILE).unwrap();
    assert_eq!(&lent[..16], b"LOCKDAT1\x01\0\0\0\0\0\0\0");
    assert_eq!(&lent[16..24], &[8, 7, 6, 5, 4, 3, 2, 1]);
    assert!(lent[24..HEADER_LENGTH].iter().all(|b| *b == 0));
    assert_eq!(lent[HEADER_LENGTH], 0xee);
    assert_eq!(read_header(&lent), Ok(FILE));
    assert_eq!(read_header(&lent[..HEADER_LENGTH - 1]), Err(Refusal::HeaderTooShort));
    let mut short = [1u8; HEADER_LENGTH - 1];
    assert_eq!(write_header(&mut short, FILE), Err(Refusal::HeaderTooShort));
    assert!(short.iter().all(|b| *b == 1));
    for wrong in [0, 7, 8, 9, 11] {
        let mut other = lent;
        other[wrong] ^= 1;
        assert_eq!(read_header(&other), Err(Refusal::WrongHeader), "byte {wrong}");
    }
    let mut zeros = lent;
    zeros[12] = 1;
    zeros[4095] = 1;
    assert_eq!(read_header(&zeros), Ok(FILE));
}

#[test]
fn document_01s_sample_lists() {
    let mut bytes = [0u8; 64];
    assert_eq!(sample(&mut bytes), 48);
    let region = Region::new(&bytes, FILE);
    let bound = region.used_bound().unwrap();
    assert_eq!(bound, 48);
    let listed: Vec<_> = region
        .listing(bound)
        .map(|e| e.unwrap())
        .map(|e| (e.offset(), e.kind(), e.namespace(), e.key().to_vec(), e.value().to_vec(), e.end()))
        .collect();
    assert_eq!(
        listed,
        [
            (0, Kind::Insert, 1, b"A7".to_vec(), b"9".to_vec(), 13),
            (16, Kind::Update, 1, b"A7".to_vec(), b"10".to_vec(), 30),
            (32, Kind::Tombstone, 1, b"A7".to_vec(), b"".to_vec(), 42),
        ]
    );
    assert_eq!(region.durable_end(bound), ends(48, 3, 31));
}

#[test]
fn parts_are_the_regions_own_bytes() {
    let mut bytes = [0u8; 64];
    sample(&mut bytes);
    let entry = Region::new(&bytes, FILE).walk(64, 0).unwrap().unwrap();
    assert_eq!(entry.value().as_ptr(), bytes[8..].as_ptr());
    assert_eq!(entry.key().as_ptr(), bytes[9..].as_ptr());
}

#[test]
fn a_torn_entry_costs_itself_alone() {
    let mut bytes = [0u8; 64];
    sample(&mut bytes);
    bytes[20] ^= 0x40;
    let region = Region::new(&bytes, FILE);
    let offsets: Vec<_> = region.listing(48).map(|e| e.unwrap().offset()).collect();
    assert_eq!(offsets, [0, 32]);
    assert_eq!(region.durable_end(48), ends(48, 3, 19));
}

#[test]
fn type_three_ends_the_walk_with_its_place() {
    let mut bytes = [0u8; 64];
    sample(&mut bytes);
    bytes[19] |= 0xc0;
    let region = Region::new(&bytes, FILE);
    let mut listing = region.listing(48);
    assert!(listing.next().unwrap().is_ok());
    assert_eq!(listing.next().unwrap().unwrap_err(), WalkError::UnknownAt(16));
    assert!(listing.next().is_none());
    let refused = EndError::UnknownAt { place: 16, effort: Effort { lines: 2, bytes: 11 } };
    assert_eq!(region.durable_end(48), Err(refused));
    assert_eq!(WalkError::UnknownAt(16).to_string(), "refused 10 at 16");
    assert_eq!(refused.to_string(), "refused 10 at 16");
}

#[test]
fn appends_at_their_limits() {
    let key = vec![7u8; 4097];
    let value = vec![9u8; 32769];
    let mut bytes = vec![0xaau8; 36_880];
    let before = bytes.clone();
    let refusals = [
        (append_data(&mut bytes, FILE, 8, Kind::Tombstone, 64, &key, &value), Refusal::NotOnLine),
        (append_data(&mut bytes, FILE, 0, Kind::Tombstone, 64, &key, &value), Refusal::TypeNotAllowed),
        (append_data(&mut bytes, FILE, 0, Kind::Insert, 64, &key, &value), Refusal::NamespaceTooLarge),
        (append_data(&mut bytes, FILE, 0, Kind::Insert, 63, &key, &value), Refusal::KeyTooLong),
        (append_data(&mut bytes, FILE, 0, Kind::Insert, 63, &key[..4096], &value), Refusal::ValueTooLong),
        (append_data(&mut bytes, FILE, 16, Kind::Insert, 63, &key[..4096], &value[..32768]), Refusal::NoSpace),
        (append_data(&mut bytes, FILE, usize::MAX - 15, Kind::Insert, 0, b"", b""), Refusal::NoSpace),
        (append_tombstone(&mut bytes, FILE, 1, 64, &key), Refusal::NotOnLine),
        (append_tombstone(&mut bytes, FILE, 0, 64, &key), Refusal::NamespaceTooLarge),
        (append_tombstone(&mut bytes, FILE, 0, 63, &key), Refusal::KeyTooLong),
        (append_tombstone(&mut bytes, FILE, 36_880, 63, b""), Refusal::NoSpace),
    ];
    for (answer, refusal) in refusals {
        assert_eq!(answer, Err(refusal));
    }
    assert_eq!(bytes, before, "a refusal changes no byte");
    assert_eq!(append_data(&mut bytes, FILE, 0, Kind::Insert, 63, &key[..4096], &value[..32768]), Ok(36_880));
    assert_eq!(&bytes[36_874..], &[0xff; 6]);
    let mut bytes = [0u8; 48];
    assert_eq!(append_data(&mut bytes, FILE, 32, Kind::Update, 0, b"", b"123456"), Ok(48));
    assert_eq!(append_data(&mut bytes, FILE, 32, Kind::Update, 0, b"", b"1234567"), Err(Refusal::NoSpace));
}

#[test]
fn read_at_a_place() {
    let mut bytes = [0u8; 64];
    sample(&mut bytes);
    let region = Region::new(&bytes, FILE);
    // a key's first code and the one that was issued anew are told apart, and as the listing tells them
    let first = region.read_at(0, usize::MAX).unwrap();
    assert_eq!((first.kind(), first.key(), first.value()), (Kind::Insert, &b"A7"[..], &b"9"[..]));
    let update = region.read_at(16, usize::MAX).unwrap();
    assert_eq!((update.kind(), update.key(), update.value()), (Kind::Update, &b"A7"[..], &b"10"[..]));
    let told = |e: &Entry| (e.offset(), e.kind(), e.namespace(), e.key().to_vec(), e.value().to_vec(), e.end());
    let listed: Vec<_> = region.listing(48).map(|e| told(&e.unwrap())).collect();
    assert_eq!(listed[..2], [told(&first), told(&update)]);
    assert!(region.read_at(0, 13).is_ok());
    assert_eq!(region.read_at(0, 12).unwrap_err(), Refusal::EntryTooShort);
    assert_eq!(region.read_at(0, 7).unwrap_err(), Refusal::EntryTooShort);
    assert_eq!(region.read_at(1, 64).unwrap_err(), Refusal::NotOnLine);
    assert_eq!(region.read_at(48, 64).unwrap_err(), Refusal::WrongMark);
    assert_eq!(region.read_at(64, 64).unwrap_err(), Refusal::EntryTooShort);
    assert_eq!(region.read_at(usize::MAX - 15, 64).unwrap_err(), Refusal::EntryTooShort);
    let mut torn = bytes;
    torn[8] ^= 1;
    assert_eq!(Region::new(&torn, FILE).read_at(0, 64).unwrap_err(), Refusal::WrongChecksum);
    // a tombstone whose data layout holds: the checksum comes before the type
    let mut grave = [0u8; 16];
    grave[..8].copy_from_slice(&[0xc0, 0x17, 0x5a, 0x81, 0, 0, 0, 0]);
    assert_eq!(Region::new(&grave, FILE).read_at(0, 64).unwrap_err(), Refusal::WrongChecksum);
    let sum = hash(&grave[..8]).to_le_bytes();
    grave[8..10].copy_from_slice(&sum);
    assert_eq!(Region::new(&grave, FILE).read_at(0, 64).unwrap_err(), Refusal::TypeNotAllowed);
}

#[test]
fn bounds_at_their_limits() {
    let mut bytes = [0u8; 64];
    sample(&mut bytes);
    let region = Region::new(&bytes, FILE);
    assert_eq!(region.walk(65, 0).unwrap_err(), WalkError::Refused(Refusal::BoundPastRegion));
    assert_eq!(region.durable_end(65), Err(EndError::Refused(Refusal::BoundPastRegion)));
    assert!(region.walk(64, usize::MAX).unwrap().is_none());
    assert!(region.walk(64, 33).unwrap().is_none());
    assert_eq!(region.walk(33, 17).unwrap().unwrap().offset(), 32);
    assert!(region.walk(32, 17).unwrap().is_none());
    for (length, nonzero, bound) in [(0, None, 0), (40, None, 0), (40, Some(33), 40), (64, Some(33), 48)] {
        let mut bytes = vec![0u8; length];
        if let Some(at) = nonzero {
            bytes[at] = 1;
        }
        assert_eq!(Region::new(&bytes, FILE).used_bound(), Ok(bound));
    }
}

#[test]
fn the_thirteen_byte_region() {
    let mut bytes = [0u8; 16];
    append_data(&mut bytes, FILE, 0, Kind::Insert, 1, b"A7", b"9").unwrap();
    let region = Region::new(&bytes[..13], FILE);
    assert_eq!(region.used_bound(), Ok(13));
    assert_eq!(region.listing(13).count(), 1);
    assert_eq!(region.durable_end(13), ends(16, 1, 11));
    assert!(region.read_at(0, 13).is_ok());
}

#[test]
fn the_largest_region_and_one_byte_more() {
    let mut bytes = vec![0u8; LARGEST + 1];
    let used = append_tombstone(&mut bytes[..LARGEST], FILE, LARGEST - 16, 5, b"edge12").unwrap();
    assert_eq!(used, LARGEST);
    let region = Region::new(&bytes[..LARGEST], FILE);
    assert_eq!(region.used_bound(), Ok(LARGEST));
    // zeros seem to be an entry of 10 bytes where the mark is 0
    assert_eq!(region.durable_end(LARGEST), ends(LARGEST, 16_777_216, 8 + 12));
    assert_eq!(region.walk(LARGEST, 0).unwrap().unwrap().key(), b"edge12");
    let large = Region::new(&bytes, FILE);
    assert_eq!(large.used_bound(), Err(Refusal::RegionTooLarge));
    assert_eq!(large.durable_end(0), Err(EndError::Refused(Refusal::RegionTooLarge)));
    assert_eq!(large.walk(LARGEST + 2, 0).unwrap_err(), WalkError::Refused(Refusal::RegionTooLarge));
    assert_eq!(large.read_at(1, 0).unwrap_err(), Refusal::RegionTooLarge);
    assert_eq!(append_tombstone(&mut bytes, FILE, 1, 64, b""), Err(Refusal::RegionTooLarge));
    assert_eq!(append_data(&mut bytes, FILE, 1, Kind::Tombstone, 64, b"", b""), Err(Refusal::RegionTooLarge));
}
