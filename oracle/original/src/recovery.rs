//! The pieces of recovery.rs that document 01 takes, and the statement of store.rs that puts the files in order before
//! them, cut out of the text by `build.rs`, and the little that they stand on.
use crate::{
    internal::{aligned_data_entry_size, aligned_tombstone_entry_waste, invalid_data_error},
    types::{Config, Result, MAX_USER_KEY_SIZE, MAX_USER_VALUE_SIZE},
};

struct Inner {
    config: Config,
}

struct CandyStore {
    inner: Inner,
}

/// A file of the list, of which the statements look at the ordinal alone, and its place in the list as given.
#[derive(Clone)]
struct Listed {
    file_ordinal: u64,
    place: usize,
}

include!(concat!(env!("OUT_DIR"), "/recovery_cut.rs"));

fn store(maximum: u32) -> CandyStore {
    CandyStore { inner: Inner { config: Config { max_data_file_size: maximum } } }
}

pub fn accepts_data(key: &[u8], value: &[u8], maximum: u32) -> bool {
    store(maximum).validate_recovered_data_entry(key, value).is_ok()
}

pub fn accepts_tombstone(key: &[u8], maximum: u32) -> bool {
    store(maximum).validate_recovered_tombstone_entry(key).is_ok()
}

/// The file at which replay begins, by its place in the list as given; none where recovery leaves before it chooses.
pub fn start_file(ordinals: &[u64], cursor: u64) -> Option<usize> {
    let listed = ordinals.iter().enumerate().map(|(place, &file_ordinal)| Listed { file_ordinal, place });
    let ordered_files = ordered(listed.collect());
    let mut chosen = None;
    choose(&ordered_files, cursor, &mut chosen).expect("the two statements give no error");
    chosen.map(|index: usize| ordered_files[index].place)
}
