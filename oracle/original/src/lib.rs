//! The original program, compiled from its own text, with document 01's values. `build.rs` finds the text.

#[cfg(feature = "versions")]
mod effort;
// The pieces cut out of the text have methods that only the store calls.
#[allow(dead_code)]
mod internal;
mod recovery;
mod types;

// The text has functions that only its tests or the store call.
#[allow(dead_code, clippy::all)]
mod data_file {
    include!(env!("LOCKER_DATA_FILE_TEXT"));

    // A module inside the text's own reaches its private functions and fields.
    pub mod probes;
}

pub use data_file::probes::{
    caught, create, open, read_header, show_other_panics, Buffer, File, Found, Opened, Slot, State, Tracker,
};
#[cfg(feature = "versions")]
pub use effort::{counted, Effort};
pub use internal::under;
pub use recovery::{accepts_data, accepts_tombstone, start_file};
pub use types::{Error, Failure};
