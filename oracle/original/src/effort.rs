//! What a call of the original took, which document 02's request 8 asks of the durable end. The text doesn't tell it, but
//! asks for two things that are ours: the mark of each line that it compares (`internal.rs`), and the checksum of each entry
//! that lies whole in its file (the checksum crate's stand-in). Both count.
use crate::internal::take_marks_asked;
use crc16_ibm3740_fast::take_bytes_hashed;

/// Lines tried and bytes checksummed.
#[derive(Debug, Clone, Copy, PartialEq, Eq, Default)]
pub struct Effort {
    pub lines: u64,
    pub bytes: u64,
}

/// What a call answers and what it took. Whatever was counted before is forgotten, also what a call left that panicked.
pub fn counted<T>(call: impl FnOnce() -> T) -> (T, Effort) {
    take_marks_asked();
    take_bytes_hashed();
    let answer = call();
    (answer, Effort { lines: take_marks_asked(), bytes: take_bytes_hashed() })
}
