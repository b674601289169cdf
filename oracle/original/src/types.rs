//! What the text takes from `types.rs`, with document 01's values.
use std::io::ErrorKind;

pub const MAX_USER_KEY_SIZE: usize = 4096;
pub const MAX_USER_VALUE_SIZE: usize = 32768;

/// The part of the configuration that the text looks at.
pub struct Config {
    pub max_data_file_size: u32,
}

/// The errors that the text gives.
#[derive(Debug)]
pub enum Error {
    IOError(std::io::Error),
    RotateDataFile(u16),
}

pub type Result<T> = std::result::Result<T, Error>;

/// How a call of the original went wrong.
#[derive(Debug, Clone, PartialEq, Eq)]
pub enum Failure {
    /// An error of the text's own, with its words.
    Said(ErrorKind, String),
    /// The system's error.
    System(ErrorKind),
    Rotate,
    Panicked(String),
}

impl From<Error> for Failure {
    fn from(error: Error) -> Self {
        match error {
            Error::RotateDataFile(_) => Failure::Rotate,
            Error::IOError(io) if io.raw_os_error().is_some() => Failure::System(io.kind()),
            Error::IOError(io) => Failure::Said(io.kind(), io.to_string()),
        }
    }
}
