//! Document 01's answer numbers as errors.

use core::fmt;

use crate::sys::RawEffort;
use crate::{DurableEnd, Effort};

macro_rules! refusals {
    ($($(#[$doc:meta])* $name:ident = $number:literal, $words:literal;)*) => {
        /// Why an operation refused. A refusal changes no byte and no state.
        #[derive(Clone, Copy, Debug, PartialEq, Eq, Hash)]
        #[non_exhaustive]
        pub enum Refusal {
            $(#[doc = $words] $name,)*
        }

        impl Refusal {
            /// Document 01's number.
            pub fn number(self) -> u32 {
                match self {
                    $(Refusal::$name => $number,)*
                }
            }

            fn from_number(number: u32) -> Option<Refusal> {
                match number {
                    $($number => Some(Refusal::$name),)*
                    _ => None,
                }
            }

            fn words(self) -> &'static str {
                match self {
                    $(Refusal::$name => $words,)*
                }
            }
        }
    };
}

refusals! {
    HeaderTooShort = 1, "header shorter than 4,096";
    WrongHeader = 2, "wrong signature or version";
    RegionTooLarge = 3, "region or configured maximum over 268,435,456";
    BoundPastRegion = 4, "bound over the region's length";
    NotOnLine = 5, "place, used count or length not a multiple of 16, or reserved length 0";
    EntryTooShort = 6, "entry too short";
    WrongMark = 7, "wrong mark";
    WrongChecksum = 8, "wrong checksum";
    TypeNotAllowed = 9, "type not allowed here";
    UnknownType = 10, "walk meets type 3";
    KeyTooLong = 11, "key too long";
    ValueTooLong = 12, "value too long";
    NoSpace = 13, "sealed, or used count + length over capacity";
    ShardTooLarge = 14, "shard over 15";
    NoWaitingRoom = 15, "no waiting room";
    NumbersUsedUp = 16, "next number is 2^64 - 1";
    NamespaceTooLarge = 17, "namespace over 63";
    TooManyOrdinals = 18, "more than 64 ordinals";
    EqualOrdinals = 22, "two equal ordinals";
    NotSound = 28, "tracker value not sound";
}

impl Refusal {
    /// 0 is accepted. The library gives no number that isn't in the table.
    pub(crate) fn check(number: u32) -> Result<(), Refusal> {
        match number {
            0 => Ok(()),
            _ => Err(Refusal::from_number(number).expect("a number of document 01's table")),
        }
    }
}

impl fmt::Display for Refusal {
    fn fmt(&self, f: &mut fmt::Formatter<'_>) -> fmt::Result {
        write!(f, "refused {}: {}", self.number(), self.words())
    }
}

impl core::error::Error for Refusal {}

/// Why a walk or a count refused: as any operation, or at a line of unknown type, with its place.
#[derive(Clone, Copy, Debug, PartialEq, Eq, Hash)]
pub enum WalkError {
    /// 2, 3 or 4; a count has no bound for 4.
    Refused(Refusal),
    /// 10: the right mark with type 3, at this place.
    UnknownAt(usize),
}

impl WalkError {
    pub(crate) fn check(number: u32, place: u64) -> Result<(), WalkError> {
        match Refusal::check(number) {
            Ok(()) => Ok(()),
            Err(Refusal::UnknownType) => Err(WalkError::UnknownAt(place as usize)),
            Err(refusal) => Err(WalkError::Refused(refusal)),
        }
    }
}

impl fmt::Display for WalkError {
    fn fmt(&self, f: &mut fmt::Formatter<'_>) -> fmt::Result {
        match self {
            WalkError::Refused(refusal) => refusal.fmt(f),
            WalkError::UnknownAt(place) => write!(f, "refused 10 at {place}"),
        }
    }
}

impl core::error::Error for WalkError {}

/// Why a durable end refused: as any operation, or at a line of unknown type, with its place and with what it took to get
/// there.
#[derive(Clone, Copy, Debug, PartialEq, Eq, Hash)]
pub enum EndError {
    /// 2, 3 or 4: no line was tried.
    Refused(Refusal),
    /// 10: the right mark with type 3.
    UnknownAt {
        /// The refused line.
        place: usize,
        /// The lines tried, the refused one among them, and the bytes checksummed before it.
        effort: Effort,
    },
}

impl EndError {
    /// The library tells the end with 0, the place with 10, and the effort with both.
    pub(crate) fn check(number: u32, end: u64, place: u64, effort: RawEffort) -> Result<DurableEnd, EndError> {
        let effort = Effort { lines: effort.lines, bytes: effort.bytes };
        match WalkError::check(number, place) {
            Ok(()) => Ok(DurableEnd { end: end as usize, effort }),
            Err(WalkError::UnknownAt(place)) => Err(EndError::UnknownAt { place, effort }),
            Err(WalkError::Refused(refusal)) => Err(EndError::Refused(refusal)),
        }
    }
}

impl fmt::Display for EndError {
    fn fmt(&self, f: &mut fmt::Formatter<'_>) -> fmt::Result {
        match self {
            EndError::Refused(refusal) => refusal.fmt(f),
            EndError::UnknownAt { place, .. } => write!(f, "refused 10 at {place}"),
        }
    }
}

impl core::error::Error for EndError {}
