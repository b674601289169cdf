//! A stand-in for the part of zerocopy that the data file's header uses: a `#[repr(C)]` struct of plain numbers and byte
//! arrays without padding, seen as its bytes and made from them.
pub use zerocopy_derive::{FromBytes, Immutable, IntoBytes, KnownLayout};

/// The bytes were not as many as the struct has.
#[derive(Debug)]
pub struct WrongSize;

/// # Safety
/// Any bytes must be a value of the type.
pub unsafe trait FromBytes: Sized {
    fn read_from_bytes(bytes: &[u8]) -> Result<Self, WrongSize> {
        if bytes.len() != std::mem::size_of::<Self>() {
            return Err(WrongSize);
        }
        // SAFETY: as many bytes as the type has, of which any are a value.
        Ok(unsafe { std::ptr::read_unaligned(bytes.as_ptr().cast()) })
    }
}

/// # Safety
/// The type must have no padding.
pub unsafe trait IntoBytes: Sized {
    fn as_bytes(&self) -> &[u8] {
        // SAFETY: a type without padding is all bytes.
        unsafe { std::slice::from_raw_parts((self as *const Self).cast(), std::mem::size_of::<Self>()) }
    }
}

/// # Safety
/// None is needed here: the trait only has to be there.
pub unsafe trait KnownLayout {}

/// # Safety
/// None is needed here: the trait only has to be there.
pub unsafe trait Immutable {}
