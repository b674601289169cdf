//! A stand-in for the checksum crate, which Debian doesn't have: CRC-16/IBM-3740 by the catalogue's rule (polynomial
//! 0x1021, start 0xffff, no reflection, no final exclusive-or). `oracle/run` holds it to Python's `binascii.crc_hqx`.
//!
//! `hash` takes one byte a step, and sixteen where `bench/run` has asked for that. The comparison never does. For the
//! comparison it counts the bytes that it is given (feature `counted`).
use std::sync::atomic::{AtomicBool, Ordering};

/// The register after one bit at a time of `byte`, as the catalogue has it.
const fn step_bits(state: u16, byte: u8) -> u16 {
    let mut register = state ^ ((byte as u16) << 8);
    let mut bit = 0;
    while bit < 8 {
        let carry = register & 0x8000 != 0;
        register <<= 1;
        if carry {
            register ^= 0x1021;
        }
        bit += 1;
    }
    register
}

/// `step_bits` of every byte from register 0, so that a byte takes one step.
const STEPS: [u16; 256] = {
    let mut steps = [0; 256];
    let mut byte = 0;
    while byte < 256 {
        steps[byte] = step_bits(0, byte as u8);
        byte += 1;
    }
    steps
};

/// `FOLLOWED[n]` has the register after every byte and `n` zero bytes behind it, from register 0.
static FOLLOWED: [[u16; 256]; 16] = {
    let mut followed = [STEPS; 16];
    let mut n = 1;
    while n < 16 {
        let mut byte = 0;
        while byte < 256 {
            followed[n][byte] = step_bits(followed[n - 1][byte], 0);
            byte += 1;
        }
        n += 1;
    }
    followed
};

/// Whether `hash` takes sixteen bytes a step.
static SIXTEEN: AtomicBool = AtomicBool::new(false);

/// Has every `hash` from now on take sixteen bytes a step, or one.
pub fn take_sixteen_bytes_a_step(sixteen: bool) {
    SIXTEEN.store(sixteen, Ordering::Relaxed);
}

/// The checksum one bit at a time: the rule that the other forms are held to.
pub fn hash_by_bits(bytes: &[u8]) -> u64 {
    u64::from(bytes.iter().fold(0xffff, |register, byte| step_bits(register, *byte)))
}

/// The register after more bytes, one byte a step.
pub fn update(state: u16, bytes: &[u8]) -> u16 {
    bytes.iter().fold(state, |register, byte| (register << 8) ^ STEPS[usize::from((register >> 8) as u8 ^ byte)])
}

/// The register after more bytes, sixteen bytes a step by sixteen tables, and one byte a step for the rest.
fn update_by_sixteen(state: u16, bytes: &[u8]) -> u16 {
    let mut sixteens = bytes.chunks_exact(16);
    let register = sixteens.by_ref().fold(state, |register, sixteen| {
        let [high, low] = register.to_be_bytes();
        let mut next = FOLLOWED[15][usize::from(sixteen[0] ^ high)] ^ FOLLOWED[14][usize::from(sixteen[1] ^ low)];
        for (n, byte) in sixteen[2..].iter().enumerate() {
            next ^= FOLLOWED[13 - n][usize::from(*byte)];
        }
        next
    });
    update(register, sixteens.remainder())
}

#[cfg(feature = "counted")]
thread_local! {
    static BYTES_HASHED: std::cell::Cell<u64> = const { std::cell::Cell::new(0) };
}

/// How many bytes `hash` was given on this thread since this was asked last.
#[cfg(feature = "counted")]
pub fn take_bytes_hashed() -> u64 {
    BYTES_HASHED.take()
}

/// The checksum. The original casts the answer to `u16`, so the crate's own answer is wider.
pub fn hash(bytes: &[u8]) -> u64 {
    #[cfg(feature = "counted")]
    BYTES_HASHED.set(BYTES_HASHED.get() + bytes.len() as u64);
    u64::from(if SIXTEEN.load(Ordering::Relaxed) { update_by_sixteen(0xffff, bytes) } else { update(0xffff, bytes) })
}
