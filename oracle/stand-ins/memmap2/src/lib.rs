//! A stand-in for memmap2. Only `indexed_live_bytes` uses it, which document 01 leaves out; so the text compiles, and
//! whoever calls that function finds out at once.
use std::fs::File;

#[derive(Default)]
pub struct MmapOptions;

pub struct MmapRaw;

impl MmapOptions {
    pub fn new() -> Self {
        Self
    }

    pub fn len(&mut self, _len: usize) -> &mut Self {
        self
    }

    pub fn map_raw_read_only(&self, _file: &File) -> std::io::Result<MmapRaw> {
        unimplemented!("memory maps are left out of the comparison")
    }
}

#[allow(clippy::len_without_is_empty)]
impl MmapRaw {
    pub fn len(&self) -> usize {
        unimplemented!("memory maps are left out of the comparison")
    }

    pub fn as_ptr(&self) -> *const u8 {
        unimplemented!("memory maps are left out of the comparison")
    }
}
