//! Stands in for layout/attributes.rs. It assumes one byte, in which 0x10 is the directory's bit and 0x20 the archive's, each set and read alone.
use serde::{Deserialize, Serialize};

#[derive(Deserialize, Serialize, Debug, Copy, Clone, Eq, PartialEq, Hash)]
pub struct DirentAttributes(pub u8);

impl DirentAttributes {
    fn with_bit(self, bit: u8, on: bool) -> Self {
        Self(if on { self.0 | bit } else { self.0 & !bit })
    }

    pub fn with_directory(self, on: bool) -> Self {
        self.with_bit(0x10, on)
    }

    pub fn with_archive(self, on: bool) -> Self {
        self.with_bit(0x20, on)
    }

    pub fn directory(&self) -> bool {
        self.0 & 0x10 != 0
    }
}
