//! Stands in for layout/disk_data.rs. It assumes the order of docs/SCOPE.md's layout: sector, size, attributes, length of the name; ten bytes. A
//! directory is what has the directory's bit, whatever else is set.
use serde::{Deserialize, Serialize};

use super::{DirentAttributes, DiskRegion};

#[repr(C)]
#[repr(packed)]
#[derive(Deserialize, Serialize, Debug, Copy, Clone, Eq, PartialEq, Hash)]
pub struct DirectoryEntryDiskData {
    pub data: DiskRegion,
    pub attributes: DirentAttributes,
    pub filename_length: u8,
}

impl DirectoryEntryDiskData {
    pub fn is_directory(&self) -> bool {
        let attributes = self.attributes;
        attributes.directory()
    }
}
