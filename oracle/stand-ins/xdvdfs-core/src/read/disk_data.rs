//! Stands in for read/disk_data.rs. It assumes that a directory's table is the region that its entry names, and that a file has none.
use crate::layout::{DirectoryEntryDiskData, DirectoryEntryTable};

impl DirectoryEntryDiskData {
    pub fn dirent_table(&self) -> Option<DirectoryEntryTable> {
        self.is_directory().then_some(DirectoryEntryTable { region: self.data })
    }
}
