//! Stands in for write/fs/hierarchy.rs. It assumes that the tree is a list of directories, the root first, in which each directory entry carries the
//! place of its own directory and that place is a later one; level by level, or as the harness orders it.
use alloc::string::String;
use alloc::vec::Vec;
use maybe_async::maybe_async;

use super::{PathRef, PathVec};

#[derive(Debug, Copy, Clone, PartialEq, Eq)]
pub enum FileType {
    File,
    Directory,
}

#[derive(Debug, Clone, PartialEq, Eq)]
pub struct FileEntry {
    pub name: String,
    pub file_type: FileType,
    pub len: u64,
}

#[derive(Debug, Clone)]
pub struct DirectoryTreeEntry {
    pub dir: PathVec,
    pub listing: Vec<(FileEntry, usize)>,
}

pub trait FilesystemHierarchy {
    type Error: core::fmt::Debug;

    #[maybe_async]
    async fn read_dir(&mut self, path: PathRef<'_>) -> Result<Vec<FileEntry>, Self::Error>;

    /// The tree as it is handed on: as it was found, or one that the harness puts in its place, since the published order of directories is not known.
    fn arranged(&mut self, found: Vec<DirectoryTreeEntry>) -> Vec<DirectoryTreeEntry> {
        found
    }
}

#[maybe_async]
pub async fn dir_tree<FS: FilesystemHierarchy + ?Sized>(
    fs: &mut FS,
    discovered: &mut impl FnMut(usize),
) -> Result<Vec<DirectoryTreeEntry>, FS::Error> {
    let mut dirs = alloc::vec![PathVec::default()];
    let mut tree = Vec::new();
    while tree.len() < dirs.len() {
        let dir = dirs[tree.len()].clone();
        let entries = fs.read_dir(dir.as_path_ref()).await?;
        discovered(entries.len());
        let mut listing = Vec::with_capacity(entries.len());
        for entry in entries {
            let place = if entry.file_type == FileType::Directory {
                dirs.push(PathVec(dir.as_path_ref().join(&entry.name).parts()));
                dirs.len() - 1
            } else {
                0
            };
            listing.push((entry, place));
        }
        tree.push(DirectoryTreeEntry { dir, listing });
    }
    Ok(fs.arranged(tree))
}
