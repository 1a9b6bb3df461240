//! Plans of the Rust: its image writer is run on a tree that is given to it, with a device that only notes what is written where; what the progress visitor hears are the sectors.
use super::write::heard;
use crate::plans::{Planned, Request};
use crate::{Descriptor, Table};
use std::cell::RefCell;
use xdvdfs::blockdev::BlockDeviceWrite;
use xdvdfs::layout::NameEncodingError;
use xdvdfs::write::dirtab::AvlDirectoryEntryTableBuilder;
use xdvdfs::write::fs::{DirectoryTreeEntry, FileEntry, FileType, FilesystemCopier, FilesystemHierarchy, PathRef, PathVec};
use xdvdfs::write::img::{create_xdvdfs_image, ProgressInfo};
use xdvdfs::write::{FileStructureError as E, WriteError};

/// What was written: where, how long; and the descriptor.
#[derive(Default)]
struct Log {
    writes: Vec<(u64, u64)>,
    descriptor: Vec<u8>,
    end: u64,
}

impl BlockDeviceWrite for Log {
    type WriteError = core::convert::Infallible;

    fn write(&mut self, offset: u64, buffer: &[u8]) -> Result<(), Self::WriteError> {
        self.writes.push((offset, buffer.len() as u64));
        self.end = self.end.max(offset + buffer.len() as u64);
        if offset == 65_536 {
            self.descriptor = buffer.to_vec();
        }
        Ok(())
    }

    fn len(&mut self) -> Result<u64, Self::WriteError> {
        Ok(self.end)
    }
}

/// A tree that is as the request has it, in its order.
struct Tree<'a>(&'a Request);

impl FilesystemHierarchy for Tree<'_> {
    type Error = ();

    fn read_dir(&mut self, _: PathRef<'_>) -> Result<Vec<FileEntry>, ()> {
        Ok(vec![])
    }

    fn arranged(&mut self, _: Vec<DirectoryTreeEntry>) -> Vec<DirectoryTreeEntry> {
        listed(self.0)
    }
}

/// The request as the Rust's list of directories.
pub fn listed(request: &Request) -> Vec<DirectoryTreeEntry> {
    let entry = |member: &crate::plans::Member| {
        let (file_type, len) = if member.directory { (FileType::Directory, 0) } else { (FileType::File, member.value) };
        let name = String::from_utf8(member.name.clone()).expect("an ASCII name");
        (FileEntry { name, file_type, len }, if member.directory { member.value as usize } else { 0 })
    };
    let listing = |list: &Vec<_>| list.iter().map(entry).collect();
    request.directories.iter().map(|list| DirectoryTreeEntry { dir: PathVec::default(), listing: listing(list) }).collect()
}

impl FilesystemCopier<Log> for Tree<'_> {
    type Error = ();

    fn copy_file_in(&mut self, _: PathRef<'_>, to: &mut Log, _: u64, at: u64, size: u64) -> Result<u64, ()> {
        to.writes.push((at, size));
        Ok(size)
    }
}

fn number_of(error: E) -> u32 {
    match error {
        E::FileTooLarge => 10,
        E::FileNameError(NameEncodingError::NameTooLong) => 3,
        E::DuplicateFileName => 4,
        E::TooManyDirectoryEntries => 7,
        other => panic!("an answer that docs/SCOPE.md does not know: {other:?}"),
    }
}

/// The reported size of each table by the Rust's own builder; that of the root is in the descriptor too, those of the others only rounded in the image.
fn sizes_of(request: &Request) -> Vec<u32> {
    let mut sizes = vec![0; request.directories.len()];
    for (d, list) in request.directories.iter().enumerate().rev() {
        let mut builder = AvlDirectoryEntryTableBuilder::default();
        for member in list {
            let name = std::str::from_utf8(&member.name).expect("an ASCII name");
            let added = match member.directory {
                true => builder.add_dir(name, sizes[member.value as usize], 0),
                false => builder.add_file(name, member.value as u32),
            };
            added.expect("an entry that was taken");
        }
        sizes[d] = builder.build().expect("a table").dirtab_size();
    }
    sizes
}

/// The image writer's answer: the sizes, each table's sector, each entry's sector. It does not tell which entry is refused, nor the next free sector.
pub fn plan(request: &Request) -> Planned {
    let (tables, sectors, mut log) = (RefCell::new(vec![]), RefCell::new(vec![]), Log::default());
    let visitor = |info: ProgressInfo<'_>| match info {
        ProgressInfo::DirAdded(_, sector) => tables.borrow_mut().push(sector as u32),
        ProgressInfo::FileAdded(_, sector) => sectors.borrow_mut().push(sector as u32),
        _ => {}
    };
    let refused = |number| Planned::Refused { number, entry: None };
    match heard(|| create_xdvdfs_image(&mut Tree(request), &mut log, visitor)) {
        Ok(Ok(())) => {}
        Ok(Err(WriteError::InvalidFileStructureError(error))) => return refused(number_of(error)),
        Ok(Err(other)) => panic!("an answer that docs/SCOPE.md does not know: {other:?}"),
        Err(said) => {
            assert!(said.starts_with("sector.rs ") && said.contains("overflow"), "a panic that docs/SCOPE.md does not know: {said}");
            return refused(8);
        }
    }
    let (tables, sectors, sizes) = (tables.into_inner(), sectors.into_inner(), sizes_of(request));
    let root = Table { sector: tables[0], size: sizes[0] };
    assert_eq!(super::read_descriptor(&log.descriptor), Some(Descriptor { root, stamp: 0 }), "the descriptor of a plan");
    for (table, size) in tables.iter().zip(&sizes) {
        let wanted = (2048 * *table as u64, size.next_multiple_of(2048) as u64);
        assert!(log.writes.contains(&wanted), "where a table was written: {wanted:?}");
    }
    Planned::Done { sizes, tables, sectors, next: None }
}

/// The same with nothing asked of the answer, for the race: where the last table or file stands.
pub fn fast_plan(request: &Request) -> u64 {
    let (mut log, mut last) = (Log::default(), 0);
    let visitor = |info: ProgressInfo<'_>| {
        if let ProgressInfo::FileAdded(_, sector) = info {
            last = sector as u64;
        }
    };
    create_xdvdfs_image(&mut Tree(request), &mut log, visitor).expect("a plan that is raced");
    last
}
