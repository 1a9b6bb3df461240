//! The Rust original behind the same answers.
mod plan;
mod write;

use crate::{Descriptor, Entry, Limits, Said, Table, View};
pub use plan::{fast_plan, listed, plan};
use std::panic::{catch_unwind, AssertUnwindSafe};
pub use write::{add_in_turn, hear_panics, heard, write_list, Heard};
use xdvdfs::blockdev::{BlockDeviceRead, Window};
use xdvdfs::layout::{DirectoryEntryNode, DirectoryEntryTable, VolumeDescriptor};
use xdvdfs::read::{DirectoryEntryReadError, DirectoryTableLookupError, DirectoryTableWalkError};

/// The window, with a count of the headers read and the byte of the last one. A header starts at a multiple of four, a name never does.
struct Counted<'a> {
    window: Window<'a>,
    headers: u32,
    last: u64,
}

impl BlockDeviceRead for Counted<'_> {
    type ReadError = xdvdfs::blockdev::Cut;

    fn read(&mut self, offset: u64, buffer: &mut [u8]) -> Result<(), Self::ReadError> {
        if buffer.len() == 14 && offset % 4 == 0 {
            self.headers += 1;
            self.last = offset;
        }
        self.window.read(offset, buffer)
    }
}

fn counted(v: View) -> Counted {
    Counted { window: Window { bytes: v.bytes, first: v.first }, headers: 0, last: 0 }
}

fn table(t: Table) -> DirectoryEntryTable {
    DirectoryEntryTable::new(t.size, t.sector)
}

fn entry_of(node: &DirectoryEntryNode, v: View) -> Entry {
    let data = node.node.dirent;
    let region = data.data;
    let from = (node.offset - 2048 * v.first as u64) as usize + 14;
    assert_eq!(node.name_slice(), &v.bytes[from..from + data.filename_length as usize], "the name of an entry");
    Entry {
        byte: node.offset,
        left: node.node.left_entry_offset,
        right: node.node.right_entry_offset,
        sector: region.sector,
        size: region.size,
        attributes: data.attributes.0,
        name_len: data.filename_length,
    }
}

/// A path, as `walk_path` answers. Of 23 and 24 the byte of the image: where 23 is given the byte at which the offset would stand in the table `last`,
/// which is the one that the path ended in.
pub fn path(v: View, t: Table, path: &str, last: Table) -> Said {
    use DirectoryTableLookupError as E;
    let mut dev = counted(v);
    let Ok(answer) = catch_unwind(AssertUnwindSafe(|| table(t).walk_path(&mut dev, path))) else {
        return Said::Panicked;
    };
    let refused = |number, byte| Said::Refused { number, byte, headers: (number == 22).then_some(dev.headers) };
    match answer {
        Ok(node) => Said::Found { entry: entry_of(&node, v), headers: Some(dev.headers) },
        Err(E::DirectoryEmpty) => refused(21, None),
        Err(E::DoesNotExist) => refused(22, None),
        Err(E::SizeOutOfBounds(o)) => refused(23, Some(2048 * last.sector as u64 + o.offset)),
        Err(E::DirectoryEntryReadFailed(DirectoryEntryReadError::IOError(_))) => refused(24, Some(dev.last)),
        Err(E::IsNotDirectory) => refused(27, None),
        Err(E::NoDirent) => refused(28, None),
        Err(other) => panic!("an answer that docs/SCOPE.md does not know: {other:?}"),
    }
}

/// The lookup of a name. `find_dirent` is reached through `walk_path` alone, so the name has no slash and is not empty.
pub fn look_up(v: View, t: Table, name: &str) -> Said {
    assert!(!name.is_empty() && !name.contains('/'));
    path(v, t, name, t)
}

pub fn entry(v: View, t: Table, offset: u32) -> Option<Said> {
    let mut dev = counted(v);
    let byte = match table(t).offset(offset as u64) {
        Ok(byte) => byte,
        Err(o) => return Some(Said::Refused { number: 23, byte: Some(2048 * t.sector as u64 + o.offset), headers: None }),
    };
    match DirectoryEntryNode::read_from_disk(&mut dev, byte) {
        Ok(node) => node.map(|node| Said::Found { entry: entry_of(&node, v), headers: None }),
        Err(DirectoryEntryReadError::IOError(_)) => Some(Said::Refused { number: 24, byte: Some(byte), headers: None }),
        Err(other) => panic!("an answer that docs/SCOPE.md does not know: {other:?}"),
    }
}

/// The entries that the walk lists, each with its name; or its refusal.
pub fn walked(v: View, t: Table) -> Result<Vec<(Entry, Vec<u8>)>, Said> {
    use DirectoryTableWalkError as E;
    let mut dev = counted(v);
    match table(t).walk_dirent_tree(&mut dev) {
        Ok(nodes) => Ok(nodes.iter().map(|node| (entry_of(node, v), node.name_slice().to_vec())).collect()),
        Err(E::SizeOutOfBounds(o)) => Err(Said::Refused { number: 23, byte: Some(2048 * t.sector as u64 + o.offset), headers: None }),
        Err(E::DirectoryEntryReadFailed(DirectoryEntryReadError::IOError(_))) => {
            Err(Said::Refused { number: 24, byte: Some(dev.last), headers: None })
        }
        Err(other) => panic!("an answer that docs/SCOPE.md does not know: {other:?}"),
    }
}

pub fn walk(v: View, t: Table) -> Said {
    match walked(v, t) {
        Ok(list) => Said::Listed(list.iter().map(|(entry, _)| (entry.byte - 2048 * t.sector as u64) as u32).collect()),
        Err(said) => said,
    }
}

pub fn read_descriptor(bytes: &[u8]) -> Option<Descriptor> {
    let volume = VolumeDescriptor::deserialize(bytes.get(..2048)?.try_into().unwrap()).ok()?;
    let region = volume.root_table.region;
    volume.is_valid().then_some(Descriptor { root: Table { sector: region.sector, size: region.size }, stamp: volume.filetime })
}

/// The limits loader, put together of the Rust's parts: the descriptor that its device has at sector 32, the date's tests, `walk_path` from the root, and whether
/// what that finds is a directory. None where it comes to the path and may not follow it from that root. Of slashes alone `walk_path` panics, which is read as 28.
pub fn load_limits(v: View, sought: &[u8], time: u64, age: u64, may_follow: impl Fn(Table) -> bool) -> Option<Limits> {
    let mut sector = [0; 2048];
    let Some(Descriptor { root, stamp }) = counted(v).read(32 * 2048, &mut sector).ok().and_then(|()| read_descriptor(&sector)) else {
        return Some(Limits::refused(20));
    };
    if stamp == 0 {
        return Some(Limits::refused(40));
    }
    match time.checked_sub(stamp) {
        None => return Some(Limits::refused(41)),
        Some(gone) if gone > age => return Some(Limits::refused(42)),
        Some(_) if !may_follow(root) => return None,
        Some(_) => {}
    }
    match path(v, root, std::str::from_utf8(sought).expect("an ASCII path"), root) {
        Said::Found { entry, .. } if entry.attributes & 16 != 0 => Some(Limits::refused(43)),
        Said::Found { entry, .. } => Some(Limits { number: 0, sector: entry.sector, size: entry.size, stamp }),
        Said::Refused { number, .. } => Some(Limits::refused(number)),
        Said::Panicked if sought.len() > 1 && sought.iter().all(|&b| b == b'/') => Some(Limits::refused(28)),
        other => panic!("an answer that docs/SCOPE.md does not know: {other:?}"),
    }
}

/// With no stamp the bytes are those of the Rust's own value, untouched.
pub fn write_descriptor(d: Descriptor) -> Vec<u8> {
    let mut volume = VolumeDescriptor::new(table(d.root));
    if d.stamp != 0 {
        volume.filetime = d.stamp;
    }
    volume.serialize().unwrap()
}

/// For the race: the plain window. The whole answer is made, whatever is looked at of it.
#[inline]
pub fn fast_look_up(v: View, t: Table, name: &str) -> u64 {
    let mut dev = Window { bytes: v.bytes, first: v.first };
    let answer = table(t).walk_path(&mut dev, name);
    match std::hint::black_box(&answer) {
        Ok(node) => {
            let region = node.node.dirent.data;
            region.sector as u64
        }
        Err(_) => 1,
    }
}

#[inline]
pub fn fast_walk(v: View, t: Table) -> usize {
    let mut dev = Window { bytes: v.bytes, first: v.first };
    let answer = table(t).walk_dirent_tree(&mut dev);
    std::hint::black_box(&answer).as_ref().map_or(0, |nodes| nodes.len())
}
