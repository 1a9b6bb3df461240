//! What the readers are given: tables and images that the Rust's own writer makes, damaged copies of them, and random bytes.
use crate::{Descriptor, Table};
use std::collections::HashSet;
use xdvdfs::blockdev::Memory;
use xdvdfs::write::dirtab::{AvlDirectoryEntryTableBuilder, DirtabWriterBuffers};
use xdvdfs::write::fs::{FileEntry, FileType, FilesystemCopier, FilesystemHierarchy, PathRef};
use xdvdfs::write::img::{create_xdvdfs_image, NoOpProgressVisitor};
use xdvdfs::write::sector::SectorAllocator;

/// Numbers that are the same in each run (splitmix64).
pub struct Dice(pub u64);

impl Dice {
    pub fn next(&mut self) -> u64 {
        self.0 = self.0.wrapping_add(0x9e3779b97f4a7c15);
        let mut z = self.0;
        z = (z ^ (z >> 30)).wrapping_mul(0xbf58476d1ce4e5b9);
        z = (z ^ (z >> 27)).wrapping_mul(0x94d049bb133111eb);
        z ^ (z >> 31)
    }

    /// Below n.
    pub fn below(&mut self, n: usize) -> usize {
        (self.next() % n as u64) as usize
    }

    pub fn shuffle<T>(&mut self, xs: &mut [T]) {
        for i in (1..xs.len()).rev() {
            xs.swap(i, self.below(i + 1));
        }
    }
}

/// An ASCII name of so many bytes, with no zero and no slash, of letters mostly.
pub fn name(dice: &mut Dice, len: usize) -> String {
    let byte = |dice: &mut Dice| match dice.below(8) {
        0 => loop {
            let b = 1 + dice.below(127) as u8;
            if b != b'/' {
                break b;
            }
        },
        1 => b"_-.09"[dice.below(5)],
        2 => b'A' + dice.below(26) as u8,
        _ => b'a' + dice.below(26) as u8,
    };
    (0..len).map(|_| byte(dice) as char).collect()
}

/// So many names of which no two are equal when raised, after a common front.
pub fn names(dice: &mut Dice, count: usize, front: &str, lens: std::ops::RangeInclusive<usize>) -> Vec<String> {
    let mut seen = HashSet::new();
    let mut list = Vec::with_capacity(count);
    while list.len() < count {
        let len = lens.start() + dice.below(lens.end() - lens.start() + 1);
        let name = format!("{front}{}", name(dice, len));
        if seen.insert(name.to_ascii_uppercase()) {
            list.push(name);
        }
    }
    list
}

/// The shortest names that there are, none of them equal to another when raised: one byte, two bytes, then three.
pub fn shortest_names(count: usize) -> Vec<String> {
    let bytes: Vec<char> = (1u8..128).filter(|b| *b != b'/' && !b.is_ascii_lowercase()).map(|b| b as char).collect();
    let mut list: Vec<String> = bytes.iter().map(|b| b.to_string()).collect();
    let mut from = 0;
    while list.len() < count {
        let longer: Vec<String> =
            list[from..].iter().flat_map(|front| bytes.iter().map(move |b| format!("{front}{b}"))).take(count).collect();
        from = list.len();
        list.extend(longer);
    }
    list.truncate(count);
    list
}

/// The bytes of a table of files (a directory each eighth, where asked), in this order, and its size; None where the Rust refuses.
pub fn written(names: &[String], directories: bool) -> Option<(Vec<u8>, u32)> {
    let mut builder = AvlDirectoryEntryTableBuilder::default();
    for (i, name) in names.iter().enumerate() {
        if directories && i % 8 == 3 {
            builder.add_dir(name, 1 + 100 * i as u32, i).ok()?;
        } else {
            builder.add_file(name, i as u32).ok()?;
        }
    }
    let mut writer = builder.build().ok()?;
    let mut buffers = DirtabWriterBuffers::default();
    writer.disk_repr(&mut SectorAllocator::default(), &mut buffers).ok()?;
    Some((buffers.dirtab_bytes, writer.dirtab_size()))
}

/// A directory tree in memory.
pub struct Folder {
    pub files: Vec<(String, u64)>,
    pub folders: Vec<(String, Folder)>,
}

impl Folder {
    pub fn random(dice: &mut Dice, depth: usize) -> Folder {
        let count = dice.below(9);
        let list = names(dice, count, "", 1..=3);
        let mut folder = Folder { files: vec![], folders: vec![] };
        for name in list {
            if depth > 0 && dice.below(3) == 0 {
                folder.folders.push((name, Folder::random(dice, depth - 1)));
            } else {
                folder.files.push((name, dice.below(5000) as u64));
            }
        }
        folder
    }

    /// Every path, without a leading slash.
    pub fn paths(&self) -> Vec<String> {
        let mut list: Vec<String> = self.files.iter().map(|(name, _)| name.clone()).collect();
        for (name, folder) in &self.folders {
            list.push(name.clone());
            list.extend(folder.paths().iter().map(|path| format!("{name}/{path}")));
        }
        list
    }

    fn at(&self, parts: &[String]) -> &Folder {
        match parts.split_first() {
            None => self,
            Some((first, rest)) => self.folders.iter().find(|(name, _)| name == first).expect("a folder").1.at(rest),
        }
    }
}

impl FilesystemHierarchy for Folder {
    type Error = ();

    fn read_dir(&mut self, path: PathRef<'_>) -> Result<Vec<FileEntry>, ()> {
        let folder = self.at(&path.parts());
        let files = folder.files.iter().map(|(name, len)| FileEntry { name: name.clone(), file_type: FileType::File, len: *len });
        let folders = folder.folders.iter().map(|(name, _)| FileEntry { name: name.clone(), file_type: FileType::Directory, len: 0 });
        Ok(files.chain(folders).collect())
    }
}

impl FilesystemCopier<Memory> for Folder {
    type Error = ();

    fn copy_file_in(&mut self, _: PathRef<'_>, _: &mut Memory, _: u64, _: u64, size: u64) -> Result<u64, ()> {
        Ok(size)
    }
}

/// The image of a folder, from its first byte, as the Rust's `create_xdvdfs_image` makes it; file contents are left out.
pub fn image(folder: &mut Folder) -> Vec<u8> {
    let mut memory = Memory::default();
    create_xdvdfs_image(folder, &mut memory, NoOpProgressVisitor).expect("an image");
    memory.0
}

/// Some bytes changed: mostly links, mostly to what a link may be.
pub fn damage(dice: &mut Dice, bytes: &mut [u8], size: u32) {
    for _ in 0..1 + dice.below(5) {
        if bytes.len() < 16 {
            return;
        }
        let at = dice.below(bytes.len().min(size as usize + 20).max(16) - 15) / 4 * 4;
        let link = match dice.below(6) {
            0 => 0,
            1 => 255,
            2 => 65535,
            3 => dice.below(65536) as u16,
            _ => dice.below(size as usize / 4 + 3) as u16,
        };
        match dice.below(5) {
            0 => bytes[at + dice.below(16)] = dice.next() as u8,
            1 => bytes[at..at + 14].fill([0, 255][dice.below(2)]),
            2 => bytes[at + 13] = dice.below(40) as u8,
            side => {
                let side = 2 * (side - 3);
                bytes[at + side..at + side + 2].copy_from_slice(&link.to_le_bytes());
            }
        }
    }
}

/// Random bytes, of which many are those that mean something.
pub fn noise(dice: &mut Dice) -> (Vec<u8>, u32, Table) {
    let most = [3000, 120, 120, 120][dice.below(4)];
    let len = dice.below(most);
    let bits = dice.below(3);
    let mut bytes: Vec<u8> = (0..len)
        .map(|_| match (bits, dice.below(6)) {
            (0, _) => dice.next() as u8,
            (1, 0) => 255,
            (1, 1) => b'a' + dice.below(4) as u8,
            (_, 2) => 255,
            (_, 3) => dice.below(20) as u8,
            _ => 0,
        })
        .collect();
    if dice.below(2) == 0 {
        // A short name in what stands at each sixteenth byte.
        for header in bytes.chunks_exact_mut(16) {
            header[13] = dice.below(3) as u8;
            header[14] = b"abcdEFGH"[dice.below(8)];
            header[1] = 0;
            header[3] = 0;
        }
    }
    let first = if dice.below(8) == 0 { dice.next() as u32 } else { dice.below(3) as u32 };
    let sector = if dice.below(8) == 0 { first.wrapping_add(dice.below(3) as u32) } else { first };
    let size = match dice.below(5) {
        0 => dice.next() as u32,
        1 => dice.below(20) as u32,
        _ => dice.below(len + 40) as u32,
    };
    (bytes, first, Table { sector, size })
}

/// Stamps at the edges of their halves and of the whole; 0 is no date.
const STAMPS: [u64; 6] = [0, 1, u32::MAX as u64, 1 << 32, 1 << 63, u64::MAX];

/// What a descriptor may say: a random root, and in every other round a stamp of those at the edges, each in turn, else a random one.
pub fn descriptor(dice: &mut Dice, round: usize) -> Descriptor {
    let root = Table { sector: dice.next() as u32, size: dice.next() as u32 };
    let stamp = if round % 2 == 0 { STAMPS[round / 2 % STAMPS.len()] } else { dice.next() };
    Descriptor { root, stamp }
}

/// A descriptor's bytes, one of them changed in two of three (in a mark, in the stamp, in what is unused, anywhere), and cut in one of four (about the end, about the fields,
/// anywhere).
pub fn damage_descriptor(dice: &mut Dice, bytes: &mut Vec<u8>) {
    if dice.below(3) > 0 {
        let at = [dice.below(20), 2028 + dice.below(20), 28 + dice.below(8), 36 + dice.below(1992), dice.below(2048)][dice.below(5)];
        bytes[at] ^= 1 + dice.below(255) as u8;
    }
    if dice.below(4) == 0 {
        bytes.truncate([2048 - dice.below(21), dice.below(60), dice.below(2049)][dice.below(3)]);
    }
}
