//! Images that the tests make with the proved writer, tables made by hand, and the program run in this process.
#![allow(dead_code)] // each test program uses a part of it
use std::ffi::OsString;
use std::fs::File;
use std::os::unix::fs::FileExt;
use std::path::{Path, PathBuf};
use std::sync::atomic::{AtomicU32, Ordering};
use xdvdfs_tables::{
    plan, read_descriptor, write_descriptor, write_table, Content, Descriptor, Error, Kind, NewEntry, PlanEntry, Stamp, Table,
};
use xdvdfs_tool::{run, Screen};

pub const SECTOR: u64 = 2048;
/// The stamp of 2026-11-16T12:00:00Z.
pub const NOON: u64 = 134_393_040_000_000_000;
pub const NO_SCREEN: Screen = Screen { out: false, err: false, plain: false };

/// What a run of the program gave.
#[derive(Clone, Debug, PartialEq, Eq)]
pub struct Ran {
    pub status: u8,
    pub out: String,
    pub err: String,
}

impl Ran {
    pub fn json(&self) -> serde_json::Value {
        assert!(self.out.ends_with('\n') && self.out.lines().count() == 1, "one line: {:?}", self.out);
        serde_json::from_str(&self.out).unwrap()
    }

    /// Done, with nothing said on the error stream: what was printed.
    pub fn done(&self) -> &str {
        assert_eq!((self.status, self.err.as_str()), (0, ""), "{}", self.out);
        &self.out
    }
}

pub fn on_screen<A: Into<OsString> + Clone>(args: &[A], screen: Screen) -> Ran {
    let (mut out, mut err) = (Vec::new(), Vec::new());
    let args = std::iter::once(OsString::from("xdvdfs")).chain(args.iter().cloned().map(Into::into));
    let status = run(args, &mut out, &mut err, screen);
    Ran { status, out: String::from_utf8(out).unwrap(), err: String::from_utf8(err).unwrap() }
}

pub fn xdvdfs<A: Into<OsString> + Clone>(args: &[A]) -> Ran {
    on_screen(args, NO_SCREEN)
}

/// A refusal's words with its number.
pub fn words(error: Error) -> String {
    format!("{error} (refusal {})", error.number())
}

/// The program refuses, says of what and why, and prints nothing.
pub fn refused(args: &[&str], what: &str, error: Error) {
    let ran = xdvdfs(args);
    assert_eq!((ran.status, ran.err, ran.out.as_str()), (1, format!("xdvdfs: {what}: {}\n", words(error)), ""), "{args:?}");
}

/// A folder of the test's own, gone with it.
pub struct Folder(PathBuf);

impl Folder {
    pub fn new() -> Folder {
        static NEXT: AtomicU32 = AtomicU32::new(0);
        let name = format!("xdvdfs-tool-{}-{}", std::process::id(), NEXT.fetch_add(1, Ordering::Relaxed));
        let path = std::env::temp_dir().join(name);
        std::fs::create_dir_all(&path).unwrap();
        Folder(path)
    }

    pub fn path(&self) -> &Path {
        &self.0
    }

    pub fn file(&self, name: &str, bytes: &[u8]) -> String {
        let path = self.0.join(name);
        std::fs::write(&path, bytes).unwrap();
        path.to_str().unwrap().to_owned()
    }
}

impl Drop for Folder {
    fn drop(&mut self) {
        let _ = std::fs::remove_dir_all(&self.0);
    }
}

/// What an image is to hold.
#[derive(Clone, Debug)]
pub enum Member {
    File(String, u32),
    Directory(String, Vec<Member>),
}

pub fn file(name: &str, size: u32) -> Member {
    Member::File(name.to_owned(), size)
}

pub fn directory(name: &str, members: Vec<Member>) -> Member {
    Member::Directory(name.to_owned(), members)
}

/// The parts of an image that are not files' contents: the byte from the partition's start on at which each stands, and the length of the whole.
pub struct Parts {
    pub parts: Vec<(u64, Vec<u8>)>,
    pub length: u64,
}

/// Plans an image and writes its tables, directories level by level.
pub fn parts_of(members: &[Member]) -> Parts {
    let mut folders: Vec<&[Member]> = vec![members];
    let mut entries: Vec<Vec<PlanEntry>> = Vec::new();
    while let Some(&members) = folders.get(entries.len()) {
        let mut here = Vec::new();
        for m in members {
            let (name, content) = match m {
                Member::File(name, size) => (name, Content::File(u64::from(*size))),
                Member::Directory(name, below) => {
                    folders.push(below);
                    (name, Content::Directory(folders.len() as u32 - 1))
                }
            };
            here.push(PlanEntry { name: name.as_bytes(), content });
        }
        entries.push(here);
    }
    let planned = plan(&entries.iter().map(Vec::as_slice).collect::<Vec<_>>()).unwrap();
    let mut descriptor = vec![0; SECTOR as usize];
    write_descriptor(&mut descriptor, Descriptor { root: planned.tables[0], stamp: Stamp::NO_DATE }).unwrap();
    let mut parts = vec![(32 * SECTOR, descriptor)];
    let mut sectors = planned.sectors.iter();
    for (here, table) in entries.iter().zip(&planned.tables) {
        let first = sectors.by_ref().take(here.len()).min().copied().unwrap_or(0);
        let written: Vec<NewEntry> = here
            .iter()
            .map(|e| match e.content {
                Content::File(size) => NewEntry { name: e.name, kind: Kind::File, size: size as u32 },
                Content::Directory(d) => NewEntry { name: e.name, kind: Kind::Directory, size: planned.tables[d as usize].size },
            })
            .collect();
        let (bytes, w) = write_table(&written, first).unwrap();
        assert_eq!(w.size, table.size);
        parts.push((u64::from(table.sector) * SECTOR, bytes));
    }
    Parts { parts, length: u64::from(planned.next_free) * SECTOR }
}

/// The bytes of an image; files hold zeros.
pub fn image_of(members: &[Member]) -> Vec<u8> {
    let parts = parts_of(members);
    let mut bytes = vec![0; parts.length as usize];
    for (at, part) in parts.parts {
        bytes[at as usize..][..part.len()].copy_from_slice(&part);
    }
    bytes
}

/// The same with a stamp.
pub fn stamped_image_of(members: &[Member], stamp: u64) -> Vec<u8> {
    stamped(image_of(members), stamp)
}

/// An image with another stamp.
pub fn stamped(mut bytes: Vec<u8>, stamp: u64) -> Vec<u8> {
    let descriptor = &mut bytes[32 * SECTOR as usize..];
    let root = read_descriptor(descriptor).unwrap().root;
    write_descriptor(descriptor, Descriptor { root, stamp: Stamp(stamp) }).unwrap();
    bytes
}

/// A sparse image file of a length, with its game partition at a byte.
pub fn sparse_image(path: &Path, members: &[Member], partition: u64, length: u64) {
    let file = File::create(path).unwrap();
    for (at, part) in parts_of(members).parts {
        file.write_all_at(&part, partition + at).unwrap();
    }
    file.set_len(length).unwrap();
}

/// An entry made by hand, filled up to a multiple of four bytes.
pub fn entry(left: u16, right: u16, sector: u32, size: u32, attributes: u8, name: &[u8]) -> Vec<u8> {
    let mut bytes = Vec::new();
    bytes.extend_from_slice(&left.to_le_bytes());
    bytes.extend_from_slice(&right.to_le_bytes());
    bytes.extend_from_slice(&sector.to_le_bytes());
    bytes.extend_from_slice(&size.to_le_bytes());
    bytes.push(attributes);
    bytes.push(name.len() as u8);
    bytes.extend_from_slice(name);
    bytes.resize(bytes.len().next_multiple_of(4), 0xff);
    bytes
}

/// An image of tables made by hand, each at a sector; the first is the root's. What no table takes is zero.
pub fn image_by_hand(tables: &[(u32, Vec<Vec<u8>>)]) -> Vec<u8> {
    let (sector, root) = (tables[0].0, tables[0].1.concat());
    let last = tables.iter().map(|t| u64::from(t.0) * SECTOR + 262_144.min(t.1.concat().len() as u64)).max().unwrap();
    let mut bytes = vec![0; last.next_multiple_of(SECTOR) as usize];
    let root = Table { sector, size: root.len() as u32 };
    write_descriptor(&mut bytes[32 * SECTOR as usize..], Descriptor { root, stamp: Stamp::NO_DATE }).unwrap();
    for (sector, entries) in tables {
        let at = (u64::from(*sector) * SECTOR) as usize;
        let table = entries.concat();
        bytes[at..at + table.len().next_multiple_of(SECTOR as usize)].fill(0xff);
        bytes[at..at + table.len()].copy_from_slice(&table);
    }
    bytes
}

/// The image of most tests: two directories, one of them empty, and a few files.
pub fn sample() -> Vec<Member> {
    let maps = vec![file("one.bin", 100), file("two.bin", 5000), directory("Night", vec![file("moon", 1)])];
    vec![file("default.xbe", 7), directory("maps", maps), file("save", 2048), directory("empty", vec![]), file("a b", 0)]
}

/// So many files whose names have six bytes; of more than fifty one stands at 1,020, behind a link of 255.
pub fn many_files(n: usize) -> Vec<Member> {
    (0..n).map(|i| file(&format!("file{i:02}"), 1)).collect()
}

/// 15,000 files in one directory, which is nearly all that a table takes: their names are as short as can be, control bytes among them.
pub fn fifteen_thousand() -> Vec<Member> {
    let letters: Vec<char> = (1..128u8).map(char::from).filter(|c| !c.is_ascii_lowercase() && *c != '/').collect();
    let names = |length: u32| {
        let letters = letters.clone();
        (0..letters.len().pow(length))
            .map(move |i| (0..length).map(|k| letters[i / letters.len().pow(k) % letters.len()]).collect::<String>())
    };
    names(1).chain(names(2)).chain(names(3)).take(15_000).map(|name| file(&name, 100_000)).collect()
}

/// Numbers that look random and are the same in each run.
pub struct Dice(u64);

impl Dice {
    pub fn new(seed: u64) -> Dice {
        Dice(seed.wrapping_mul(0x9e37_79b9_7f4a_7c15) | 1)
    }

    pub fn next(&mut self) -> u64 {
        self.0 ^= self.0 << 13;
        self.0 ^= self.0 >> 7;
        self.0 ^= self.0 << 17;
        self.0.wrapping_mul(0x2545_f491_4f6c_dd1d) >> 16
    }

    pub fn below(&mut self, n: usize) -> usize {
        (self.next() % n as u64) as usize
    }
}
