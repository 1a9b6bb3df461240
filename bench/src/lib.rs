//! Readers and writers three times behind one set of answers: `ours` (this repository's proved code), `theirs` (the Rust original) and `plain` (written from
//! docs/SCOPE.md for this harness alone, to know beforehand where the Rust would never return or cannot be asked).
pub mod inputs;
pub mod lists;
pub mod ours;
pub mod plain;
pub mod plans;
pub mod theirs;

/// A window: bytes, and the number of the sector that they start with.
#[derive(Clone, Copy)]
pub struct View<'a> {
    pub bytes: &'a [u8],
    pub first: u32,
}

/// Where a table stands on the image.
#[derive(Clone, Copy, Debug, PartialEq, Eq)]
pub struct Table {
    pub sector: u32,
    pub size: u32,
}

/// What a volume descriptor says: where the root table stands, and the stamp, in units of 100 ns since the start of 1601; 0 is no date.
#[derive(Clone, Copy, Debug, PartialEq, Eq)]
pub struct Descriptor {
    pub root: Table,
    pub stamp: u64,
}

/// The fields of an entry, with the byte of the image at which it starts.
#[derive(Clone, Copy, Debug, PartialEq, Eq)]
pub struct Entry {
    pub byte: u64,
    pub left: u16,
    pub right: u16,
    pub sector: u32,
    pub size: u32,
    pub attributes: u8,
    pub name_len: u8,
}

/// What the limits loader answers: a file's first sector and size and the stamp of its volume; or the number of a refusal, and then all three are 0.
#[derive(Clone, Copy, Debug, PartialEq, Eq)]
pub struct Limits {
    pub number: u32,
    pub sector: u32,
    pub size: u32,
    pub stamp: u64,
}

impl Limits {
    pub fn refused(number: u32) -> Limits {
        Limits { number, sector: 0, size: 0, stamp: 0 }
    }
}

/// An answer, by the numbers of docs/SCOPE.md. What a reader does not say is None.
#[derive(Clone, Debug, PartialEq, Eq)]
pub enum Said {
    Found { entry: Entry, headers: Option<u32> },
    Refused { number: u32, byte: Option<u64>, headers: Option<u32> },
    Listed(Vec<u32>),
    Panicked,
}

impl Said {
    pub fn refused(number: u32) -> Said {
        Said::Refused { number, byte: None, headers: None }
    }

    /// What it is, in a word or by its number.
    pub fn kind(&self) -> String {
        match self {
            Said::Found { .. } => "found".into(),
            Said::Listed(_) => "listed".into(),
            Said::Refused { number, .. } => format!("{number}"),
            Said::Panicked => "panic".into(),
        }
    }

    /// Equal as far as both say.
    pub fn agrees(&self, other: &Said) -> bool {
        fn same<T: PartialEq>(a: &Option<T>, b: &Option<T>) -> bool {
            a.is_none() || b.is_none() || a == b
        }
        match (self, other) {
            (Said::Found { entry: e, headers: h }, Said::Found { entry: f, headers: i }) => e == f && same(h, i),
            (Said::Refused { number: n, byte: b, headers: h }, Said::Refused { number: m, byte: c, headers: i }) => {
                n == m && same(b, c) && same(h, i)
            }
            (Said::Listed(a), Said::Listed(b)) => a == b,
            _ => false,
        }
    }
}

/// An entry to be written. A name is any bytes, so that refused ones can be asked for too.
#[derive(Clone, Debug, PartialEq, Eq)]
pub struct New {
    pub name: Vec<u8>,
    pub size: u32,
    pub directory: bool,
}

/// A table to be written: its list, the first sector that its entries take, the length of the output and, where entries are added in turn, the places of the arena.
#[derive(Clone, Debug, PartialEq, Eq)]
pub struct Job {
    pub list: Vec<New>,
    pub first: u32,
    pub room: usize,
    pub places: usize,
}

/// A writer's answer. The bytes are those up to the size rounded up to sectors; the entry is the refused one's number in the list.
#[derive(Clone, Debug, PartialEq, Eq)]
pub enum Wrote {
    Done { size: u32, next: u32, bytes: Vec<u8> },
    Refused { number: u32, entry: Option<u32> },
}

/// What adding in turn answers: a number for each entry, the table of those that were taken, and where it is told the tree: its root, and of each node left, right, parent
/// and height.
#[derive(Clone, Debug, PartialEq, Eq)]
pub struct Turns {
    pub numbers: Vec<u32>,
    pub end: Wrote,
    pub tree: Option<(u16, Vec<[u16; 4]>)>,
}
