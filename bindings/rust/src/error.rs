//! The refusals, with what each carries and what it means in words.
use std::fmt;

/// Why a call was refused. [`Error::number`] is the number that include/xdvdfs.h and docs/SCOPE.md have for it. After a refusal all memory that was lent is as the
/// function's own words say: unchanged, but for scratch and the lists of a walk.
///
/// `entry` is the number of an entry in a list, from 0 on; there is none where a single entry was added. `directory` is the number of a directory in a plan; there is none
/// where a single table was written. `offset` is a byte offset in a table; there is none where the limits loader refused.
#[derive(Clone, Copy, Debug, PartialEq, Eq)]
#[non_exhaustive]
pub enum Error {
    EmptyName {
        entry: Option<u32>,
    },
    BadByte {
        entry: Option<u32>,
    },
    /// The same number, of a name or path that was sought.
    BadByteSought,
    NameTooLong {
        entry: Option<u32>,
    },
    DuplicateFileName {
        entry: Option<u32>,
    },
    SizeOverflow {
        entry: Option<u32>,
    },
    /// Lent memory is too short.
    Room,
    /// The same number: as many entries are held as can be.
    Full {
        entry: Option<u32>,
    },
    TooManyDirectoryEntries {
        directory: Option<u32>,
    },
    SectorOverflow {
        directory: Option<u32>,
    },
    BufferTooSmall,
    FileTooLarge {
        entry: Option<u32>,
    },
    BadTree,
    BadArena,
    NoVolume,
    DirectoryEmpty,
    /// The lookup came to a link that its rule takes for absent, or to no entry. This does not say that no entry has the name: under [`Rule::One`](crate::Rule::One) what
    /// stands below a link of 255 is not found, though [`Window::walk`](crate::Window::walk) lists it. Under [`Rule::Two`](crate::Rule::Two), in a table that
    /// [`Window::check_table`](crate::Window::check_table) accepts, it does say so. With the number of entry headers read, where a single name was looked up.
    DoesNotExist {
        headers: Option<u32>,
    },
    /// An offset is not below the table's size. With the offset, but where [`Window::load_limits`](crate::Window::load_limits) was asked.
    OutOfBounds {
        offset: Option<u32>,
    },
    /// An entry is not whole in the window. With its offset, but where [`Window::load_limits`](crate::Window::load_limits) was asked.
    Truncated {
        offset: Option<u32>,
    },
    Looped,
    /// An entry was read when the list was full: the list has too few places, or the links lead round in a ring and no list would do.
    WalkFull,
    IsNotDirectory,
    NoDirent,
    /// The number of a rule is neither 1 nor 2. No call of this crate gives it, since a [`Rule`](crate::Rule) is one of the two; it is here for its number.
    BadRule,
    Shared {
        offset: u32,
    },
    /// A name in the left subtree of an entry is not less than the entry's, or one in its right subtree not greater. With the offset of the first entry in walk order that
    /// stands so to any entry above it.
    OutOfOrder {
        offset: u32,
    },
    BadPlace {
        offset: u32,
    },
    /// The volume has no date: its stamp is 0.
    NoDate,
    /// The time is before the volume's stamp.
    ClockBack,
    /// The time less the volume's stamp is more than the greatest age.
    TooOld,
    /// The path leads to a directory.
    NotAFile,
}

impl Error {
    /// The number in include/xdvdfs.h and in docs/SCOPE.md.
    pub fn number(self) -> u32 {
        match self {
            Error::EmptyName { .. } => 1,
            Error::BadByte { .. } | Error::BadByteSought => 2,
            Error::NameTooLong { .. } => 3,
            Error::DuplicateFileName { .. } => 4,
            Error::SizeOverflow { .. } => 5,
            Error::Room | Error::Full { .. } => 6,
            Error::TooManyDirectoryEntries { .. } => 7,
            Error::SectorOverflow { .. } => 8,
            Error::BufferTooSmall => 9,
            Error::FileTooLarge { .. } => 10,
            Error::BadTree => 11,
            Error::BadArena => 12,
            Error::NoVolume => 20,
            Error::DirectoryEmpty => 21,
            Error::DoesNotExist { .. } => 22,
            Error::OutOfBounds { .. } => 23,
            Error::Truncated { .. } => 24,
            Error::Looped => 25,
            Error::WalkFull => 26,
            Error::IsNotDirectory => 27,
            Error::NoDirent => 28,
            Error::BadRule => 29,
            Error::Shared { .. } => 30,
            Error::OutOfOrder { .. } => 31,
            Error::BadPlace { .. } => 32,
            Error::NoDate => 40,
            Error::ClockBack => 41,
            Error::TooOld => 42,
            Error::NotAFile => 43,
        }
    }

    /// A refusal of a single entry, or of one of a list.
    pub(crate) fn adding(number: u32, entry: Option<u32>) -> Error {
        match number {
            1 => Error::EmptyName { entry },
            2 => Error::BadByte { entry },
            3 => Error::NameTooLong { entry },
            4 => Error::DuplicateFileName { entry },
            5 => Error::SizeOverflow { entry },
            6 => Error::Full { entry },
            12 => Error::BadArena,
            n => ruled_out(n),
        }
    }

    /// A refusal to write a table.
    pub(crate) fn writing(number: u32) -> Error {
        match number {
            6 => Error::Room,
            7 => Error::TooManyDirectoryEntries { directory: None },
            8 => Error::SectorOverflow { directory: None },
            9 => Error::BufferTooSmall,
            12 => Error::BadArena,
            n => ruled_out(n),
        }
    }

    /// A refusal to plan an image.
    pub(crate) fn planning(number: u32, entry: Option<u32>, directory: u32) -> Error {
        match number {
            6 if entry.is_none() => Error::Room,
            7 => Error::TooManyDirectoryEntries { directory: Some(directory) },
            8 => Error::SectorOverflow { directory: Some(directory) },
            10 => Error::FileTooLarge { entry },
            11 => Error::BadTree,
            n => Error::adding(n, entry),
        }
    }

    /// A refusal of a reader.
    pub(crate) fn reading(number: u32, offset: u32, headers: Option<u32>) -> Error {
        match number {
            2 => Error::BadByteSought,
            6 => Error::Room,
            20 => Error::NoVolume,
            21 => Error::DirectoryEmpty,
            22 => Error::DoesNotExist { headers },
            23 => Error::OutOfBounds { offset: Some(offset) },
            24 => Error::Truncated { offset: Some(offset) },
            25 => Error::Looped,
            26 => Error::WalkFull,
            27 => Error::IsNotDirectory,
            28 => Error::NoDirent,
            29 => Error::BadRule,
            30 => Error::Shared { offset },
            31 => Error::OutOfOrder { offset },
            32 => Error::BadPlace { offset },
            n => ruled_out(n),
        }
    }

    /// A refusal of the limits loader, which carries its number alone.
    pub(crate) fn loading(number: u32) -> Error {
        match number {
            2 => Error::BadByteSought,
            20 => Error::NoVolume,
            21 => Error::DirectoryEmpty,
            22 => Error::DoesNotExist { headers: None },
            23 => Error::OutOfBounds { offset: None },
            24 => Error::Truncated { offset: None },
            25 => Error::Looped,
            27 => Error::IsNotDirectory,
            28 => Error::NoDirent,
            40 => Error::NoDate,
            41 => Error::ClockBack,
            42 => Error::TooOld,
            43 => Error::NotAFile,
            n => ruled_out(n),
        }
    }
}

/// The contracts leave no other number.
fn ruled_out(number: u32) -> ! {
    unreachable!("the library answered {number}, which its contract rules out")
}

impl fmt::Display for Error {
    fn fmt(&self, f: &mut fmt::Formatter<'_>) -> fmt::Result {
        if let Error::EmptyName { entry: Some(i) }
        | Error::BadByte { entry: Some(i) }
        | Error::NameTooLong { entry: Some(i) }
        | Error::DuplicateFileName { entry: Some(i) }
        | Error::SizeOverflow { entry: Some(i) }
        | Error::Full { entry: Some(i) }
        | Error::FileTooLarge { entry: Some(i) } = self
        {
            write!(f, "entry {i} of the list: ")?;
        }
        if let Error::TooManyDirectoryEntries { directory: Some(d) } | Error::SectorOverflow { directory: Some(d) } = self {
            write!(f, "directory {d}: ")?;
        }
        match self {
            Error::EmptyName { .. } => write!(f, "the name is empty"),
            Error::BadByte { .. } => {
                write!(f, "a byte of the name is 0 or above 127, or the name's place reaches past the bytes lent for names")
            }
            Error::BadByteSought => write!(f, "a byte of what is sought is above 127"),
            Error::NameTooLong { .. } => write!(f, "the name has more than 255 bytes"),
            Error::DuplicateFileName { .. } => write!(f, "an entry of that name is there already, upper and lower case being one"),
            Error::SizeOverflow { .. } => write!(f, "the directory's size is above 4294965248 bytes"),
            Error::Room => write!(f, "the memory lent for the call is too short"),
            Error::Full { .. } => write!(f, "the table is full: no place is left, or it holds 16384 entries"),
            Error::TooManyDirectoryEntries { .. } => {
                write!(f, "the table is too long: an entry would stand at offset 262144 or past it, where no link reaches")
            }
            Error::SectorOverflow { .. } => write!(f, "the next free sector would exceed 4294967295"),
            Error::BufferTooSmall => write!(f, "the output is shorter than what is to be written"),
            Error::FileTooLarge { .. } => write!(f, "the file has more than 4294967295 bytes"),
            Error::BadTree => {
                write!(f, "the directories are no tree: there is none, or one but the root is not named exactly once, by an earlier one")
            }
            Error::BadArena => write!(f, "the arena does not hold one ordered, balanced tree of entries that adding takes"),
            Error::NoVolume => write!(f, "no volume descriptor: one of its two marks differs or is cut short"),
            Error::DirectoryEmpty => write!(f, "the directory is empty: its table has size 0"),
            Error::DoesNotExist { headers } => {
                write!(f, "the name was not found; under rule one what stands below a link of 255 is not found, though a walk lists it")?;
                match headers {
                    Some(1) => write!(f, " (1 header read)"),
                    Some(n) => write!(f, " ({n} headers read)"),
                    None => Ok(()),
                }
            }
            Error::OutOfBounds { offset: Some(offset) } => write!(f, "offset {offset} is not below the table's size"),
            Error::OutOfBounds { offset: None } => write!(f, "an offset is not below the table's size"),
            Error::Truncated { offset: Some(offset) } => {
                write!(f, "the entry at offset {offset} of its table is not whole in the bytes at hand")
            }
            Error::Truncated { offset: None } => write!(f, "an entry of the table is not whole in the bytes at hand"),
            Error::Looped => write!(f, "the table's links lead round in a ring: the lookup would never end"),
            Error::WalkFull => {
                write!(f, "the list is full and there is an entry more: ")?;
                write!(f, "the list has too few places, or the table's links lead round in a ring")
            }
            Error::IsNotDirectory => write!(f, "a part of the path, not its last, is no directory"),
            Error::NoDirent => write!(f, "the path has no part"),
            Error::BadRule => write!(f, "the rule is neither 1 nor 2"),
            Error::Shared { offset } => write!(f, "the entry at offset {offset} is reached twice"),
            Error::OutOfOrder { offset } => {
                write!(f, "the name of the entry at offset {offset} is not less than that of an entry in whose left subtree it stands, ")?;
                write!(f, "or not greater than that of one in whose right subtree")
            }
            Error::BadPlace { offset } => {
                write!(f, "the entry at offset {offset} overlaps another, crosses a sector line or leaves the table")
            }
            Error::NoDate => write!(f, "the volume has no date"),
            Error::ClockBack => write!(f, "the time is before the volume's date"),
            Error::TooOld => write!(f, "the volume is older than the greatest age"),
            Error::NotAFile => write!(f, "the path leads to a directory and not to a file"),
        }
    }
}

impl std::error::Error for Error {}
