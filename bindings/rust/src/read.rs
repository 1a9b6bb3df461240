//! Reading tables out of a window of image bytes.
use crate::{sys, Error, Stamp};

/// A directory table: its first sector, and its size in bytes.
#[derive(Clone, Copy, Debug, PartialEq, Eq)]
pub struct Table {
    pub sector: u32,
    pub size: u32,
}

impl Table {
    /// How many entries a table of this size lists at most, if none of them twice: an entry starts at a multiple of four below the size, and no link reaches past 262,140.
    /// A list of so many places is too short ([`Error::WalkFull`]) only where an entry is listed twice, or where the links lead round in a circle.
    pub fn most_entries(self) -> usize {
        self.size.div_ceil(4).min(65_536) as usize
    }
}

/// A volume descriptor: the root table, and the stamp.
#[derive(Clone, Copy, Debug, PartialEq, Eq)]
pub struct Descriptor {
    pub root: Table,
    pub stamp: Stamp,
}

/// The header of an entry. Links are in units of four bytes.
#[derive(Clone, Copy, Debug, PartialEq, Eq)]
pub struct Header {
    pub left: u16,
    pub right: u16,
    pub sector: u32,
    pub size: u32,
    pub attributes: u8,
    pub name_len: u8,
}

impl Header {
    fn from_fields(fields: sys::Fields) -> Header {
        let [left, right, sector, size, attributes, name_len] = fields;
        // the contract: each number is that of a u16 or u8 field
        Header { left: left as u16, right: right as u16, sector, size, attributes: attributes as u8, name_len: name_len as u8 }
    }

    /// The attribute bit 0x10 marks a directory.
    pub fn is_directory(&self) -> bool {
        self.attributes & 0x10 != 0
    }

    /// A directory's table; none for a file.
    pub fn table(&self) -> Option<Table> {
        self.is_directory().then_some(Table { sector: self.sector, size: self.size })
    }
}

/// An entry: its header, the place of its first byte in the window, and its name, which is that part of the window.
#[derive(Clone, Copy, Debug, PartialEq, Eq)]
pub struct Entry<'a> {
    pub header: Header,
    pub place: usize,
    pub name: &'a [u8],
}

/// What a lookup gives: the entry, its offset in the table, and the number of entry headers read.
#[derive(Clone, Copy, Debug, PartialEq, Eq)]
pub struct Found<'a> {
    pub entry: Entry<'a>,
    pub offset: u32,
    pub headers: u32,
}

/// What links a lookup takes for absent. A new loader takes [`Rule::Two`].
///
/// What rule one finds in a table that this library wrote, rule two finds too, at the same offset and after as many headers. In other tables it need not: rule one follows a
/// link of 65,535, which rule two does not.
#[derive(Clone, Copy, Debug, PartialEq, Eq, Hash)]
pub enum Rule {
    /// 0 and 255, as the boards in the field do, and the Rust tool: for what has to answer as they do. What stands below a link of 255 is not found, though [`Window::walk`]
    /// lists it; tables that this library writes can have such a link.
    One,
    /// 0 and 65,535, as [`Window::walk`] does. In a table that this library wrote every entry is found by its name, and in an image that it planned every file by its path; in
    /// a table that [`Window::check_table`] accepts every entry whose name can be sought.
    Two,
}

impl Rule {
    /// The number in include/xdvdfs.h and in docs/SCOPE.md.
    pub fn number(self) -> u32 {
        match self {
            Rule::One => 1,
            Rule::Two => 2,
        }
    }
}

/// A run of image bytes that starts at the sector `first`.
///
/// A name that [`Window::walk`] lists may not be found by [`Window::look_up`] and [`Window::find_path`]. Under [`Rule::One`] an entry at offset 1,020, which a link of 255
/// names, and every entry below it, is listed and is [`Error::DoesNotExist`]; tables that this library writes can have such an entry. Under [`Rule::Two`] that link is followed.
/// Under both an entry is not found that stands on the wrong side of one above it, or below one of the same name, in a table that was not written in order; nor is a name that
/// has a byte above 127 ([`Error::BadByteSought`]). [`Window::check_table`] refuses every table that is out of order so, and a link of 255 is no fault to it: in a table that it
/// accepts every entry whose name can be sought is found by its name under rule two, and under rule one unless a link of 255 stands on the way to it. Who must not take "does
/// not exist" for an answer about a file that is there takes rule two, and has a table that this library did not write checked first.
#[derive(Clone, Copy, Debug)]
pub struct Window<'a> {
    pub bytes: &'a [u8],
    pub first: u32,
}

/// Reads the volume descriptor that the bytes start with.
pub fn read_descriptor(bytes: &[u8]) -> Result<Descriptor, Error> {
    let (mut sector, mut size, mut stamp) = (0, 0, 0);
    match unsafe { sys::xdvdfs_read_descriptor(bytes.as_ptr(), bytes.len(), &mut sector, &mut size, &mut stamp) } {
        0 => Ok(Descriptor { root: Table { sector, size }, stamp: Stamp(stamp) }),
        n => Err(Error::reading(n, 0, None)),
    }
}

impl<'a> Window<'a> {
    fn entry(&self, fields: sys::Fields, place: usize) -> Entry<'a> {
        let header = Header::from_fields(fields);
        Entry { header, place, name: self.name(place, header.name_len) }
    }

    /// The name of an entry whose first byte stands at a place of the window.
    pub fn name(&self, place: usize, name_len: u8) -> &'a [u8] {
        let (mut start, mut len) = (0, 0);
        unsafe { sys::xdvdfs_entry_name(self.bytes.as_ptr(), self.bytes.len(), place, name_len.into(), &mut start, &mut len) };
        &self.bytes[start..start + len]
    }

    /// Reads the entry at an offset of a table; `None` where no entry stands there.
    pub fn read_entry(&self, table: Table, offset: u32) -> Result<Option<Entry<'a>>, Error> {
        let (mut found, mut fields, mut place) = (0, [0; 6], 0);
        let n = unsafe {
            sys::xdvdfs_read_entry(
                self.bytes.as_ptr(),
                self.bytes.len(),
                self.first,
                table.sector,
                table.size,
                offset,
                &mut found,
                &mut fields,
                &mut place,
            )
        };
        match n {
            0 => Ok((found == 1).then(|| self.entry(fields, place))),
            n => Err(Error::reading(n, offset, None)),
        }
    }

    /// Looks a name up in a table under a rule; a to z count as A to Z. [`Error::DoesNotExist`] does not say that no entry has the name: under [`Rule::One`] what stands below a
    /// link of 255 is not found, though [`Window::walk`] lists it. Under [`Rule::Two`], in a table that [`Window::check_table`] accepts, it does say so.
    pub fn look_up(&self, table: Table, name: &[u8], rule: Rule) -> Result<Found<'a>, Error> {
        let (mut fields, mut place, mut offset, mut headers) = ([0; 6], 0, 0, 0);
        let n = unsafe {
            sys::xdvdfs_look_up(
                self.bytes.as_ptr(),
                self.bytes.len(),
                self.first,
                table.sector,
                table.size,
                name.as_ptr(),
                name.len(),
                rule.number(),
                &mut fields,
                &mut place,
                &mut offset,
                &mut headers,
            )
        };
        match n {
            0 => Ok(Found { entry: self.entry(fields, place), offset, headers }),
            n => Err(Error::reading(n, offset, Some(headers))),
        }
    }

    /// Follows a path from a table: leading slashes and one trailing slash do not count, and each part is looked up as [`Window::look_up`] does it, all under one rule. Under
    /// [`Rule::One`] a part below a link of 255 in its table is not found, though [`Window::walk`] lists it.
    pub fn find_path(&self, table: Table, path: &[u8], rule: Rule) -> Result<Entry<'a>, Error> {
        let (mut fields, mut place, mut offset) = ([0; 6], 0, 0);
        let n = unsafe {
            sys::xdvdfs_find_path(
                self.bytes.as_ptr(),
                self.bytes.len(),
                self.first,
                table.sector,
                table.size,
                path.as_ptr(),
                path.len(),
                rule.number(),
                &mut fields,
                &mut place,
                &mut offset,
            )
        };
        match n {
            0 => Ok(self.entry(fields, place)),
            n => Err(Error::reading(n, offset, None)),
        }
    }

    /// Lists the offsets of a table's entries in preorder, and says how many they are; the list is zero past them. The scratch has to be longer than the list, and is zero
    /// afterwards. After [`Error::Room`] both are unchanged; after another refusal the list is all zero. [`Error::WalkFull`] where an entry is read when the list is full: the
    /// table has more entries, or its links lead round in a ring, which fills any list. What stands below a link of 255 is listed here, and under [`Rule::One`] not found by
    /// [`Window::look_up`].
    pub fn walk(&self, table: Table, list: &mut [u32], scratch: &mut [u32]) -> Result<usize, Error> {
        let (mut count, mut offset) = (0, 0);
        let n = unsafe {
            sys::xdvdfs_walk(
                self.bytes.as_ptr(),
                self.bytes.len(),
                self.first,
                table.sector,
                table.size,
                list.as_mut_ptr(),
                list.len(),
                scratch.as_mut_ptr(),
                scratch.len(),
                &mut count,
                &mut offset,
            )
        };
        match n {
            0 => Ok(count),
            n => Err(Error::reading(n, offset, None)),
        }
    }

    /// Checks a table by a strict rule, and lists it as [`Window::walk`] does: the walk ends, no entry is reached twice, none overlaps another, crosses a sector line or leaves
    /// the table, and every name in the left subtree of an entry is less than the entry's, every name in its right subtree greater. [`Error::OutOfOrder`] is told of the first
    /// entry in walk order whose name is on the wrong side of that of any entry above it, or equal to it: of the root m, its left child c and c's right child z, it is told of
    /// z. A blank header that a link reaches is no fault, and bounds no name.
    ///
    /// In a table that is accepted every listed entry is found by its name: always under [`Rule::Two`] of [`Window::look_up`], and under [`Rule::One`] unless a link of 255
    /// stands on the way to it from the first entry. Names that have a byte above 127 are the exception: they cannot be sought ([`Error::BadByteSought`]). A sought name that no
    /// listed entry has is [`Error::DoesNotExist`] under rule two (in a table of size 0 [`Error::DirectoryEmpty`]), and no lookup under rule two is [`Error::OutOfBounds`],
    /// [`Error::Truncated`] or [`Error::Looped`] there.
    pub fn check_table(&self, table: Table, list: &mut [u32], scratch: &mut [u64]) -> Result<usize, Error> {
        let (mut count, mut offset) = (0, 0);
        let n = unsafe {
            sys::xdvdfs_check_table(
                self.bytes.as_ptr(),
                self.bytes.len(),
                self.first,
                table.sector,
                table.size,
                list.as_mut_ptr(),
                list.len(),
                scratch.as_mut_ptr(),
                scratch.len(),
                &mut count,
                &mut offset,
            )
        };
        match n {
            0 => Ok(count),
            n => Err(Error::reading(n, offset, None)),
        }
    }

    /// The entries of a table in walk order, at most so many ([`Error::WalkFull`] where there are more, or the links lead round in a ring).
    pub fn list(&self, table: Table, most: usize) -> Result<Vec<Entry<'a>>, Error> {
        let mut list = vec![0; most];
        let count = self.walk(table, &mut list, &mut vec![0; most + 1])?;
        let read = |&offset: &u32| self.read_entry(table, offset).map(|e| e.expect("what the walk lists is an entry"));
        list[..count].iter().map(read).collect()
    }
}
