//! Writing tables: one entry after another into an arena that is then written, or a whole list in one call.
use crate::{sys, Descriptor, Error};

#[derive(Clone, Copy, Debug, PartialEq, Eq)]
pub enum Kind {
    File,
    Directory,
}

impl Kind {
    /// Its number in a column.
    pub fn number(self) -> u8 {
        match self {
            Kind::File => 0,
            Kind::Directory => 1,
        }
    }
}

/// What writing a table gives: the reported size, which is not rounded, and the next free sector.
#[derive(Clone, Copy, Debug, PartialEq, Eq)]
pub struct Written {
    pub size: u32,
    pub next_free: u32,
}

/// Writes a volume descriptor into the first 2,048 bytes of the output.
pub fn write_descriptor(out: &mut [u8], descriptor: Descriptor) -> Result<(), Error> {
    let Descriptor { root, stamp } = descriptor;
    match unsafe { sys::xdvdfs_write_descriptor(out.as_mut_ptr(), out.len(), root.sector, root.size, stamp.0) } {
        0 => Ok(()),
        n => Err(Error::writing(n)),
    }
}

/// The sectors that a length takes; a length of 0 takes one.
pub fn required_sectors(length: u64) -> u64 {
    unsafe { sys::xdvdfs_required_sectors(length) }
}

/// Hands out sectors, one run after another.
#[derive(Clone, Copy, Debug, PartialEq, Eq)]
pub struct SectorCounter {
    next: u32,
}

impl Default for SectorCounter {
    fn default() -> SectorCounter {
        SectorCounter::new()
    }
}

impl SectorCounter {
    /// At the first sector that an image hands out, 33.
    pub fn new() -> SectorCounter {
        SectorCounter { next: unsafe { sys::xdvdfs_first_sector() } }
    }

    pub fn starting_at(next: u32) -> SectorCounter {
        SectorCounter { next }
    }

    pub fn next_free(&self) -> u32 {
        self.next
    }

    /// Takes the sectors of a length: the first of them. After [`Error::SectorOverflow`] the counter is unchanged.
    pub fn take(&mut self, length: u64) -> Result<u32, Error> {
        let mut start = 0;
        match unsafe { sys::xdvdfs_take_sectors(&mut self.next, length, &mut start) } {
            0 => Ok(start),
            n => Err(Error::writing(n)),
        }
    }
}

/// The columns of a table that is being built, with the names of its entries.
#[derive(Clone, Debug)]
pub struct Arena {
    root: u16,
    count: u16,
    left: Vec<u16>,
    right: Vec<u16>,
    parent: Vec<u16>,
    height: Vec<u8>,
    start: Vec<u32>,
    len: Vec<u32>,
    size: Vec<u32>,
    kind: Vec<u8>,
    names: Vec<u8>,
}

impl Arena {
    /// With room for so many entries. No table holds more than 16,384.
    pub fn with_room(entries: usize) -> Arena {
        Arena {
            root: u16::MAX,
            count: 0,
            left: vec![0; entries],
            right: vec![0; entries],
            parent: vec![0; entries],
            height: vec![0; entries],
            start: vec![0; entries],
            len: vec![0; entries],
            size: vec![0; entries],
            kind: vec![0; entries],
            names: Vec::new(),
        }
    }

    /// How many entries it holds.
    pub fn count(&self) -> u16 {
        self.count
    }

    /// Adds an entry. A refusal changes nothing. Each call looks the whole arena over first: [`write_table`] does not.
    pub fn add(&mut self, name: &[u8], kind: Kind, size: u32) -> Result<(), Error> {
        let start = self.names.len();
        self.names.extend_from_slice(name);
        let added = self.add_at(start, name.len(), kind, size);
        if added.is_err() {
            self.names.truncate(start);
        }
        added
    }

    fn add_at(&mut self, start: usize, len: usize, kind: Kind, size: u32) -> Result<(), Error> {
        let len = u32::try_from(len).map_err(|_| Error::NameTooLong { entry: None })?;
        let start = u32::try_from(start).map_err(|_| Error::Full { entry: None })?;
        let n = unsafe {
            sys::xdvdfs_add(
                &mut self.root,
                &mut self.count,
                self.left.as_mut_ptr(),
                self.left.len(),
                self.right.as_mut_ptr(),
                self.right.len(),
                self.parent.as_mut_ptr(),
                self.parent.len(),
                self.height.as_mut_ptr(),
                self.height.len(),
                self.start.as_mut_ptr(),
                self.start.len(),
                self.len.as_mut_ptr(),
                self.len.len(),
                self.size.as_mut_ptr(),
                self.size.len(),
                self.kind.as_mut_ptr(),
                self.kind.len(),
                self.names.as_ptr(),
                self.names.len(),
                start,
                len,
                kind.number(),
                size,
            )
        };
        match n {
            0 => Ok(()),
            n => Err(Error::adding(n, None)),
        }
    }

    /// Writes the table, with sectors from `first` on, into the start of the output: as many bytes as the reported size rounded up to sectors. A refusal leaves the output
    /// as it was.
    pub fn serialise(&self, first: u32, out: &mut [u8]) -> Result<Written, Error> {
        let mut order = vec![0; self.count as usize];
        let mut place = vec![0; self.count as usize];
        let (mut size, mut next_free) = (0, 0);
        let n = unsafe {
            sys::xdvdfs_serialise(
                self.root,
                self.count,
                self.left.as_ptr(),
                self.left.len(),
                self.right.as_ptr(),
                self.right.len(),
                self.parent.as_ptr(),
                self.parent.len(),
                self.height.as_ptr(),
                self.height.len(),
                self.start.as_ptr(),
                self.start.len(),
                self.len.as_ptr(),
                self.len.len(),
                self.size.as_ptr(),
                self.size.len(),
                self.kind.as_ptr(),
                self.kind.len(),
                self.names.as_ptr(),
                self.names.len(),
                first,
                order.as_mut_ptr(),
                order.len(),
                place.as_mut_ptr(),
                place.len(),
                out.as_mut_ptr(),
                out.len(),
                &mut size,
                &mut next_free,
            )
        };
        match n {
            0 => Ok(Written { size, next_free }),
            n => Err(Error::writing(n)),
        }
    }
}

/// A list of entries in columns: where each name stands in `names`, its size in bytes and its kind (1 is a directory, any other number a file).
#[derive(Clone, Copy, Debug)]
pub struct List<'a> {
    pub start: &'a [u32],
    pub len: &'a [u32],
    pub size: &'a [u32],
    pub kind: &'a [u8],
    pub names: &'a [u8],
}

/// The scratch of [`write_list`], 15 bytes an entry: all zero after a call.
#[derive(Clone, Debug, Default)]
pub struct Scratch {
    left: Vec<u16>,
    right: Vec<u16>,
    parent: Vec<u16>,
    height: Vec<u8>,
    key: Vec<u32>,
    order: Vec<u16>,
    place: Vec<u16>,
}

impl Scratch {
    /// For lists of at most so many entries.
    pub fn with_room(entries: usize) -> Scratch {
        let narrow = vec![0; entries];
        Scratch {
            left: narrow.clone(),
            right: narrow.clone(),
            parent: narrow.clone(),
            height: vec![0; entries],
            key: vec![0; entries],
            order: narrow.clone(),
            place: narrow,
        }
    }
}

/// Writes the table of the first `count` entries of a list in one call, with sectors from `first` on. [`Error::Room`] where a column or the scratch is shorter than the
/// count. A refusal leaves the output as it was.
pub fn write_list(count: u32, list: List<'_>, first: u32, scratch: &mut Scratch, out: &mut [u8]) -> Result<Written, Error> {
    const NONE: u32 = u32::MAX; // an entry's number is at most 16,384
    let (mut size, mut next_free, mut entry) = (0, 0, NONE);
    let s = scratch;
    let n = unsafe {
        sys::xdvdfs_write_list(
            count,
            list.start.as_ptr(),
            list.start.len(),
            list.len.as_ptr(),
            list.len.len(),
            list.size.as_ptr(),
            list.size.len(),
            list.kind.as_ptr(),
            list.kind.len(),
            list.names.as_ptr(),
            list.names.len(),
            first,
            s.left.as_mut_ptr(),
            s.left.len(),
            s.right.as_mut_ptr(),
            s.right.len(),
            s.parent.as_mut_ptr(),
            s.parent.len(),
            s.height.as_mut_ptr(),
            s.height.len(),
            s.key.as_mut_ptr(),
            s.key.len(),
            s.order.as_mut_ptr(),
            s.order.len(),
            s.place.as_mut_ptr(),
            s.place.len(),
            out.as_mut_ptr(),
            out.len(),
            &mut size,
            &mut next_free,
            &mut entry,
        )
    };
    match n {
        0 => Ok(Written { size, next_free }),
        n if entry != NONE => Err(Error::adding(n, Some(entry))),
        n => Err(Error::writing(n)),
    }
}

/// An entry to write.
#[derive(Clone, Copy, Debug)]
pub struct NewEntry<'a> {
    pub name: &'a [u8],
    pub kind: Kind,
    pub size: u32,
}

/// Writes the table of a list of entries into memory of its own: its bytes, whole sectors, and what writing gives.
pub fn write_table(entries: &[NewEntry<'_>], first: u32) -> Result<(Vec<u8>, Written), Error> {
    let names: Vec<u8> = entries.iter().flat_map(|e| e.name.iter().copied()).collect();
    let mut at = 0;
    let mut columns = (Vec::new(), Vec::new(), Vec::new(), Vec::new());
    for e in entries {
        // a length past u32 is past 255 and refused; a place past u32 comes after such a name, or after more entries than a table takes
        columns.0.push(u32::try_from(at).unwrap_or(u32::MAX));
        columns.1.push(u32::try_from(e.name.len()).unwrap_or(u32::MAX));
        columns.2.push(e.size);
        columns.3.push(e.kind.number());
        at += e.name.len();
    }
    let count = u32::try_from(entries.len()).unwrap_or(u32::MAX);
    let list = List { start: &columns.0, len: &columns.1, size: &columns.2, kind: &columns.3, names: &names };
    // an entry and the gap before it have less than 544 bytes; and as none crosses a sector line, the last that a link reaches ends by 262,144
    let most = (entries.len().saturating_mul(544)).clamp(2048, 262_144).next_multiple_of(2048);
    let mut out = vec![0; most];
    let written = write_list(count, list, first, &mut Scratch::with_room(entries.len()), &mut out)?;
    out.truncate(written.size.next_multiple_of(2048) as usize);
    Ok((out, written))
}
