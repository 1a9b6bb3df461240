//! Planning an image: the size and the sector of each directory's table, and the sector of each entry.
use crate::{sys, Error, Table};

/// What an entry of a plan is: a file with its length, or the directory of a number, which is a later one than the directory that the entry stands in.
#[derive(Clone, Copy, Debug, PartialEq, Eq)]
pub enum Content {
    File(u64),
    Directory(u32),
}

/// An entry of a plan.
#[derive(Clone, Copy, Debug)]
pub struct PlanEntry<'a> {
    pub name: &'a [u8],
    pub content: Content,
}

/// A plan: for each directory its table with the reported size, for each entry its sector (all entries in one list, directory after directory), and the next free
/// sector.
#[derive(Clone, Debug, PartialEq, Eq)]
pub struct Plan {
    pub tables: Vec<Table>,
    pub sectors: Vec<u32>,
    pub next_free: u32,
}

/// The directories and entries of a plan in columns, as include/xdvdfs.h has them.
#[derive(Default)]
struct Columns {
    first: Vec<u32>,
    share: Vec<u32>,
    start: Vec<u32>,
    len: Vec<u32>,
    kind: Vec<u8>,
    value: Vec<u64>,
    names: Vec<u8>,
}

fn columns_of(directories: &[&[PlanEntry<'_>]]) -> Result<Columns, Error> {
    let number = |n: usize| u32::try_from(n).map_err(|_| Error::Room);
    let mut c = Columns::default();
    for entries in directories {
        c.first.push(number(c.start.len())?);
        c.share.push(number(entries.len())?);
        for e in *entries {
            c.start.push(number(c.names.len())?);
            c.len.push(number(e.name.len())?);
            c.names.extend_from_slice(e.name);
            let (kind, value) = match e.content {
                Content::File(length) => (0, length),
                Content::Directory(x) => (1, u64::from(x)),
            };
            c.kind.push(kind);
            c.value.push(value);
        }
    }
    number(c.start.len())?;
    number(c.first.len())?;
    Ok(c)
}

/// Plans an image of these directories, the root first. An error's entry is its place in the list of all entries. [`Error::Room`] only where there are more than
/// 4,294,967,295 entries, directories or bytes of names. A directory's table is then written by [`write_table`](crate::write_table) with its entries, a directory's size
/// being its table's, and with the least of its entries' sectors as the first (any, where it has none).
pub fn plan(directories: &[&[PlanEntry<'_>]]) -> Result<Plan, Error> {
    const NONE: u32 = u32::MAX; // no entry's place: there are at most so many
    let c = columns_of(directories)?;
    let (many, all) = (c.first.len(), c.start.len());
    let most = directories.iter().map(|d| d.len()).max().unwrap_or(0);
    let (mut sizes, mut tables, mut sectors) = (vec![0; many], vec![0; many], vec![0; all]);
    let (mut sized, mut order) = (vec![0; many], vec![0; all]);
    let (mut left, mut right, mut parent) = (vec![0; most], vec![0; most], vec![0; most]);
    let (mut height, mut key, mut size) = (vec![0; most], vec![0; most], vec![0; most]);
    let (mut next_free, mut entry, mut directory) = (0, NONE, 0);
    let n = unsafe {
        sys::xdvdfs_plan(
            many as u32,
            all as u32,
            c.first.as_ptr(),
            many,
            c.share.as_ptr(),
            many,
            c.start.as_ptr(),
            all,
            c.len.as_ptr(),
            all,
            c.kind.as_ptr(),
            all,
            c.value.as_ptr(),
            all,
            c.names.as_ptr(),
            c.names.len(),
            sizes.as_mut_ptr(),
            many,
            tables.as_mut_ptr(),
            many,
            sectors.as_mut_ptr(),
            all,
            sized.as_mut_ptr(),
            many,
            left.as_mut_ptr(),
            most,
            right.as_mut_ptr(),
            most,
            parent.as_mut_ptr(),
            most,
            height.as_mut_ptr(),
            most,
            key.as_mut_ptr(),
            most,
            size.as_mut_ptr(),
            most,
            order.as_mut_ptr(),
            all,
            &mut next_free,
            &mut entry,
            &mut directory,
        )
    };
    match n {
        0 => {
            let tables = tables.into_iter().zip(sizes).map(|(sector, size)| Table { sector, size }).collect();
            Ok(Plan { tables, sectors, next_free })
        }
        n => Err(Error::planning(n, (entry != NONE).then_some(entry), directory)),
    }
}
