//! Plans of this repository's code. Lent memory is looked at after each call: scratch is zero, and outputs are as they were where nothing is given back.
use super::sys;
use super::BEFORE;
use crate::plans::{Columns, Planned, Request};

/// What is lent besides: what is given back, and scratch by directory, by node of the largest directory, and by entry.
struct Lent {
    sizes: Vec<u32>,
    tables: Vec<u32>,
    sectors: Vec<u32>,
    sized: Vec<u32>,
    links: [Vec<u16>; 3],
    height: Vec<u8>,
    key: Vec<u32>,
    size: Vec<u32>,
    order: Vec<u16>,
}

impl Lent {
    fn new(directories: usize, entries: usize, most: usize) -> Lent {
        let links = || vec![7; most];
        Lent {
            sizes: vec![7; directories],
            tables: vec![7; directories],
            sectors: vec![7; entries],
            sized: vec![7; directories],
            links: [links(), links(), links()],
            height: vec![7; most],
            key: vec![7; most],
            size: vec![7; most],
            order: vec![7; entries],
        }
    }

    /// Whether each place of the scratch holds this.
    fn scratch_is(&self, x: u8) -> bool {
        let words = [&self.sized, &self.key, &self.size];
        let links = [&self.links[0], &self.links[1], &self.links[2], &self.order];
        words.iter().all(|column| column.iter().all(|&y| y == x as u32))
            && links.iter().all(|column| column.iter().all(|&y| y == x as u16))
            && self.height.iter().all(|&y| y == x)
    }

    fn is_untold(&self) -> bool {
        [&self.sizes, &self.tables, &self.sectors].iter().all(|column| column.iter().all(|&y| y == 7))
    }
}

/// The cells of an answer: the next free sector, the refused entry and the refused directory.
struct Cells {
    next: u32,
    entry: u32,
    directory: u32,
}

fn call(c: &Columns, l: &mut Lent) -> (u32, Cells) {
    let mut cells = Cells { next: BEFORE, entry: BEFORE, directory: BEFORE };
    let number = unsafe {
        sys::xdvdfs_plan(
            c.first.len() as u32,
            c.start.len() as u32,
            c.first.as_ptr(),
            c.first.len(),
            c.share.as_ptr(),
            c.share.len(),
            c.start.as_ptr(),
            c.start.len(),
            c.len.as_ptr(),
            c.len.len(),
            c.kind.as_ptr(),
            c.kind.len(),
            c.value.as_ptr(),
            c.value.len(),
            c.names.as_ptr(),
            c.names.len(),
            l.sizes.as_mut_ptr(),
            l.sizes.len(),
            l.tables.as_mut_ptr(),
            l.tables.len(),
            l.sectors.as_mut_ptr(),
            l.sectors.len(),
            l.sized.as_mut_ptr(),
            l.sized.len(),
            l.links[0].as_mut_ptr(),
            l.links[0].len(),
            l.links[1].as_mut_ptr(),
            l.links[1].len(),
            l.links[2].as_mut_ptr(),
            l.links[2].len(),
            l.height.as_mut_ptr(),
            l.height.len(),
            l.key.as_mut_ptr(),
            l.key.len(),
            l.size.as_mut_ptr(),
            l.size.len(),
            l.order.as_mut_ptr(),
            l.order.len(),
            &mut cells.next,
            &mut cells.entry,
            &mut cells.directory,
        )
    };
    (number, cells)
}

/// A plan. `short`: one of the lent columns is a place too short, which is 6 before all else.
pub fn plan(request: &Request, short: Option<usize>) -> Planned {
    let c = Columns::of(request);
    let most = c.share.iter().max().map_or(0, |&most| most as usize);
    let mut l = Lent::new(c.first.len(), c.start.len(), most);
    match short {
        Some(0) => l.sizes.truncate(c.first.len() - 1),
        Some(1) => l.tables.truncate(c.first.len() - 1),
        Some(2) => l.sized.truncate(c.first.len() - 1),
        Some(3) => l.sectors.truncate(c.start.len() - 1),
        Some(4) => l.order.truncate(c.start.len() - 1),
        Some(5) => l.height.truncate(most - 1),
        Some(6) => l.key.truncate(most - 1),
        Some(7) => l.size.truncate(most - 1),
        Some(i) => l.links[i % 3].truncate(most - 1),
        None => {}
    }
    let (number, cells) = call(&c, &mut l);
    assert!(l.scratch_is(if short.is_some() { 7 } else { 0 }), "scratch after {number}");
    let told = |cell: u32| (cell != BEFORE).then_some(cell);
    if number == 0 {
        assert!((cells.entry, cells.directory) == (BEFORE, BEFORE), "cells of a refusal where nothing is refused");
        return Planned::Done { sizes: l.sizes, tables: l.tables, sectors: l.sectors, next: Some(cells.next) };
    }
    assert!(l.is_untold() && cells.next == BEFORE, "outputs after {number}");
    let (entry, other) = if number == 7 || number == 8 { (cells.directory, cells.entry) } else { (cells.entry, cells.directory) };
    assert!(other == BEFORE, "the other cell after {number}");
    Planned::Refused { number, entry: told(entry) }
}

/// A request as columns, with what is lent for its plan: what the race calls again and again.
pub struct Prepared {
    columns: Columns,
    lent: Lent,
}

impl Prepared {
    pub fn of(request: &Request) -> Prepared {
        let columns = Columns::of(request);
        let most = columns.share.iter().max().map_or(0, |&most| most as usize);
        let lent = Lent::new(columns.first.len(), columns.start.len(), most);
        Prepared { columns, lent }
    }

    /// How many entries it has.
    pub fn size(&self) -> usize {
        self.columns.start.len()
    }

    /// The next free sector.
    pub fn plan(&mut self) -> u64 {
        let (number, cells) = call(&self.columns, &mut self.lent);
        assert_eq!(number, 0, "a plan that is raced");
        cells.next as u64
    }
}
