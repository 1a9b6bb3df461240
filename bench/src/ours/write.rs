//! Tables written by this repository's code: a whole list in one call, and entries added in turn to an arena that is then serialised. Lent memory is looked at after each call.
use super::sys;
use super::BEFORE;
use crate::{Job, Turns, Wrote};

/// The caller's own list: the names' bytes one after the other, and for each entry the place and length of its name, its size and its kind (1 is a directory).
#[derive(Default)]
pub struct Entries {
    pub bytes: Vec<u8>,
    pub start: Vec<u32>,
    pub len: Vec<u32>,
    pub size: Vec<u32>,
    pub kind: Vec<u8>,
}

impl Entries {
    fn push(&mut self, name: &[u8], size: u32, directory: bool) {
        self.start.push(self.bytes.len() as u32);
        self.len.push(name.len() as u32);
        self.size.push(size);
        self.kind.push(directory as u8);
        self.bytes.extend(name);
    }

    /// Files, the i-th one i bytes long, as `theirs::write_list` has them.
    pub fn of(names: &[String]) -> Entries {
        let mut e = Entries::default();
        names.iter().enumerate().for_each(|(i, name)| e.push(name.as_bytes(), i as u32, false));
        e
    }

    pub fn of_job(job: &Job) -> Entries {
        let mut e = Entries::default();
        job.list.iter().for_each(|new| e.push(&new.name, new.size, new.directory));
        e
    }
}

/// What a whole list is lent besides: seven columns with a place for each entry.
pub struct Lent {
    left: Vec<u16>,
    right: Vec<u16>,
    parent: Vec<u16>,
    height: Vec<u8>,
    key: Vec<u32>,
    order: Vec<u16>,
    place: Vec<u16>,
}

impl Lent {
    pub fn new(count: usize) -> Lent {
        let links = || vec![7u16; count];
        Lent { left: links(), right: links(), parent: links(), height: vec![7; count], key: vec![7; count], order: links(), place: links() }
    }

    pub fn bytes(&self) -> usize {
        let links = [&self.left, &self.right, &self.parent, &self.order, &self.place];
        links.map(|column| std::mem::size_of_val(&column[..])).iter().sum::<usize>()
            + std::mem::size_of_val(&self.height[..])
            + std::mem::size_of_val(&self.key[..])
    }

    /// Whether each place of each column holds this.
    pub fn is_all(&self, x: u8) -> bool {
        let links = [&self.left, &self.right, &self.parent, &self.order, &self.place];
        links.iter().all(|column| column.iter().all(|&y| y == x as u16))
            && self.height.iter().all(|&y| y == x)
            && self.key.iter().all(|&y| y == x as u32)
    }

    pub fn is_zero(&self) -> bool {
        self.is_all(0)
    }
}

/// The cells of a writer's answer.
struct Cells {
    size: u32,
    next: u32,
    entry: u32,
}

#[inline]
fn call_write_list(e: &Entries, first: u32, lent: &mut Lent, out: &mut [u8]) -> (u32, Cells) {
    let mut cells = Cells { size: BEFORE, next: BEFORE, entry: BEFORE };
    let number = unsafe {
        sys::xdvdfs_write_list(
            e.start.len() as u32,
            e.start.as_ptr(),
            e.start.len(),
            e.len.as_ptr(),
            e.len.len(),
            e.size.as_ptr(),
            e.size.len(),
            e.kind.as_ptr(),
            e.kind.len(),
            e.bytes.as_ptr(),
            e.bytes.len(),
            first,
            lent.left.as_mut_ptr(),
            lent.left.len(),
            lent.right.as_mut_ptr(),
            lent.right.len(),
            lent.parent.as_mut_ptr(),
            lent.parent.len(),
            lent.height.as_mut_ptr(),
            lent.height.len(),
            lent.key.as_mut_ptr(),
            lent.key.len(),
            lent.order.as_mut_ptr(),
            lent.order.len(),
            lent.place.as_mut_ptr(),
            lent.place.len(),
            out.as_mut_ptr(),
            out.len(),
            &mut cells.size,
            &mut cells.next,
            &mut cells.entry,
        )
    };
    (number, cells)
}

/// A whole list written as a table: its size and the next free sector, or the number of the refusal. For the race.
#[inline]
pub fn write_list(e: &Entries, first: u32, lent: &mut Lent, out: &mut [u8]) -> Result<(u32, u32), u32> {
    match call_write_list(e, first, lent, out) {
        (0, cells) => Ok((cells.size, cells.next)),
        (number, _) => Err(number),
    }
}

/// The output after a call: the bytes up to the rounded size where there is a table, and nothing else changed.
fn taken(number: u32, cells: &Cells, out: Vec<u8>, entry: Option<u32>) -> Wrote {
    let held = if number == 0 { cells.size.next_multiple_of(2048) as usize } else { 0 };
    assert!(out[held..].iter().all(|&x| x == 7), "output that was not to be written, after {number}");
    if number == 0 {
        return Wrote::Done { size: cells.size, next: cells.next, bytes: out[..held].to_vec() };
    }
    assert!((cells.size, cells.next) == (BEFORE, BEFORE), "cells after {number}");
    Wrote::Refused { number, entry }
}

/// The list of a job in one call. `short`: one of the lent columns is a place too short, which is 6 before all else.
pub fn whole(job: &Job, short: Option<usize>) -> Wrote {
    let (e, mut lent, mut out) = (Entries::of_job(job), Lent::new(job.list.len()), vec![7; job.room]);
    let less = job.list.len().saturating_sub(1);
    match short {
        Some(0) => lent.left.truncate(less),
        Some(1) => lent.right.truncate(less),
        Some(2) => lent.parent.truncate(less),
        Some(3) => lent.height.truncate(less),
        Some(4) => lent.key.truncate(less),
        Some(5) => lent.order.truncate(less),
        Some(_) => lent.place.truncate(less),
        None => {}
    }
    let (number, cells) = call_write_list(&e, job.first, &mut lent, &mut out);
    assert!(lent.is_all(if short.is_some() { 7 } else { 0 }), "scratch after {number}");
    let entry = (cells.entry != BEFORE).then_some(cells.entry);
    taken(number, &cells, out, entry)
}

/// An arena: eight columns of so many places.
#[derive(Clone, PartialEq, Eq, Debug)]
struct Arena {
    root: u16,
    count: u16,
    left: Vec<u16>,
    right: Vec<u16>,
    parent: Vec<u16>,
    height: Vec<u8>,
    start: Vec<u32>,
    len: Vec<u32>,
    size: Vec<u32>,
    kind: Vec<u8>,
}

impl Arena {
    fn empty(places: usize) -> Arena {
        Arena {
            root: 65535,
            count: 0,
            left: vec![7; places],
            right: vec![7; places],
            parent: vec![7; places],
            height: vec![7; places],
            start: vec![7; places],
            len: vec![7; places],
            size: vec![7; places],
            kind: vec![7; places],
        }
    }

    /// One entry of the list added.
    fn add(&mut self, e: &Entries, i: usize) -> u32 {
        unsafe {
            sys::xdvdfs_add(
                &mut self.root,
                &mut self.count,
                self.left.as_mut_ptr(),
                self.left.len(),
                self.right.as_mut_ptr(),
                self.right.len(),
                self.parent.as_mut_ptr(),
                self.parent.len(),
                self.height.as_mut_ptr(),
                self.height.len(),
                self.start.as_mut_ptr(),
                self.start.len(),
                self.len.as_mut_ptr(),
                self.len.len(),
                self.size.as_mut_ptr(),
                self.size.len(),
                self.kind.as_mut_ptr(),
                self.kind.len(),
                e.bytes.as_ptr(),
                e.bytes.len(),
                e.start[i],
                e.len[i],
                e.kind[i],
                e.size[i],
            )
        }
    }

    fn serialise(&self, e: &Entries, first: u32, order: &mut [u16], place: &mut [u16], out: &mut [u8]) -> (u32, Cells) {
        let mut cells = Cells { size: BEFORE, next: BEFORE, entry: BEFORE };
        let number = unsafe {
            sys::xdvdfs_serialise(
                self.root,
                self.count,
                self.left.as_ptr(),
                self.left.len(),
                self.right.as_ptr(),
                self.right.len(),
                self.parent.as_ptr(),
                self.parent.len(),
                self.height.as_ptr(),
                self.height.len(),
                self.start.as_ptr(),
                self.start.len(),
                self.len.as_ptr(),
                self.len.len(),
                self.size.as_ptr(),
                self.size.len(),
                self.kind.as_ptr(),
                self.kind.len(),
                e.bytes.as_ptr(),
                e.bytes.len(),
                first,
                order.as_mut_ptr(),
                order.len(),
                place.as_mut_ptr(),
                place.len(),
                out.as_mut_ptr(),
                out.len(),
                &mut cells.size,
                &mut cells.next,
            )
        };
        (number, cells)
    }

    /// Whether the entries' columns hold this entry at the last held place, and every place past it is as before.
    fn holds(&self, before: &Arena, e: &Entries, i: usize) -> bool {
        let (n, rounded) = (before.count as usize, if e.kind[i] == 1 { e.size[i].next_multiple_of(2048) } else { e.size[i] });
        self.count as usize == n + 1
            && (self.start[n], self.len[n], self.size[n], self.kind[n]) == (e.start[i], e.len[i], rounded, e.kind[i])
            && self.left[n + 1..] == before.left[n + 1..]
            && self.height[n + 1..] == before.height[n + 1..]
            && self.start[..n] == before.start[..n]
            && self.start[n + 1..] == before.start[n + 1..]
    }

    /// The tree: root, and for each held node left, right, parent and height.
    fn tree(&self) -> (u16, Vec<[u16; 4]>) {
        let node = |i: usize| [self.left[i], self.right[i], self.parent[i], self.height[i] as u16];
        (self.root, (0..self.count as usize).map(node).collect())
    }
}

/// Each entry of a job added in turn to an arena of `job.places` places, a refused one left out, and the table of those that were taken.
pub fn add_in_turn(job: &Job) -> Turns {
    let (e, mut arena) = (Entries::of_job(job), Arena::empty(job.places));
    let mut numbers = Vec::new();
    for i in 0..job.list.len() {
        let before = arena.clone();
        let number = arena.add(&e, i);
        let right = if number == 0 { arena.holds(&before, &e, i) } else { arena == before };
        assert!(right, "the arena after {number}");
        numbers.push(number);
    }
    let (mut order, mut place) = (vec![7; arena.count as usize], vec![7; arena.count as usize + 1]);
    let mut out = vec![7; job.room];
    let (number, cells) = arena.serialise(&e, job.first, &mut order, &mut place, &mut out);
    assert!(order.iter().chain(&place).all(|&x| x == 0), "scratch after {number}");
    Turns { numbers, end: taken(number, &cells, out, None), tree: Some(arena.tree()) }
}
