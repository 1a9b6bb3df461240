//! The boundary: the only place that knows how this repository's code is called, which is by libcapi.a. Every cell that an answer does not fill is looked at too: it
//! has to be as it was.
mod plan;
#[path = "../../bindings/rust/src/sys.rs"]
#[allow(dead_code)]
mod sys;
mod write;

use crate::{Descriptor, Entry, Limits, Said, Table, View};
pub use plan::{plan, Prepared};
use sys::Fields;
pub use write::{add_in_turn, whole, write_list, Entries, Lent};

/// What stands in every cell before a call.
const BEFORE: u32 = 0x0707_0707;
const BEFORE_STAMP: u64 = 0x0707_0707_0707_0707;
const BEFORE_DESCRIPTOR: Descriptor = Descriptor { root: Table { sector: BEFORE, size: BEFORE }, stamp: BEFORE_STAMP };

/// The cells of a reader's answer.
struct Answer {
    number: u32,
    fields: Fields,
    place: usize,
    offset: u32,
    headers: u32,
}

impl Answer {
    #[inline]
    fn before() -> Answer {
        Answer { number: BEFORE, fields: [BEFORE; 6], place: BEFORE as usize, offset: BEFORE, headers: BEFORE }
    }

    /// Whether the cells that this answer has no value for are as they were. `found`: an entry is given; `offset`, `headers`: those are.
    fn kept(&self, found: bool, offset: bool, headers: bool) -> bool {
        let entry = self.fields == [BEFORE; 6] && self.place == BEFORE as usize;
        (found || entry) && (offset || self.offset == BEFORE) && (headers || self.headers == BEFORE)
    }

    fn entry(&self, v: View) -> Entry {
        let [left, right, sector, size, attributes, name_len] = self.fields;
        Entry {
            byte: 2048 * v.first as u64 + self.place as u64,
            left: left as u16,
            right: right as u16,
            sector,
            size,
            attributes: attributes as u8,
            name_len: name_len as u8,
        }
    }

    fn at_fault(&self, t: Table) -> Option<u64> {
        [23, 24, 30, 31, 32].contains(&self.number).then_some(2048 * t.sector as u64 + self.offset as u64)
    }
}

#[inline]
fn call_look_up(v: View, t: Table, name: &[u8], rule: u32) -> Answer {
    let mut a = Answer::before();
    a.number = unsafe {
        sys::xdvdfs_look_up(
            v.bytes.as_ptr(),
            v.bytes.len(),
            v.first,
            t.sector,
            t.size,
            name.as_ptr(),
            name.len(),
            rule,
            &mut a.fields,
            &mut a.place,
            &mut a.offset,
            &mut a.headers,
        )
    };
    a
}

#[inline]
fn call_path(v: View, t: Table, path: &[u8], rule: u32) -> Answer {
    let mut a = Answer::before();
    a.number = unsafe {
        sys::xdvdfs_find_path(
            v.bytes.as_ptr(),
            v.bytes.len(),
            v.first,
            t.sector,
            t.size,
            path.as_ptr(),
            path.len(),
            rule,
            &mut a.fields,
            &mut a.place,
            &mut a.offset,
        )
    };
    a
}

#[inline]
fn call_entry(v: View, t: Table, offset: u32) -> (Answer, u32) {
    let (mut a, mut found) = (Answer::before(), BEFORE);
    a.number = unsafe {
        sys::xdvdfs_read_entry(v.bytes.as_ptr(), v.bytes.len(), v.first, t.sector, t.size, offset, &mut found, &mut a.fields, &mut a.place)
    };
    (a, found)
}

/// The walk: its answer's number, the count and the offset of a fault.
#[inline]
fn call_walk(v: View, t: Table, list: &mut [u32], scratch: &mut [u32]) -> (Answer, usize) {
    let (mut a, mut count) = (Answer::before(), BEFORE as usize);
    let (l, s) = (list.as_mut_ptr(), scratch.as_mut_ptr());
    let (w, wl) = (v.bytes.as_ptr(), v.bytes.len());
    a.number = unsafe { sys::xdvdfs_walk(w, wl, v.first, t.sector, t.size, l, list.len(), s, scratch.len(), &mut count, &mut a.offset) };
    (a, count)
}

#[inline]
fn call_check(v: View, t: Table, list: &mut [u32], scratch: &mut [u64]) -> (Answer, usize) {
    let (mut a, mut count) = (Answer::before(), BEFORE as usize);
    let (l, s) = (list.as_mut_ptr(), scratch.as_mut_ptr());
    let (w, wl) = (v.bytes.as_ptr(), v.bytes.len());
    a.number =
        unsafe { sys::xdvdfs_check_table(w, wl, v.first, t.sector, t.size, l, list.len(), s, scratch.len(), &mut count, &mut a.offset) };
    (a, count)
}

#[inline]
fn call_limits(v: View, path: &[u8], time: u64, age: u64, l: &mut Limits) {
    let (w, wl) = (v.bytes.as_ptr(), v.bytes.len());
    l.number =
        unsafe { sys::xdvdfs_load_limits(w, wl, v.first, path.as_ptr(), path.len(), time, age, &mut l.sector, &mut l.size, &mut l.stamp) };
}

/// The lookup of a name under a rule, which is any number.
pub fn look_up(v: View, t: Table, name: &[u8], rule: u32) -> Said {
    let a = call_look_up(v, t, name, rule);
    if a.number == 0 {
        let entry = a.entry(v);
        assert_eq!(entry.byte, 2048 * t.sector as u64 + a.offset as u64, "place and offset of a found entry");
        return Said::Found { entry, headers: Some(a.headers) };
    }
    assert!(a.kept(false, a.at_fault(t).is_some(), a.number == 22), "cells after {}", a.number);
    Said::Refused { number: a.number, byte: a.at_fault(t), headers: (a.number == 22).then_some(a.headers) }
}

/// A path's answer under a rule, which is any number; of 23 and 24 the offset in the table at which it ended.
pub fn path(v: View, t: Table, path: &[u8], rule: u32) -> (Said, u32) {
    let a = call_path(v, t, path, rule);
    assert!(a.kept(a.number == 0, a.at_fault(t).is_some(), false), "cells after {}", a.number);
    if a.number == 0 {
        return (Said::Found { entry: a.entry(v), headers: None }, a.offset);
    }
    (Said::refused(a.number), a.offset)
}

/// The entry at an offset; None where no entry stands there.
pub fn entry(v: View, t: Table, offset: u32) -> Option<Said> {
    let (mut a, found) = call_entry(v, t, offset);
    assert!(a.kept((a.number, found) == (0, 1), false, false), "cells after {}", a.number);
    a.offset = offset;
    match (a.number, found) {
        (0, 0) => None,
        (0, 1) => Some(Said::Found { entry: a.entry(v), headers: None }),
        (number, BEFORE) => Some(Said::Refused { number, byte: a.at_fault(t), headers: None }),
        other => panic!("an answer that no contract allows: {other:?}"),
    }
}

/// The list of a walk or a strict check, or its refusal. Lent memory is looked at: zeros past the count, and in the scratch.
fn listed(t: Table, a: Answer, count: usize, mut list: Vec<u32>, clear: bool) -> Said {
    let held = if a.number == 0 { count } else { 0 };
    assert!(a.number == 0 || count == BEFORE as usize, "the count after {}", a.number);
    assert!(a.kept(false, a.at_fault(t).is_some(), false), "cells after {}", a.number);
    assert!(clear && list[held..].iter().all(|&x| x == 0), "lent memory after a walk or a strict check");
    if a.number == 0 {
        list.truncate(count);
        return Said::Listed(list);
    }
    Said::Refused { number: a.number, byte: a.at_fault(t), headers: None }
}

/// The walk into a list of so many places.
pub fn walk(v: View, t: Table, places: usize) -> Said {
    let (mut list, mut scratch) = (vec![7; places], vec![7; places + 1]);
    let (a, count) = call_walk(v, t, &mut list, &mut scratch);
    listed(t, a, count, list, scratch.iter().all(|&x| x == 0))
}

/// The strict check into a list of so many places.
pub fn check(v: View, t: Table, places: usize) -> Said {
    let (mut list, mut scratch) = (vec![7; places], vec![7; places + 1]);
    let (a, count) = call_check(v, t, &mut list, &mut scratch);
    listed(t, a, count, list, scratch.iter().all(|&x| x == 0))
}

/// The number of a strict check whose scratch is not longer than its list. All that is lent has to be as it was.
pub fn check_without_room(v: View, t: Table, places: usize) -> u32 {
    let (mut list, mut scratch) = (vec![7; places], vec![7; places]);
    let (a, count) = call_check(v, t, &mut list, &mut scratch);
    assert!(a.kept(false, false, false) && count == BEFORE as usize, "cells after {}", a.number);
    assert!(list.iter().all(|&x| x == 7) && scratch.iter().all(|&x| x == 7), "lent memory after {}", a.number);
    a.number
}

pub fn read_descriptor(bytes: &[u8]) -> Option<Descriptor> {
    let mut d = BEFORE_DESCRIPTOR;
    let (sector, size) = (&mut d.root.sector, &mut d.root.size);
    let number = unsafe { sys::xdvdfs_read_descriptor(bytes.as_ptr(), bytes.len(), sector, size, &mut d.stamp) };
    assert!(number == 0 || (number, d) == (20, BEFORE_DESCRIPTOR), "cells after {number}: {d:?}");
    (number == 0).then_some(d)
}

/// Its number. After a refusal the output has to be as it was.
pub fn write_descriptor(out: &mut [u8], d: Descriptor) -> u32 {
    let before = out.to_vec();
    let number = unsafe { sys::xdvdfs_write_descriptor(out.as_mut_ptr(), out.len(), d.root.sector, d.root.size, d.stamp) };
    assert!(number == 0 || (number, &before[..]) == (9, &out[..]), "output after {number}");
    number
}

/// What the limits loader answers. Its cells are stored in every call, so they are given as they are found.
pub fn load_limits(v: View, path: &[u8], time: u64, age: u64) -> Limits {
    let mut l = Limits { number: BEFORE, sector: BEFORE, size: BEFORE, stamp: BEFORE_STAMP };
    call_limits(v, path, time, age, &mut l);
    l
}

/// For the race: the answer's number and the entry's sector, so that nothing can be left out.
#[inline]
pub fn fast_look_up(v: View, t: Table, name: &[u8], rule: u32) -> u64 {
    let a = call_look_up(v, t, name, rule);
    a.number as u64 + a.fields[2] as u64
}

#[inline]
pub fn fast_path(v: View, t: Table, path: &[u8], rule: u32) -> u64 {
    let a = call_path(v, t, path, rule);
    a.number as u64 + a.fields[2] as u64
}

/// The walk into memory lent for the whole race.
#[inline]
pub fn fast_walk(v: View, t: Table, list: &mut [u32], scratch: &mut [u32]) -> usize {
    call_walk(v, t, list, scratch).1
}

#[inline]
pub fn fast_entry(v: View, t: Table, offset: u32) -> u64 {
    call_entry(v, t, offset).0.fields[2] as u64
}

/// The strict check into memory lent for the whole race: the count, or a number of 1,000,000 and more where a fault is found.
#[inline]
pub fn fast_check(v: View, t: Table, list: &mut [u32], scratch: &mut [u64]) -> usize {
    let (a, count) = call_check(v, t, list, scratch);
    count + 1_000_000 * a.number as usize
}

/// The cells of the limits loader, and of the descriptor and the path that it has in one, lent for the whole race.
pub struct Cells {
    limits: Limits,
    descriptor: Descriptor,
    found: Answer,
}

impl Cells {
    pub fn before() -> Cells {
        Cells { limits: Limits::refused(BEFORE), descriptor: BEFORE_DESCRIPTOR, found: Answer::before() }
    }
}

#[inline]
pub fn fast_limits(v: View, path: &[u8], time: u64, age: u64, cells: &mut Cells) -> u64 {
    let l = &mut cells.limits;
    call_limits(v, path, time, age, l);
    l.number as u64 + l.sector as u64 + l.size as u64 + l.stamp % 65_536
}

/// The descriptor of an image, and then a path from its root under a rule: two calls.
#[inline]
pub fn fast_descriptor_and_path(v: View, path: &[u8], rule: u32, cells: &mut Cells) -> u64 {
    let (s, d, a) = (&v.bytes[2048 * (32 - v.first as usize)..], &mut cells.descriptor, &mut cells.found);
    let (sector, size) = (&mut d.root.sector, &mut d.root.size);
    let number = unsafe { sys::xdvdfs_read_descriptor(s.as_ptr(), s.len(), sector, size, &mut d.stamp) };
    if number != 0 {
        return number as u64;
    }
    let (w, wl, p, pl) = (v.bytes.as_ptr(), v.bytes.len(), path.as_ptr(), path.len());
    let (root, fields) = (d.root, &mut a.fields);
    a.number = unsafe { sys::xdvdfs_find_path(w, wl, v.first, root.sector, root.size, p, pl, rule, fields, &mut a.place, &mut a.offset) };
    a.number as u64 + a.fields[2] as u64 + a.fields[3] as u64 + d.stamp % 65_536
}
