//! For every slice of every function a call in which it is null with length 0 and the others are there, and one in which all are: the number is the one that
//! include/xdvdfs.h says, and a cell for which the answer has no value is as it was; but the limits loader stores 0 there. (bindings/c/tests.c looks at all lent memory too.)
use crate::sys;
use std::ptr::{null, null_mut};

/// `Some(i)`: slice i is null. `None`: every one is.
type Missing = Option<usize>;

fn is_empty(missing: Missing, i: usize) -> bool {
    missing.is_none() || missing == Some(i)
}

/// Every way of leaving out one of so many slices, and all.
fn ways(slices: usize) -> impl Iterator<Item = Missing> {
    (0..slices).map(Some).chain([None])
}

/// A slice that is read, as pointer and length.
fn read<T>(missing: Missing, i: usize, s: &[T]) -> (*const T, usize) {
    if is_empty(missing, i) {
        (null(), 0)
    } else {
        (s.as_ptr(), s.len())
    }
}

/// A slice that may be written.
fn lent<T>(missing: Missing, i: usize, s: &mut [T]) -> (*mut T, usize) {
    if is_empty(missing, i) {
        (null_mut(), 0)
    } else {
        (s.as_mut_ptr(), s.len())
    }
}

const UNTOUCHED: u32 = 77;
/// b with the links 4 and 8, then a and c.
const ABC: [u8; 48] = [
    4, 0, 8, 0, 34, 0, 0, 0, 1, 0, 0, 0, 32, 1, b'b', 255, 0, 0, 0, 0, 35, 0, 0, 0, 1, 0, 0, 0, 32, 1, b'a', 255, 0, 0, 0, 0, 36, 0, 0, 0,
    1, 0, 0, 0, 32, 1, b'c', 255,
];

#[test]
fn descriptors_and_entries() {
    let (mut sector, mut size, mut stamp) = (UNTOUCHED, UNTOUCHED, 77);
    assert_eq!(unsafe { sys::xdvdfs_read_descriptor(null(), 0, &mut sector, &mut size, &mut stamp) }, 20);
    assert_eq!((sector, size, stamp), (UNTOUCHED, UNTOUCHED, 77));
    assert_eq!(unsafe { sys::xdvdfs_write_descriptor(null_mut(), 0, 33, 48, 5) }, 9);
    let (mut found, mut fields, mut place) = (UNTOUCHED, [UNTOUCHED; 6], 77);
    for (size, number) in [(0, 23), (48, 24)] {
        assert_eq!(unsafe { sys::xdvdfs_read_entry(null(), 0, 0, 0, size, 16, &mut found, &mut fields, &mut place) }, number);
        assert_eq!((found, fields, place), (UNTOUCHED, [UNTOUCHED; 6], 77));
    }
    let (mut start, mut len) = (77, 77);
    unsafe { sys::xdvdfs_entry_name(null(), 0, 5, 255, &mut start, &mut len) };
    assert_eq!((start, len), (0, 0));
}

#[test]
fn lookups_and_paths() {
    for (missing, rule) in ways(2).flat_map(|missing| [0, 1, 2, 3].map(|rule| (missing, rule))) {
        let is_rule = [1, 2].contains(&rule);
        let (w, n) = (read(missing, 0, &ABC), read(missing, 1, b"a"));
        let (mut fields, mut place, mut offset, mut headers) = ([UNTOUCHED; 6], 77, UNTOUCHED, UNTOUCHED);
        let mut look_up =
            |size| unsafe { sys::xdvdfs_look_up(w.0, w.1, 0, 0, size, n.0, n.1, rule, &mut fields, &mut place, &mut offset, &mut headers) };
        assert_eq!(look_up(0), if is_rule { 21 } else { 29 });
        // without a window the first entry is not there; the name without bytes is less than every other: b, a, and no link
        let (number, cells) = match (is_rule, is_empty(missing, 0)) {
            (false, _) => (29, (UNTOUCHED, UNTOUCHED)),
            (true, true) => (24, (0, UNTOUCHED)),
            (true, false) => (22, (UNTOUCHED, 2)),
        };
        assert_eq!((look_up(48), (offset, headers)), (number, cells), "{missing:?}, rule {rule}");
        let mut offset = UNTOUCHED;
        let number = unsafe { sys::xdvdfs_find_path(w.0, w.1, 0, 0, 48, n.0, n.1, rule, &mut fields, &mut place, &mut offset) };
        let should = match (is_rule, is_empty(missing, 1)) {
            (false, _) => (29, UNTOUCHED),
            (true, true) => (28, UNTOUCHED),
            (true, false) => (24, 0),
        };
        assert_eq!((number, offset), should, "{missing:?}, rule {rule}");
        assert_eq!((fields, place), ([UNTOUCHED; 6], 77));
    }
}

#[test]
fn limits() {
    let mut descriptor = [0; 2048];
    assert_eq!(unsafe { sys::xdvdfs_write_descriptor(descriptor.as_mut_ptr(), 2048, 33, 48, 5) }, 0);
    let image = [&descriptor[..], &ABC].concat();
    let load = |missing| {
        let (w, p) = (read(missing, 0, &image), read(missing, 1, b"a"));
        let (mut sector, mut size, mut stamp) = (UNTOUCHED, UNTOUCHED, 77);
        let n = unsafe { sys::xdvdfs_load_limits(w.0, w.1, 32, p.0, p.1, 6, 1, &mut sector, &mut size, &mut stamp) };
        (n, sector, size, stamp)
    };
    for missing in ways(2) {
        assert_eq!(load(missing), (if is_empty(missing, 0) { 20 } else { 28 }, 0, 0, 0), "{missing:?}");
    }
    assert_eq!(load(Some(2)), (0, 35, 1, 5));
}

#[test]
fn walks_and_checks() {
    for missing in ways(3) {
        let no_room = is_empty(missing, 2);
        for (size, number) in [(0, 0), (48, if is_empty(missing, 0) { 24 } else { 26 })] {
            let (mut list, mut narrow, mut wide) = ([7; 4], [7; 5], [7; 5]);
            let (mut count, mut offset) = (77, UNTOUCHED);
            let w = read(missing, 0, &ABC);
            let (l, s) = (lent(missing, 1, &mut list), lent(missing, 2, &mut narrow));
            let n = unsafe { sys::xdvdfs_walk(w.0, w.1, 0, 0, size, l.0, l.1, s.0, s.1, &mut count, &mut offset) };
            let s = lent(missing, 2, &mut wide);
            let (mut strict_count, mut strict_offset) = (77, UNTOUCHED);
            let strict =
                unsafe { sys::xdvdfs_check_table(w.0, w.1, 0, 0, size, l.0, l.1, s.0, s.1, &mut strict_count, &mut strict_offset) };
            let number = if no_room { 6 } else { number };
            assert_eq!((n, strict), (number, number), "{missing:?}");
            let there = (if number == 0 { 0 } else { 77 }, if number == 24 { 0 } else { UNTOUCHED });
            assert_eq!(((count, offset), (strict_count, strict_offset)), (there, there));
            assert_eq!(list, if no_room || is_empty(missing, 1) { [7; 4] } else { [0; 4] });
            assert_eq!((narrow, wide), if no_room { ([7; 5], [7; 5]) } else { ([0; 5], [0; 5]) });
        }
    }
}

/// The columns of an arena that holds one entry, `a`, or, with a root of 65,535 and a count of 0, none.
#[derive(Clone, PartialEq, Debug)]
struct Columns {
    root: u16,
    count: u16,
    links: [[u16; 2]; 3],
    height: [u8; 2],
    numbers: [[u32; 2]; 3],
    kind: [u8; 2],
}

fn columns(held: bool) -> Columns {
    Columns {
        root: if held { 0 } else { u16::MAX },
        count: held.into(),
        links: [[u16::MAX, 7]; 3],
        height: [1, 7],
        numbers: [[0, 7], [1, 7], [1, 7]],
        kind: [0, 7],
    }
}

#[test]
fn adding() {
    for held in [false, true] {
        for missing in ways(9) {
            for (start, len, number) in [(1, 1, if is_empty(missing, 8) { 2 } else { 6 }), (0, 0, 1)] {
                let mut a = columns(held);
                let names = read(missing, 8, b"ab");
                let [l, r, p] = &mut a.links;
                let (l, r, p) = (lent(missing, 0, l), lent(missing, 1, r), lent(missing, 2, p));
                let h = lent(missing, 3, &mut a.height);
                let [s, n, z] = &mut a.numbers;
                let (s, n, z) = (lent(missing, 4, s), lent(missing, 5, n), lent(missing, 6, z));
                let k = lent(missing, 7, &mut a.kind);
                #[rustfmt::skip]
                let answer = unsafe {
                    sys::xdvdfs_add(
                        &mut a.root, &mut a.count, l.0, l.1, r.0, r.1, p.0, p.1, h.0, h.1, s.0, s.1, n.0, n.1, z.0, z.1, k.0, k.1, names.0,
                        names.1, start, len, 0, 1,
                    )
                };
                assert_eq!(answer, if held { 12 } else { number }, "held {held}, {missing:?}");
                assert_eq!(a, columns(held));
            }
        }
    }
}

#[test]
fn serialising() {
    for held in [false, true] {
        for missing in ways(12) {
            let a = columns(held);
            let [l, r, p] = [0, 1, 2].map(|i| read(missing, i, &a.links[i]));
            let h = read(missing, 3, &a.height);
            let [s, n, z] = [0, 1, 2].map(|i| read(missing, 4 + i, &a.numbers[i]));
            let (k, names) = (read(missing, 7, &a.kind), read(missing, 8, b"ab"));
            let (mut order, mut place, mut out) = ([7; 2], [7; 2], [7; 2048]);
            let (o, q, t) = (lent(missing, 9, &mut order), lent(missing, 10, &mut place), lent(missing, 11, &mut out));
            let (mut size, mut free) = (UNTOUCHED, UNTOUCHED);
            #[rustfmt::skip]
            let answer = unsafe {
                sys::xdvdfs_serialise(
                    a.root, a.count, l.0, l.1, r.0, r.1, p.0, p.1, h.0, h.1, s.0, s.1, n.0, n.1, z.0, z.1, k.0, k.1, names.0, names.1, 40,
                    o.0, o.1, q.0, q.1, t.0, t.1, &mut size, &mut free,
                )
            };
            let number = match missing {
                None | Some(0..=8) if held => 12,
                Some(9 | 10) if held => 6,
                None | Some(11) => 9,
                _ => 0,
            };
            assert_eq!(answer, number, "held {held}, {missing:?}");
            assert_eq!((size, free), if number == 0 { (2048, 40) } else { (UNTOUCHED, UNTOUCHED) });
            assert_eq!(out, if number == 0 { [255; 2048] } else { [7; 2048] });
            let kept = held && (is_empty(missing, 9) || is_empty(missing, 10));
            assert_eq!(order, if kept || is_empty(missing, 9) { [7; 2] } else { [0; 2] });
            assert_eq!(place, if kept || is_empty(missing, 10) { [7; 2] } else { [0; 2] });
        }
    }
}

#[test]
fn lists() {
    for count in [0, 1] {
        for missing in ways(13) {
            let (start, len, size) = (read(missing, 0, &[0]), read(missing, 1, &[1]), read(missing, 2, &[1]));
            let (kind, names) = (read(missing, 3, &[0]), read(missing, 4, b"a"));
            let (mut l, mut r, mut p, mut h, mut k, mut o, mut q) = ([7], [7], [7], [7], [7], [7], [7]);
            let mut out = [7; 2048];
            let (mut z, mut free, mut entry) = (UNTOUCHED, UNTOUCHED, UNTOUCHED);
            let (l, r, p) = (lent(missing, 5, &mut l), lent(missing, 6, &mut r), lent(missing, 7, &mut p));
            let (h, k) = (lent(missing, 8, &mut h), lent(missing, 9, &mut k));
            let (o, q, t) = (lent(missing, 10, &mut o), lent(missing, 11, &mut q), lent(missing, 12, &mut out));
            #[rustfmt::skip]
            let answer = unsafe {
                sys::xdvdfs_write_list(
                    count, start.0, start.1, len.0, len.1, size.0, size.1, kind.0, kind.1, names.0, names.1, 40, l.0, l.1, r.0, r.1, p.0,
                    p.1, h.0, h.1, k.0, k.1, o.0, o.1, q.0, q.1, t.0, t.1, &mut z, &mut free, &mut entry,
                )
            };
            let number = match (count, missing) {
                (_, Some(12)) | (0, None) => 9,
                (0, _) => 0,
                (_, Some(4)) => 2,
                _ => 6,
            };
            assert_eq!(answer, number, "count {count}, {missing:?}");
            assert_eq!(entry, if number == 2 { 0 } else { UNTOUCHED });
            assert_eq!((z, free), if number == 0 { (2048, 40) } else { (UNTOUCHED, UNTOUCHED) });
            assert_eq!(out, if number == 0 { [255; 2048] } else { [7; 2048] });
        }
    }
}

#[test]
fn plans() {
    for (directories, entries) in [(0, 0), (0, 1), (1, 0), (1, 1)] {
        for missing in ways(18) {
            let shares = [entries];
            let (first, share) = (read(missing, 0, &[0]), read(missing, 1, &shares));
            let (start, len) = (read(missing, 2, &[0]), read(missing, 3, &[1]));
            let (kind, value, names) = (read(missing, 4, &[0]), read(missing, 5, &[1]), read(missing, 6, b"a"));
            let (mut sizes, mut tables, mut sectors) = ([7], [7], [7]);
            let (mut sized, mut l, mut r, mut p, mut h, mut k, mut size, mut order) = ([7], [7], [7], [7], [7], [7], [7], [7]);
            let (z, t, e) = (lent(missing, 7, &mut sizes), lent(missing, 8, &mut tables), lent(missing, 9, &mut sectors));
            let (d, l, r) = (lent(missing, 10, &mut sized), lent(missing, 11, &mut l), lent(missing, 12, &mut r));
            let (p, h, k) = (lent(missing, 13, &mut p), lent(missing, 14, &mut h), lent(missing, 15, &mut k));
            let (s, o) = (lent(missing, 16, &mut size), lent(missing, 17, &mut order));
            let (mut free, mut entry, mut directory) = (UNTOUCHED, UNTOUCHED, UNTOUCHED);
            #[rustfmt::skip]
            let answer = unsafe {
                sys::xdvdfs_plan(
                    directories, entries, first.0, first.1, share.0, share.1, start.0, start.1, len.0, len.1, kind.0, kind.1, value.0,
                    value.1, names.0, names.1, z.0, z.1, t.0, t.1, e.0, e.1, d.0, d.1, l.0, l.1, r.0, r.1, p.0, p.1, h.0, h.1, k.0, k.1,
                    s.0, s.1, o.0, o.1, &mut free, &mut entry, &mut directory,
                )
            };
            let one_is = |which: &[usize]| which.iter().any(|&i| is_empty(missing, i));
            let short = (directories == 1 && one_is(&[0, 1, 7, 8, 10]))
                || (entries == 1 && one_is(&[2, 3, 4, 5, 9, 17]))
                || (directories == 1 && entries == 1 && one_is(&[11, 12, 13, 14, 15, 16]));
            let number = if short {
                6
            } else if directories == 0 {
                11
            } else if entries == 1 && one_is(&[6]) {
                2
            } else {
                0
            };
            assert_eq!(answer, number, "{directories} directories, {entries} entries, {missing:?}");
            assert_eq!((entry, directory), (if number == 2 { 0 } else { UNTOUCHED }, UNTOUCHED));
            assert_eq!(free, if number == 0 { 34 + entries } else { UNTOUCHED });
            let planned = if entries == 1 { ([16], [33], [34]) } else { ([2048], [33], [7]) };
            assert_eq!((sizes, tables, sectors), if number == 0 { planned } else { ([7], [7], [7]) });
        }
    }
}
