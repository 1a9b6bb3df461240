//! What the skin hands on: each operation answered and refused, with the values that the answer carries and the memory that it leaves.
use crate::*;

const RULES: [Rule; 2] = [Rule::One, Rule::Two];

fn file(name: &str) -> NewEntry<'_> {
    NewEntry { name: name.as_bytes(), kind: Kind::File, size: 1 }
}

fn table_of(names: &[&str], first: u32) -> (Vec<u8>, Written) {
    write_table(&names.iter().map(|n| file(n)).collect::<Vec<_>>(), first).unwrap()
}

/// A root with a directory `d` that has a file `x`, and a file `limits`: sectors 33 and 34 are the tables.
fn image() -> (Vec<u8>, Table) {
    let (inner, i) = write_table(&[NewEntry { name: b"x", kind: Kind::File, size: 9 }], 36).unwrap();
    let entries = [NewEntry { name: b"d", kind: Kind::Directory, size: i.size }, NewEntry { name: b"limits", kind: Kind::File, size: 7 }];
    let (root, r) = write_table(&entries, 34).unwrap();
    assert_eq!((i, r), (Written { size: 16, next_free: 37 }, Written { size: 36, next_free: 36 }));
    let mut bytes = vec![0; 2048];
    let table = Table { sector: 33, size: r.size };
    write_descriptor(&mut bytes, Descriptor { root: table, stamp: Stamp::NO_DATE }).unwrap();
    bytes.extend_from_slice(&root);
    bytes.extend_from_slice(&inner);
    (bytes, table)
}

#[test]
fn the_first_cases_of_the_scope() {
    assert_eq!(write_table(&[], 33).unwrap(), (vec![0xff; 2048], Written { size: 2048, next_free: 33 }));
    let (bytes, w) = write_table(&[NewEntry { name: b"ab", kind: Kind::File, size: 5 }], 33).unwrap();
    assert_eq!(bytes[..16], [0, 0, 0, 0, 0x21, 0, 0, 0, 5, 0, 0, 0, 0x20, 2, 0x61, 0x62]);
    assert!(bytes[16..].iter().all(|&b| b == 0xff) && bytes.len() == 2048);
    assert_eq!(w, Written { size: 16, next_free: 34 });
    for order in [["a", "b", "c"], ["c", "a", "b"]] {
        let (bytes, w) = table_of(&order, 34);
        let window = Window { bytes: &bytes, first: 70 };
        let list = window.list(Table { sector: 70, size: w.size }, 9).unwrap();
        assert_eq!(list.iter().map(|e| e.name).collect::<Vec<_>>(), [b"b", b"a", b"c"]);
        assert_eq!(list.iter().map(|e| e.header.sector).collect::<Vec<_>>(), [34, 35, 36]);
        assert_eq!((list[0].header.left, list[0].header.right, w.size), (4, 8, 48));
    }
}

#[test]
fn reading() {
    let (bytes, root) = image();
    assert_eq!(read_descriptor(&bytes), Ok(Descriptor { root, stamp: Stamp::NO_DATE }));
    assert_eq!(read_descriptor(&bytes[..2047]), Err(Error::NoVolume));
    assert_eq!(read_descriptor(&[]), Err(Error::NoVolume));
    let window = Window { bytes: &bytes, first: 32 };
    assert_eq!(window.read_entry(Table { size: 2048, ..root }, 36), Ok(None));
    assert_eq!(window.read_entry(root, 36), Err(Error::OutOfBounds { offset: Some(36) }));
    assert_eq!(window.name(usize::MAX, 255), b"");
    for rule in RULES {
        let found = window.look_up(root, b"LIMITS", rule).unwrap();
        assert_eq!((found.entry.name, found.offset, found.headers, found.entry.place), (&b"limits"[..], 16, 2, 2048 + 16));
        assert_eq!(window.read_entry(root, 16), Ok(Some(found.entry)));
        assert_eq!(window.look_up(root, b"nothing", rule), Err(Error::DoesNotExist { headers: Some(2) }));
        assert_eq!(window.look_up(root, b"", rule), Err(Error::DoesNotExist { headers: Some(1) }));
        assert_eq!(window.look_up(root, b"\x80", rule), Err(Error::BadByteSought));
        assert_eq!(window.look_up(Table { size: 0, ..root }, b"d", rule), Err(Error::DirectoryEmpty));
        let cut = Window { bytes: &bytes[..2048 + 20], first: 32 };
        assert_eq!(cut.look_up(root, b"limits", rule), Err(Error::Truncated { offset: Some(16) }));
    }
}

#[test]
fn paths() {
    let (bytes, root) = image();
    let window = Window { bytes: &bytes, first: 32 };
    for rule in RULES {
        let x = window.find_path(root, b"/d/x", rule).unwrap();
        assert_eq!((x.name, x.header.sector, x.header.size), (&b"x"[..], 36, 9));
        let d = window.find_path(root, b"d/", rule).unwrap();
        assert_eq!(d.header.table(), Some(Table { sector: 34, size: 2048 }));
        assert_eq!(window.find_path(root, b"limits/x", rule), Err(Error::IsNotDirectory));
        assert_eq!(window.find_path(root, b"/", rule), Err(Error::NoDirent));
        assert_eq!(window.find_path(root, b"\x80", rule), Err(Error::BadByteSought));
        assert_eq!(window.find_path(root, b"d/y", rule), Err(Error::DoesNotExist { headers: None }));
        let cut = Window { bytes: &bytes[..4096], first: 32 };
        assert_eq!(cut.find_path(root, b"d/x", rule), Err(Error::Truncated { offset: Some(0) }));
    }
}

#[test]
fn walking_and_lent_memory() {
    let (bytes, root) = image();
    let window = Window { bytes: &bytes, first: 32 };
    let (mut list, mut scratch) = (vec![7; 4], vec![7; 5]);
    assert_eq!(window.walk(root, &mut list, &mut scratch), Ok(2));
    assert_eq!((&list[..], &scratch[..]), (&[0, 16, 0, 0][..], &[0; 5][..]));
    let (mut list, mut scratch) = (vec![7; 4], vec![7; 4]);
    assert_eq!(window.walk(root, &mut list, &mut scratch), Err(Error::Room));
    assert_eq!((&list[..], &scratch[..]), (&[7; 4][..], &[7; 4][..]));
    let (mut list, mut scratch) = (vec![7; 1], vec![7; 2]);
    assert_eq!(window.walk(root, &mut list, &mut scratch), Err(Error::WalkFull));
    assert_eq!((&list[..], &scratch[..]), (&[0][..], &[0; 2][..]));
    assert_eq!(window.walk(Table { size: 0, ..root }, &mut [], &mut [1]), Ok(0));
    assert_eq!(window.walk(root, &mut [], &mut []), Err(Error::Room));
    assert_eq!(window.list(root, 1), Err(Error::WalkFull));
}

#[test]
fn a_list_of_most_entries_is_long_enough() {
    let most = |size| Table { sector: 0, size }.most_entries();
    assert_eq!([0, 1, 4, 5, 262_140, 262_144, u32::MAX].map(most), [0, 1, 1, 2, 65_535, 65_536, 65_536]);
    // entries at every multiple of four, over one another, each the right child of the one before it; the last is blank
    let mut bytes = vec![0; 4 * 65_534 + 14];
    for unit in 0..65_534u16 {
        bytes[4 * usize::from(unit) + 2..][..2].copy_from_slice(&(unit + 1).to_le_bytes());
    }
    let table = Table { sector: 0, size: u32::MAX };
    let window = Window { bytes: &bytes, first: 0 };
    assert_eq!(window.list(table, table.most_entries()).map(|l| l.len()), Ok(65_534));
    let last = 4 * 65_534 + 2;
    bytes[last..last + 2].copy_from_slice(&1u16.to_le_bytes()); // a circle
    assert_eq!(Window { bytes: &bytes, first: 0 }.list(table, table.most_entries()), Err(Error::WalkFull));
}

#[test]
fn strict_faults() {
    let (mut bytes, w) = table_of(&["a", "b", "c"], 34);
    let table = Table { sector: 0, size: w.size };
    let check = |bytes: &[u8]| Window { bytes, first: 0 }.check_table(table, &mut [7; 8], &mut [7; 9]);
    assert_eq!(check(&bytes), Ok(3));
    bytes[2] = 4; // the right link leads where the left one does
    assert_eq!(check(&bytes), Err(Error::Shared { offset: 16 }));
    bytes[2] = 8;
    bytes[32 + 14] = b'A'; // the right child's name
    assert_eq!(check(&bytes), Err(Error::OutOfOrder { offset: 32 }));
    bytes[32 + 14] = b'c';
    bytes[16 + 13] = 3; // the left child's name runs into the next entry
    assert_eq!(check(&bytes), Err(Error::BadPlace { offset: 32 }));
}

/// A table of entries of sixteen bytes: the links and the name of each; blank headers follow them.
fn laid(entries: &[(u16, u16, u8)]) -> Vec<u8> {
    let mut bytes = vec![0xff; 2048];
    for (at, (left, right, name)) in entries.iter().enumerate() {
        let header = [&left.to_le_bytes()[..], &right.to_le_bytes(), &[0; 8], &[32, 1, *name]].concat();
        bytes[16 * at..16 * at + 15].copy_from_slice(&header);
    }
    bytes
}

/// The strict check compares a name with those of all entries above it, and tells of the first entry in walk order that is on the wrong side of one.
#[test]
fn names_in_order_of_all_above_them() {
    let check = |entries: &[(u16, u16, u8)], places: usize| {
        let table = Table { sector: 0, size: 128 };
        Window { bytes: &laid(entries), first: 0 }.check_table(table, &mut vec![7; places], &mut vec![7; places + 1])
    };
    let told = |entries: &[(u16, u16, u8)]| check(entries, 8);
    let at = |offset| Err(Error::OutOfOrder { offset });
    // two up, on either side: out of order, equal, and in order
    for (name, answer) in [(b'z', at(32)), (b'M', at(32)), (b'd', Ok(3)), (b'B', at(32))] {
        assert_eq!(told(&[(4, 0, b'm'), (0, 8, b'c'), (0, 0, name)]), answer);
    }
    for (name, answer) in [(b'a', at(32)), (b'M', at(32)), (b't', Ok(3)), (b'Y', at(32))] {
        assert_eq!(told(&[(0, 4, b'm'), (8, 0, b'x'), (0, 0, name)]), answer);
    }
    // three up
    for (name, answer) in [(b'z', at(48)), (b'M', at(48)), (b'f', Ok(4))] {
        assert_eq!(told(&[(4, 0, b'm'), (0, 8, b'c'), (0, 12, b'e'), (0, 0, name)]), answer);
    }
    for (name, answer) in [(b'a', at(48)), (b'M', at(48)), (b's', Ok(4))] {
        assert_eq!(told(&[(0, 4, b'm'), (8, 0, b'x'), (12, 0, b't'), (0, 0, name)]), answer);
    }
    // a blank header between
    assert_eq!(told(&[(4, 0, b'm'), (20, 8, b'c'), (0, 0, b'z')]), at(32));
    assert_eq!(told(&[(20, 4, b'm'), (20, 20, b'x')]), Ok(2));
    // other faults at the same offset come first, later ones do not
    let mcz = [(4, 0, b'm'), (0, 8, b'c'), (0, 0, b'z')];
    assert_eq!([0, 2, 3].map(|places| check(&mcz, places)), [Err(Error::WalkFull), Err(Error::WalkFull), at(32)]);
    assert_eq!(told(&[(4, 4, b'm'), (0, 0, b'c')]), Err(Error::Shared { offset: 16 }));
    assert_eq!(told(&[(4, 99, b'm'), (0, 8, b'c'), (99, 0, b'z')]), at(32));
    assert_eq!(told(&[(4, 12, b'm'), (0, 8, b'c'), (0, 0, b'z'), (16, 0, b'x'), (0, 0, b'a')]), at(32));
    let words = Error::OutOfOrder { offset: 32 }.to_string();
    assert_eq!(words, "the name of the entry at offset 32 is not less than that of an entry in whose left subtree it stands, or not greater than that of one in whose right subtree");
}

/// Four entries with every choice of links among them: where the strict check accepts them each listed name is found, and some that it refuses hide one from both rules.
#[test]
fn what_the_strict_check_accepts_is_found() {
    const LINKS: [u16; 4] = [0, 4, 8, 12];
    let (table, mut accepted, mut hidden) = (Table { sector: 0, size: 64 }, 0, 0);
    for choice in 0..4usize.pow(8) * 2 {
        let link = |i: usize| LINKS[choice / 2 / 4usize.pow(i as u32) % 4];
        let names = [b"cabd", b"dbac"][choice % 2];
        let bytes = laid(&[0, 1, 2, 3].map(|i| (link(2 * i), link(2 * i + 1), names[i])));
        let window = Window { bytes: &bytes, first: 0 };
        let Ok(listed) = window.list(table, 4) else { continue };
        let found = |entry: &Entry, rule| window.look_up(table, entry.name, rule).is_ok_and(|f| f.offset as usize == entry.place);
        let all = |rule| listed.iter().all(|entry| found(entry, rule));
        match window.check_table(table, &mut [0; 4], &mut [0; 5]) {
            Ok(count) => {
                assert_eq!(count, listed.len());
                assert!(all(Rule::One) && all(Rule::Two), "{listed:?}");
                accepted += 1;
            }
            Err(_) => hidden += !(all(Rule::One) || all(Rule::Two)) as u32,
        }
    }
    assert!(accepted > 20 && hidden > 20, "{accepted} accepted, {hidden} hide a name");
}

/// Five names with which `f` is the root's right child and stands at 1,020, so that its link is 255.
fn names_with_f_at_1020() -> [String; 5] {
    let long = |first: char, n: usize| format!("{first}{}", "x".repeat(n));
    [long('d', 254), long('b', 254), "f".to_string(), long('a', 254), long('c', 189)]
}

/// A table that is written here, listed and accepted, and in which rule one does not find `f`. Rule two does.
#[test]
fn a_listed_name_may_not_be_found() {
    let names = names_with_f_at_1020();
    let (bytes, w) = table_of(&names.iter().map(String::as_str).collect::<Vec<_>>(), 33);
    let (window, table) = (Window { bytes: &bytes, first: 0 }, Table { sector: 0, size: w.size });
    let listed = window.list(table, 5).unwrap();
    assert_eq!(listed.iter().filter(|e| e.name == b"f").count(), 1);
    assert_eq!(listed[0].header.right, 255);
    assert_eq!(window.check_table(table, &mut [0; 5], &mut [0; 6]), Ok(5));
    assert_eq!(window.look_up(table, b"f", Rule::One), Err(Error::DoesNotExist { headers: Some(1) }));
    assert_eq!(window.find_path(table, b"/F", Rule::One), Err(Error::DoesNotExist { headers: None }));
    let f = listed[4];
    assert_eq!((f.name, f.place), (&b"f"[..], 1020));
    assert_eq!(window.look_up(table, b"f", Rule::Two), Ok(Found { entry: f, offset: 1020, headers: 2 }));
    assert_eq!(window.find_path(table, b"/F", Rule::Two), Ok(f));
    for rule in RULES {
        assert_eq!(window.look_up(table, names[4].as_bytes(), rule).map(|f| f.headers), Ok(3));
    }
}

/// A path has one rule for all its parts: `f` stands behind a link of 255 in the directory `p`, and as a directory in front of `x`.
#[test]
fn a_path_has_one_rule() {
    let names = names_with_f_at_1020();
    let far = |kind| names.iter().map(|n| if n == "f" { NewEntry { kind, ..file(n) } } else { file(n) }).collect::<Vec<_>>();
    let (inner, i) = write_table(&far(Kind::File), 40).unwrap();
    let (outer, o) = write_table(&[NewEntry { name: b"p", kind: Kind::Directory, size: i.size }], 34).unwrap();
    let bytes = [outer, inner].concat();
    let (window, root) = (Window { bytes: &bytes, first: 33 }, Table { sector: 33, size: o.size });
    assert_eq!(window.find_path(root, b"p/f", Rule::One), Err(Error::DoesNotExist { headers: None }));
    assert_eq!(window.find_path(root, b"p/f", Rule::Two).map(|e| (e.name, e.place)), Ok((&b"f"[..], 2048 + 1020)));

    let (inner, _) = table_of(&["x"], 40);
    let (mut bytes, o) = write_table(&far(Kind::Directory), 34).unwrap();
    bytes.resize(5 * 2048, 0); // the four names before it take a sector each
    bytes.extend_from_slice(&inner);
    let (window, root) = (Window { bytes: &bytes, first: 33 }, Table { sector: 33, size: o.size });
    assert_eq!(window.find_path(root, b"F/X", Rule::One), Err(Error::DoesNotExist { headers: None }));
    assert_eq!(window.find_path(root, b"F/X", Rule::Two).map(|e| (e.name, e.place)), Ok((&b"x"[..], 5 * 2048)));
    assert_eq!(window.find_path(root, b"F/Y", Rule::Two), Err(Error::DoesNotExist { headers: None }));
}

/// In written tables of every size up to 300 names, and of one that is nearly full, rule two finds each entry where it is listed, and what rule one finds is the same.
#[test]
fn what_rule_one_finds_rule_two_finds_alike() {
    let names: Vec<String> = (0..13_000).map(|i| format!("{i:05}")).collect();
    let mut hidden = 0;
    for count in (1..=300).chain([13_000]) {
        let (bytes, w) = table_of(&names[..count].iter().map(String::as_str).collect::<Vec<_>>(), 33);
        let (window, table) = (Window { bytes: &bytes, first: 0 }, Table { sector: 0, size: w.size });
        let listed = window.list(table, count).unwrap();
        assert_eq!(listed.len(), count);
        for entry in listed {
            let two = window.look_up(table, entry.name, Rule::Two).unwrap();
            assert_eq!((two.entry, two.offset as usize), (entry, entry.place));
            assert!(two.headers <= 19);
            assert_eq!(window.find_path(table, entry.name, Rule::Two), Ok(entry));
            match window.look_up(table, entry.name, Rule::One) {
                Ok(one) => assert_eq!(one, two),
                Err(Error::DoesNotExist { .. }) => hidden += 1,
                Err(other) => panic!("{count} names, {}: {other}", entry.name.escape_ascii()),
            }
        }
    }
    assert!(hidden > 300, "only {hidden} names are hidden under rule one");
}

/// In a table that no writer makes rule one may find what rule two does not: it follows a link of 65,535.
#[test]
fn a_link_of_65535() {
    let mut bytes = vec![0xff; 262_140 + 16];
    for (at, right, name) in [(0, u16::MAX, b'm'), (262_140, 0, b'z')] {
        bytes[at..at + 16].fill(0);
        bytes[at + 2..at + 4].copy_from_slice(&right.to_le_bytes());
        (bytes[at + 13], bytes[at + 14]) = (1, name);
    }
    let (window, table) = (Window { bytes: &bytes, first: 0 }, Table { sector: 0, size: 262_156 });
    assert_eq!(window.list(table, 9).map(|l| l.len()), Ok(1));
    assert_eq!(window.look_up(table, b"z", Rule::One).map(|f| (f.offset, f.headers)), Ok((262_140, 2)));
    assert_eq!(window.look_up(table, b"z", Rule::Two), Err(Error::DoesNotExist { headers: Some(1) }));
    assert_eq!(window.find_path(table, b"z", Rule::One).map(|e| e.place), Ok(262_140));
    assert_eq!(window.find_path(table, b"z", Rule::Two), Err(Error::DoesNotExist { headers: None }));
}

/// A number that is no rule's is told before all else that a lookup or a path refuses, and every cell is as it was.
#[test]
fn no_rule() {
    let (bytes, _) = table_of(&["a", "b", "c"], 34);
    // found; a bad byte; a path without a part; a table of size 0; a window without bytes
    for (name, size, len) in [(&b"a"[..], 48, 2048), (b"\x80", 48, 2048), (b"", 48, 2048), (b"a", 0, 2048), (b"a", 48, 0)] {
        for rule in [0, 3, 255, 65_535, u32::MAX] {
            let (mut fields, mut place, mut offset, mut headers) = ([77; 6], 77, 77, 77);
            #[rustfmt::skip]
            let number = unsafe {
                sys::xdvdfs_look_up(
                    bytes.as_ptr(), len, 0, 0, size, name.as_ptr(), name.len(), rule, &mut fields, &mut place, &mut offset, &mut headers,
                )
            };
            assert_eq!((number, fields, place, offset, headers), (29, [77; 6], 77, 77, 77), "look_up under rule {rule}");
            #[rustfmt::skip]
            let number = unsafe {
                sys::xdvdfs_find_path(
                    bytes.as_ptr(), len, 0, 0, size, name.as_ptr(), name.len(), rule, &mut fields, &mut place, &mut offset,
                )
            };
            assert_eq!((number, fields, place, offset), (29, [77; 6], 77, 77), "find_path under rule {rule}");
        }
    }
}

#[test]
fn a_ring() {
    let (mut bytes, w) = table_of(&["a", "b", "c"], 34);
    bytes[16..18].copy_from_slice(&4u16.to_le_bytes()); // a is its own left child
    let window = Window { bytes: &bytes, first: 0 };
    for rule in RULES {
        assert_eq!(window.look_up(Table { sector: 0, size: w.size }, b"0", rule), Err(Error::Looped));
    }
}

#[test]
fn adding_in_turn_is_writing_a_list() {
    let mut arena = Arena::with_room(3);
    for name in ["a", "b", "c"] {
        arena.add(name.as_bytes(), Kind::File, 1).unwrap();
    }
    assert_eq!(arena.add(b"B", Kind::File, 1), Err(Error::DuplicateFileName { entry: None }));
    assert_eq!(arena.add(b"d", Kind::File, 1), Err(Error::Full { entry: None }));
    assert_eq!(arena.add(b"", Kind::File, 1), Err(Error::EmptyName { entry: None }));
    assert_eq!(arena.add(b"a\0", Kind::File, 1), Err(Error::BadByte { entry: None }));
    assert_eq!(arena.add(&[b'x'; 256], Kind::File, 1), Err(Error::NameTooLong { entry: None }));
    assert_eq!(arena.add(b"d", Kind::Directory, 4294965249), Err(Error::SizeOverflow { entry: None }));
    assert_eq!(arena.count(), 3);
    let mut out = vec![7; 2049];
    assert_eq!(arena.serialise(34, &mut out), Ok(Written { size: 48, next_free: 37 }));
    assert_eq!((&out[..2048], out[2048]), (&table_of(&["a", "b", "c"], 34).0[..], 7));
    assert_eq!(arena.serialise(34, &mut [0; 2047]), Err(Error::BufferTooSmall));
    assert_eq!(arena.serialise(u32::MAX - 2, &mut out), Err(Error::SectorOverflow { directory: None }));
    assert_eq!(Arena::with_room(0).serialise(9, &mut out), Ok(Written { size: 2048, next_free: 9 }));
}

#[test]
fn a_list_refused() {
    let entries = [file("a"), file("b"), file("A")];
    assert_eq!(write_table(&entries, 33).unwrap_err(), Error::DuplicateFileName { entry: Some(2) });
    let list = List { start: &[0, 1], len: &[1, 2], size: &[1, 1], kind: &[0, 0], names: b"ab" };
    let mut out = [7; 2048];
    assert_eq!(write_list(2, list, 33, &mut Scratch::with_room(2), &mut out), Err(Error::BadByte { entry: Some(1) }));
    assert_eq!(write_list(3, list, 33, &mut Scratch::with_room(3), &mut out), Err(Error::Room));
    assert_eq!(write_list(1, list, 33, &mut Scratch::with_room(0), &mut out), Err(Error::Room));
    assert_eq!(write_list(1, list, 33, &mut Scratch::with_room(1), &mut out[..9]), Err(Error::BufferTooSmall));
    assert!(out.iter().all(|&b| b == 7));
    let names: Vec<String> = (0..16385).map(|i| format!("{i:05}")).collect();
    let many: Vec<NewEntry> = names.iter().map(|n| file(n)).collect();
    assert_eq!(write_table(&many, 33).unwrap_err(), Error::Full { entry: Some(16384) });
    assert_eq!(write_table(&many[..16384], 33).unwrap_err(), Error::TooManyDirectoryEntries { directory: None });
    let (bytes, w) = write_table(&many[..10000], 33).unwrap();
    let window = Window { bytes: &bytes, first: 5 };
    let table = Table { sector: 5, size: w.size };
    assert_eq!(window.list(table, 10000).unwrap().len(), 10000);
    assert_eq!(window.check_table(table, &mut vec![0; 10000], &mut vec![0; 10001]), Ok(10000));
}

fn planned(name: &str, content: Content) -> PlanEntry<'_> {
    PlanEntry { name: name.as_bytes(), content }
}

#[test]
fn a_plan_is_what_writing_gives() {
    let root = [planned("d", Content::Directory(1)), planned("limits", Content::File(7))];
    let p = plan(&[&root, &[planned("x", Content::File(9))]]).unwrap();
    assert_eq!(
        p,
        Plan { tables: vec![Table { sector: 33, size: 36 }, Table { sector: 34, size: 16 }], sectors: vec![34, 35, 36], next_free: 37 }
    );
    assert_eq!(plan(&[&[]]), Ok(Plan { tables: vec![Table { sector: 33, size: 2048 }], sectors: vec![], next_free: 34 }));
    // written with the least sector of each directory, the tables give the same sectors
    let written = [NewEntry { name: b"d", kind: Kind::Directory, size: 16 }, NewEntry { name: b"limits", kind: Kind::File, size: 7 }];
    let (bytes, w) = write_table(&written, 34).unwrap();
    let found = Window { bytes: &bytes, first: 33 }.look_up(Table { sector: 33, size: w.size }, b"d", Rule::Two).unwrap();
    assert_eq!((w.size, found.entry.header.sector), (36, 34));
}

#[test]
fn a_plan_refused() {
    let x = |content| planned("x", content);
    assert_eq!(plan(&[]), Err(Error::BadTree));
    assert_eq!(plan(&[&[x(Content::Directory(0))]]), Err(Error::BadTree));
    assert_eq!(plan(&[&[], &[]]), Err(Error::BadTree));
    let long = "x".repeat(256);
    let deep = |e| plan(&[&[planned("d", Content::Directory(1)), x(Content::File(1))], &[planned("a", Content::File(2)), e]]);
    assert_eq!(deep(x(Content::File(1 << 32))), Err(Error::FileTooLarge { entry: Some(3) }));
    assert_eq!(deep(planned("", Content::File(1))), Err(Error::EmptyName { entry: Some(3) }));
    assert_eq!(deep(planned("a\0", Content::File(1))), Err(Error::BadByte { entry: Some(3) }));
    assert_eq!(deep(planned(&long, Content::File(1))), Err(Error::NameTooLong { entry: Some(3) }));
    assert_eq!(deep(planned("A", Content::File(1))), Err(Error::DuplicateFileName { entry: Some(3) }));
    assert_eq!(deep(x(Content::File(u64::from(u32::MAX)))).map(|p| p.next_free), Ok(37 + 2097152));
    let names: Vec<String> = (0..16385).map(|i| format!("{i:05}")).collect();
    let many: Vec<PlanEntry> = names.iter().map(|n| planned(n, Content::File(1))).collect();
    assert_eq!(plan(&[&many]), Err(Error::Full { entry: Some(16384) }));
    assert_eq!(plan(&[&[x(Content::Directory(1))], &many[..16384]]), Err(Error::TooManyDirectoryEntries { directory: Some(1) }));
    let large: Vec<PlanEntry> = names[..2049].iter().map(|n| planned(n, Content::File(u64::from(u32::MAX)))).collect();
    assert_eq!(plan(&[&[x(Content::Directory(1))], &large]), Err(Error::SectorOverflow { directory: Some(1) }));
}

#[test]
fn sectors() {
    assert_eq!([0, 1, 2048, 2049].map(required_sectors), [1, 1, 1, 2]);
    let mut counter = SectorCounter::new();
    assert_eq!((counter.take(2049), counter.take(0), counter.next_free()), (Ok(33), Ok(35), 36));
    let mut last = SectorCounter::starting_at(u32::MAX);
    assert_eq!((last.take(1), last.next_free()), (Err(Error::SectorOverflow { directory: None }), u32::MAX));
}

#[test]
fn descriptors() {
    let root = Table { sector: 1, size: 2 };
    let mut undated = vec![7; 2050];
    write_descriptor(&mut undated, Descriptor { root, stamp: Stamp::NO_DATE }).unwrap();
    assert_eq!(undated[28..36], [0; 8]);
    for stamp in [0, 1, u32::MAX.into(), 1 << 32, 1 << 63, u64::MAX] {
        let descriptor = Descriptor { root, stamp: Stamp(stamp) };
        let mut out = vec![7; 2050];
        assert_eq!(write_descriptor(&mut out[..2047], descriptor), Err(Error::BufferTooSmall));
        assert!(out.iter().all(|&b| b == 7));
        write_descriptor(&mut out, descriptor).unwrap();
        assert_eq!((read_descriptor(&out), &out[2048..]), (Ok(descriptor), &[7, 7][..]));
        assert_eq!(out[28..36], stamp.to_le_bytes());
        assert_eq!((&out[..28], &out[36..]), (&undated[..28], &undated[36..]));
    }
}

#[test]
fn words() {
    assert_eq!(
        Error::DuplicateFileName { entry: Some(2) }.to_string(),
        "entry 2 of the list: an entry of that name is there already, upper and lower case being one"
    );
    assert_eq!(Error::Truncated { offset: Some(16) }.to_string(), "the entry at offset 16 of its table is not whole in the bytes at hand");
    assert_eq!(Error::Truncated { offset: None }.to_string(), "an entry of the table is not whole in the bytes at hand");
    assert_eq!(Error::OutOfBounds { offset: Some(16) }.to_string(), "offset 16 is not below the table's size");
    assert_eq!(Error::OutOfBounds { offset: None }.to_string(), "an offset is not below the table's size");
    assert_eq!(
        Error::DoesNotExist { headers: Some(3) }.to_string(),
        "the name was not found; under rule one what stands below a link of 255 is not found, though a walk lists it (3 headers read)"
    );
    assert_eq!(
        [Error::NoDate, Error::ClockBack, Error::TooOld, Error::NotAFile].map(|e| e.to_string()),
        [
            "the volume has no date",
            "the time is before the volume's date",
            "the volume is older than the greatest age",
            "the path leads to a directory and not to a file"
        ]
    );
    let numbers = (1..=12).chain(20..=32).chain(40..=43);
    for n in numbers {
        let e = match n {
            1..=6 => Error::adding(n, None),
            10 | 11 => Error::planning(n, None, 0),
            7..=12 => Error::writing(n),
            20..=32 => Error::reading(n, 0, None),
            _ => Error::loading(n),
        };
        assert_eq!(e.number(), n);
        assert!(e.to_string().len() > 10);
    }
}
