//! The limits loader at its edges: time and age, where the window starts and ends, what a path finds, and the order of refusals.
use crate::*;
use std::time::Duration;

const NOON: u64 = 0x01dd_75c2_017c_2000; // 2026-11-16T12:00:00Z
const DAY: Duration = Duration::from_secs(86_400);

fn file(name: &str) -> NewEntry<'_> {
    NewEntry { name: name.as_bytes(), kind: Kind::File, size: 7 }
}

/// So many times 100 ns.
fn units(n: u64) -> Duration {
    Duration::new(n / 10_000_000, (n % 10_000_000) as u32 * 100)
}

/// The bytes from sector 32 on: a descriptor, and tables from sector 33 on, of which the first is the root's, with this size.
fn image(stamp: u64, size: u32, tables: &[&[u8]]) -> Vec<u8> {
    let mut bytes = vec![0; 2048];
    write_descriptor(&mut bytes, Descriptor { root: Table { sector: 33, size }, stamp: Stamp(stamp) }).unwrap();
    bytes.extend(tables.concat());
    bytes
}

/// A root with a directory `d`, at sector 34, that has a file `x` at sector 36, and a file `limits` of 7 bytes at sector 35.
fn sample(stamp: u64) -> Vec<u8> {
    let (inner, i) = write_table(&[file("x")], 36).unwrap();
    let d = NewEntry { name: b"d", kind: Kind::Directory, size: i.size };
    let (root, r) = write_table(&[d, file("limits")], 34).unwrap();
    assert_eq!(r.size, 36);
    image(stamp, r.size, &[&root, &inner])
}

/// From a window that starts with the descriptor.
fn load(bytes: &[u8], path: &[u8], time: u64, age: Duration) -> Result<Limits, Error> {
    Window { bytes, first: 32 }.load_limits(path, Stamp(time), age)
}

fn limits(stamp: u64) -> Limits {
    Limits { sector: 35, size: 7, stamp: Stamp(stamp) }
}

#[test]
fn a_time_and_an_age() {
    for stamp in [1, 2, NOON, 1 << 63, u64::MAX - 1, u64::MAX] {
        let bytes = sample(stamp);
        let at = |time, age| load(&bytes, b"/Limits", time, age);
        // the time is the stamp, and 100 ns before it
        for age in [Duration::ZERO, units(1), DAY, Duration::MAX] {
            assert_eq!(at(stamp, age), Ok(limits(stamp)), "{stamp}, {age:?}");
            assert_eq!(at(stamp - 1, age), Err(Error::ClockBack), "{stamp}, {age:?}");
            assert_eq!(at(0, age), Err(Error::ClockBack), "{stamp}, {age:?}");
        }
        // as old as is allowed, and 100 ns older
        for old in [1, 2, 864_000_000_000, u64::MAX - stamp].into_iter().filter(|&old| old > 0 && old <= u64::MAX - stamp) {
            assert_eq!(at(stamp + old, units(old)), Ok(limits(stamp)), "{stamp}, {old}");
            assert_eq!(at(stamp + old, units(old - 1)), Err(Error::TooOld), "{stamp}, {old}");
            assert_eq!(at(stamp + old, Duration::ZERO), Err(Error::TooOld), "{stamp}, {old}");
            assert_eq!(at(stamp + old, Duration::MAX), Ok(limits(stamp)), "{stamp}, {old}");
        }
    }
}

/// What of a greatest age is less than 100 ns, and what is beyond 2^64 - 1 units, makes no difference.
#[test]
fn an_age_in_nanoseconds() {
    let bytes = sample(NOON);
    let more = |nanoseconds| DAY + Duration::from_nanos(nanoseconds);
    let at = |units: u64, age| load(&bytes, b"limits", NOON + 864_000_000_000 + units, age);
    for (units, age, accepted) in [
        (0, DAY - Duration::from_nanos(1), false),
        (0, DAY, true),
        (1, more(99), false),
        (1, more(100), true),
        (1, more(199), true),
        (2, more(199), false),
        (2, more(200), true),
    ] {
        assert_eq!(at(units, age), if accepted { Ok(limits(NOON)) } else { Err(Error::TooOld) }, "{units}, {age:?}");
    }
    let bytes = sample(1);
    let oldest = |age| load(&bytes, b"limits", u64::MAX, age);
    let last = units(u64::MAX);
    for age in [units(u64::MAX - 1), last, last + units(1), last + units(2), Duration::from_secs(1 << 62), Duration::MAX] {
        assert_eq!(oldest(age), Ok(limits(1)), "{age:?}");
    }
    assert_eq!(oldest(units(u64::MAX - 2)), Err(Error::TooOld));
    assert_eq!(oldest(units(u64::MAX - 2) + Duration::from_nanos(99)), Err(Error::TooOld));
}

#[test]
fn no_date() {
    let bytes = sample(0);
    for (time, age) in [(0, Duration::ZERO), (0, Duration::MAX), (NOON, DAY), (u64::MAX, Duration::MAX)] {
        assert_eq!(load(&bytes, b"limits", time, age), Err(Error::NoDate));
    }
}

/// The descriptor is at sector 32 of the image, wherever the window starts.
#[test]
fn where_the_window_starts() {
    let bytes = sample(NOON);
    let from = |first: u32, bytes: &[u8]| Window { bytes, first }.load_limits(b"limits", Stamp(NOON), DAY);
    for first in [0, 1, 31, 32] {
        let before = 2048 * (32 - first as usize);
        let window = [vec![7; before], bytes.clone()].concat();
        assert_eq!(from(first, &window), Ok(limits(NOON)), "from sector {first} on");
        // without the last byte of the second mark, with no byte of it, with no byte of the descriptor, with no byte of its sector
        for end in [before + 2047, before + 2028, before, before.saturating_sub(1), 0] {
            assert_eq!(from(first, &window[..end]), Err(Error::NoVolume), "from sector {first} on, {end} bytes");
        }
        // the descriptor, and no table
        assert_eq!(from(first, &window[..before + 2048]), Err(Error::Truncated { offset: None }), "from sector {first} on");
    }
    // a window that starts past it has none, be it that a descriptor stands in it
    for (first, bytes) in [(33, &bytes[2048..]), (33, &bytes[..]), (34, &bytes[..]), (u32::MAX, &bytes[..])] {
        assert_eq!(from(first, bytes), Err(Error::NoVolume), "from sector {first} on");
    }
    // the descriptor one sector early, and one late
    assert_eq!(from(31, &bytes), Err(Error::NoVolume));
    assert_eq!(from(32, &[vec![0; 2048], bytes.clone()].concat()), Err(Error::NoVolume));
}

#[test]
fn each_mark() {
    for place in [0, 19, 2028, 2047] {
        let mut bytes = sample(NOON);
        bytes[place] ^= 1;
        assert_eq!(load(&bytes, b"limits", NOON, DAY), Err(Error::NoVolume), "byte {place}");
    }
}

#[test]
fn what_a_path_finds() {
    let bytes = sample(NOON);
    let at = |path: &[u8]| load(&bytes, path, NOON, DAY);
    for path in [&b"limits"[..], b"/limits", b"//LIMITS/"] {
        assert_eq!(at(path), Ok(limits(NOON)));
    }
    assert_eq!(at(b"D/X"), Ok(Limits { sector: 36, ..limits(NOON) }));
    for directory in [&b"d"[..], b"/D/"] {
        assert_eq!(at(directory), Err(Error::NotAFile));
    }
    assert_eq!(at(b"d/y"), Err(Error::DoesNotExist { headers: None }));
    assert_eq!(at(b"nothing"), Err(Error::DoesNotExist { headers: None }));
    assert_eq!(at(b"limits/x"), Err(Error::IsNotDirectory));
    for path in [&b""[..], b"/", b"//"] {
        assert_eq!(at(path), Err(Error::NoDirent));
    }
    for path in [&b"\x80"[..], b"d/\xff", b"limits/\x80"] {
        assert_eq!(at(path), Err(Error::BadByteSought));
    }
    // the table of `d` is cut off, and then the root's second entry
    assert_eq!(load(&bytes[..4096], b"d/x", NOON, DAY), Err(Error::Truncated { offset: None }));
    assert_eq!(load(&bytes[..4096], b"limits", NOON, DAY), Ok(limits(NOON)));
    assert_eq!(load(&bytes[..2048 + 35], b"limits", NOON, DAY), Err(Error::Truncated { offset: None }));
}

/// A file is what has no attribute bit 0x10; its sector and size are as its entry has them, in the window or not.
#[test]
fn what_a_file_is() {
    let mut bytes = sample(NOON);
    let entry = 2048 + 16;
    bytes[entry + 4..entry + 12].copy_from_slice(&[0xff, 0xff, 0xff, 0xff, 0xfe, 0xff, 0xff, 0xff]);
    for attributes in 0..=255u8 {
        bytes[entry + 12] = attributes;
        let far = Limits { sector: u32::MAX, size: u32::MAX - 1, stamp: Stamp(NOON) };
        let answer = if attributes & 0x10 == 0 { Ok(far) } else { Err(Error::NotAFile) };
        assert_eq!(load(&bytes, b"limits", NOON, DAY), answer, "attributes {attributes:#x}");
    }
}

/// The root's table is taken as the descriptor has it: its size as reported or rounded up to sectors, 0, or too small for a link.
#[test]
fn the_size_of_the_root() {
    let (table, w) = write_table(&[file("a"), file("b"), file("c")], 34).unwrap();
    let at = |size, path: &[u8]| load(&image(NOON, size, &[&table]), path, NOON, DAY);
    for size in [w.size, 2048] {
        assert_eq!(at(size, b"c"), Ok(Limits { sector: 36, ..limits(NOON) }));
        assert_eq!(at(size, b"d"), Err(Error::DoesNotExist { headers: None }));
    }
    assert_eq!(at(0, b"c"), Err(Error::DirectoryEmpty));
    assert_eq!((at(32, b"c"), at(33, b"c")), (Err(Error::OutOfBounds { offset: None }), at(w.size, b"c")));
    let mut ring = table.clone();
    ring[16..18].copy_from_slice(&4u16.to_le_bytes()); // a is its own left child
    assert_eq!(load(&image(NOON, w.size, &[&ring]), b"0", NOON, DAY), Err(Error::Looped));
}

/// Of sixty names of six bytes one stands behind a link of 255, which the loader follows, as rule two does: in the root, and in a directory.
#[test]
fn a_link_of_255_on_the_way() {
    let names: Vec<String> = (0..60).map(|i| format!("file{i:02}")).collect();
    let entries: Vec<NewEntry> = names.iter().map(|n| file(n)).collect();
    let (table, w) = write_table(&entries, 40).unwrap();
    let below = NewEntry { name: b"maps", kind: Kind::Directory, size: w.size };
    let (root, r) = write_table(&[below], 34).unwrap();
    let (flat, deep) = (image(NOON, w.size, &[&table]), image(NOON, r.size, &[&root, &table]));
    let mut hidden = Vec::new();
    for name in &names {
        let window = Window { bytes: &flat, first: 32 };
        let there = window.find_path(Table { sector: 33, size: w.size }, name.as_bytes(), Rule::Two).unwrap().header;
        let should = Ok(Limits { sector: there.sector, size: 7, stamp: Stamp(NOON) });
        assert_eq!(load(&flat, name.as_bytes(), NOON, DAY), should, "{name}");
        assert_eq!(load(&deep, format!("maps/{name}").as_bytes(), NOON, DAY), should, "{name}");
        if window.find_path(Table { sector: 33, size: w.size }, name.as_bytes(), Rule::One).is_err() {
            hidden.push(name.as_str());
        }
    }
    assert_eq!(hidden, ["file48"]);
}

/// A link of 65,535 is absent, as it is under rule two: rule one would find what it leads to.
#[test]
fn a_link_of_65535() {
    let mut table = vec![0xff; 262_140 + 16];
    for (at, right, name) in [(0, u16::MAX, b'm'), (262_140, 0, b'z')] {
        table[at..at + 16].fill(0);
        table[at + 2..at + 4].copy_from_slice(&right.to_le_bytes());
        (table[at + 13], table[at + 14]) = (1, name);
    }
    let bytes = image(NOON, 262_156, &[&table]);
    assert_eq!(load(&bytes, b"z", NOON, DAY), Err(Error::DoesNotExist { headers: None }));
    assert_eq!(load(&bytes, b"m", NOON, DAY).map(|l| l.stamp), Ok(Stamp(NOON)));
}

/// Everything is wrong at first; what is refused is put right, and the next refusal in the order comes.
#[test]
fn the_order_of_refusals() {
    let mut bytes = sample(0);
    bytes[2047] ^= 1;
    let before = |bytes: &[u8], path: &[u8]| load(bytes, path, NOON - 1, Duration::ZERO);
    assert_eq!(before(&bytes, b"\x80"), Err(Error::NoVolume));
    bytes[2047] ^= 1;
    assert_eq!(before(&bytes, b"\x80"), Err(Error::NoDate));
    bytes[28..36].copy_from_slice(&NOON.to_le_bytes());
    bytes[20..28].fill(0); // the root is at sector 0, which the window has not, with size 0
    let late = NOON + 1;
    for path in [&b"\x80"[..], b"/", b"limits", b"d"] {
        assert_eq!(before(&bytes, path), Err(Error::ClockBack));
        assert_eq!(load(&bytes, path, late, Duration::ZERO), Err(Error::TooOld));
    }
    let at = |bytes: &[u8], path: &[u8]| load(bytes, path, late, units(1));
    assert_eq!(at(&bytes, b"/\x80"), Err(Error::BadByteSought));
    assert_eq!(at(&bytes, b"/"), Err(Error::NoDirent));
    assert_eq!(at(&bytes, b"limits/x"), Err(Error::DirectoryEmpty));
    bytes[24] = 36;
    assert_eq!(at(&bytes, b"limits/x"), Err(Error::Truncated { offset: None }));
    bytes[20] = 33;
    assert_eq!(at(&bytes, b"none/x"), Err(Error::DoesNotExist { headers: None }));
    assert_eq!(at(&bytes, b"limits/x"), Err(Error::IsNotDirectory));
    assert_eq!(at(&bytes, b"d"), Err(Error::NotAFile));
    assert_eq!(at(&bytes, b"limits"), Ok(limits(NOON)));
}

/// A refusal leaves 0 in all three cells, whatever was there.
#[test]
fn a_refusal_has_nothing_to_go_on_with() {
    let call = |bytes: &[u8], path: &[u8], time, age| {
        let (mut sector, mut size, mut stamp) = (77, 77, 77);
        let (w, p) = ((bytes.as_ptr(), bytes.len()), (path.as_ptr(), path.len()));
        let n = unsafe { sys::xdvdfs_load_limits(w.0, w.1, 32, p.0, p.1, time, age, &mut sector, &mut size, &mut stamp) };
        (n, (sector, size, stamp))
    };
    let bytes = sample(NOON);
    assert_eq!(call(&bytes, b"limits", NOON, 0), (0, (35, 7, NOON)));
    let (none, day) = (&b"limits"[..], 864_000_000_000);
    assert_eq!(call(&sample(0), none, NOON, day), (40, (0, 0, 0)));
    for (end, path, time, age, number) in [
        (2047, none, NOON, day, 20),
        (2048, none, NOON - 1, day, 41),
        (2048, none, NOON + 2, 1, 42),
        (6144, b"\x80", NOON, day, 2),
        (6144, b"/", NOON, day, 28),
        (6144, b"none", NOON, day, 22),
        (2048, none, NOON, day, 24),
        (6144, b"limits/x", NOON, day, 27),
        (6144, b"d", NOON, day, 43),
    ] {
        assert_eq!(call(&bytes[..end], path, time, age), (number, (0, 0, 0)), "{number}");
    }
}

/// A number of no answer of the loader's is not taken for one of another call.
#[test]
fn numbers_that_cannot_come() {
    for number in [1, 6, 26, 29, 30, 31, 32, 39, 44] {
        let told = std::panic::catch_unwind(|| Error::loading(number));
        assert!(told.is_err(), "{number}");
    }
}
