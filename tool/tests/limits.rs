//! `limits`: what it prints where the library accepts, each refusal, and the forms of ages and times.
mod common;
use common::*;
use serde_json::json;
use std::time::SystemTime;
use xdvdfs_tables::{Error, Stamp};

const DAY: u64 = 864_000_000_000;

/// A folder with game.iso, which holds the sample and has a date.
fn game() -> (Folder, String) {
    let folder = Folder::new();
    let image = folder.file("game.iso", &stamped_image_of(&sample(), NOON));
    (folder, image)
}

/// `limits` with an age, at a time.
fn load(image: &str, path: &str, age: &str, time: &str) -> Ran {
    xdvdfs(&["limits", image, path, "--max-age", age, "--now", time])
}

#[test]
fn text() {
    let (_folder, image) = game();
    let moon = "\
path     Maps/night/MOON
sector   44, byte 90112 of the file
size     1
date     2026-11-16T12:00:00Z (stamp 134393040000000000)
age      29d 12h 1.0000001s, at most 30d
now      2026-12-16T00:00:01.0000001Z (stamp 134418528010000001)
";
    assert_eq!(load(&image, "Maps/night/MOON", "30d", "2026-12-16T00:00:01.0000001Z").done(), moon);
    let save = "\
path     /save
sector   38, byte 77824 of the file
size     2048
date     2026-11-16T12:00:00Z (stamp 134393040000000000)
age      0s, at most 0s
now      2026-11-16T12:00:00Z (stamp 134393040000000000)
";
    assert_eq!(load(&image, "/save", "0s", "2026-11-16T12:00:00Z").done(), save);
    // options in front, and in any order
    assert_eq!(xdvdfs(&["limits", "--now=134393040000000000", "--max-age=0w", &image, "/save"]).done(), save);
}

#[test]
fn json() {
    let (_folder, image) = game();
    let answer = xdvdfs(&["limits", "--json", &image, "maps/TWO.bin", "--max-age", "1d", "--now", "2026-11-17T12:00:00Z"]);
    answer.done();
    let want = json!({"command": "limits", "image": image, "partition": {"offset": 0, "name": "XISO"}, "path": "maps/TWO.bin",
        "path_hex": "6d6170732f54574f2e62696e", "sector": 41, "byte": 41 * 2048, "size": 5000, "stamp": "134393040000000000",
        "date": "2026-11-16T12:00:00Z", "age": "864000000000", "greatest_age": "864000000000",
        "time": {"stamp": "134393904000000000", "date": "2026-11-17T12:00:00Z"}});
    assert_eq!(answer.json(), want);
    // the greatest stamp, all of whose digits are there
    let folder = Folder::new();
    let image = folder.file("last.iso", &stamped_image_of(&sample(), u64::MAX));
    let last = xdvdfs(&["limits", "--json", &image, "save", "--max-age", "1844674407370s", "--now", "18446744073709551615"]).json();
    assert_eq!((&last["stamp"], &last["time"]["stamp"]), (&json!("18446744073709551615"), &json!("18446744073709551615")));
    assert_eq!(
        (&last["date"], &last["time"]["date"]),
        (&json!("+60056-05-28T05:36:10.9551615Z"), &json!("+60056-05-28T05:36:10.9551615Z"))
    );
    assert_eq!((&last["age"], &last["greatest_age"]), (&json!("0"), &json!("18446744073700000000")));
}

/// A refusal in words, with the date where that is why, and as an object; nothing else is printed, and no offset and no number of headers is told.
fn refused_alike(image: &str, path: &str, age: &str, time: &str, what: &str, error: Error) {
    let args = ["limits", image, path, "--max-age", age, "--now", time];
    refused(&args, what, error);
    let ran = xdvdfs(&[&["--json"], &args[..]].concat());
    let message = format!("{what}: {}", words(error));
    let told = json!({"number": error.number(), "message": message, "offset": null, "headers": null, "rule_two": null});
    assert_eq!((ran.status, ran.json(), ran.err), (1, json!({"command": "limits", "refused": told}), format!("xdvdfs: {message}\n")));
}

#[test]
fn dates_refused() {
    let (folder, image) = game();
    let first =
        |time: &str, error| refused_alike(&image, "save", "30d", time, &format!("{image}, of 2026-11-16T12:00:00Z, at {time}"), error);
    first("2026-11-16T11:59:59.9999999Z", Error::ClockBack);
    first("1601-01-01T00:00:00.0000001Z", Error::ClockBack);
    let old =
        format!("{image}, of 2026-11-16T12:00:00Z, is 30d 0.0000001s old at 2026-12-16T12:00:00.0000001Z, and at most 30d is allowed");
    load(&image, "save", "30d", "2026-12-16T12:00:00Z").done();
    refused_alike(&image, "save", "30d", "2026-12-16T12:00:00.0000001Z", &old, Error::TooOld);
    // before the path is looked at
    refused_alike(&image, "caf\u{e9}", "30d", "2026-12-16T12:00:00.0000001Z", &old, Error::TooOld);
    let undated = folder.file("undated.iso", &image_of(&sample()));
    refused_alike(&undated, "save", "30d", "2026-12-16T12:00:00Z", &undated, Error::NoDate);
    refused_alike(&undated, "/", "30d", "2026-12-16T12:00:00Z", &undated, Error::NoDate);
    let none = folder.file("none", &[0; 100]);
    let tried = format!("{none}: at sector 32 from each of the bytes 0x0, 0x18300000, 0xfd90000, 0x2080000 on");
    refused_alike(&none, "save", "30d", "2026-12-16T12:00:00Z", &tried, Error::NoVolume);
    // the second mark is cut
    let cut = folder.file("cut", &stamped_image_of(&sample(), NOON)[..33 * 2048 - 1]);
    assert!(load(&cut, "save", "30d", "2026-12-16T12:00:00Z").err.ends_with("(refusal 20)\n"));
}

#[test]
fn paths_refused() {
    let (folder, image) = game();
    let at = "2026-11-16T12:00:00Z";
    for (path, error) in [
        ("caf\u{e9}", Error::BadByteSought),
        ("save/caf\u{e9}", Error::BadByteSought),
        ("/", Error::NoDirent),
        ("", Error::NoDirent),
        ("none", Error::DoesNotExist { headers: None }),
        ("maps/three", Error::DoesNotExist { headers: None }),
        ("save/x", Error::IsNotDirectory),
        ("maps", Error::NotAFile),
        ("maps/Night/", Error::NotAFile),
        ("empty", Error::NotAFile),
    ] {
        refused_alike(&image, path, "1d", at, path, error);
    }
    // a root of size 0; a link that leaves the table; a ring; a table that is cut off
    let table = || vec![entry(4, 8, 34, 1, 0x20, b"b"), entry(0, 0, 35, 1, 0x20, b"a"), entry(0, 0, 36, 1, 0x20, b"c")];
    let damaged = |entries: Vec<Vec<u8>>, change: &dyn Fn(&mut Vec<u8>)| {
        let mut bytes = stamped(image_by_hand(&[(33, entries)]), NOON);
        change(&mut bytes);
        folder.file("damaged.iso", &bytes)
    };
    let at_link = 33 * 2048 + 16;
    refused_alike(&damaged(vec![], &|_| ()), "a", "1d", at, "a", Error::DirectoryEmpty);
    let out = damaged(table(), &|b| b[at_link..at_link + 2].copy_from_slice(&400u16.to_le_bytes()));
    refused_alike(&out, "0", "1d", at, "0", Error::OutOfBounds { offset: None });
    let ring = damaged(table(), &|b| b[at_link..at_link + 2].copy_from_slice(&4u16.to_le_bytes()));
    refused_alike(&ring, "0", "1d", at, "0", Error::Looped);
    let cut = damaged(table(), &|b| b.truncate(33 * 2048 + 40));
    refused_alike(&cut, "c", "1d", at, "c", Error::Truncated { offset: None });
    load(&cut, "a", "1d", at).done();
}

/// What stands behind a link of 255 is loaded: the rule is rule two.
#[test]
fn a_link_of_255() {
    let folder = Folder::new();
    let image = folder.file("game.iso", &stamped_image_of(&[directory("maps", many_files(60))], NOON));
    assert_eq!(xdvdfs(&["find", &image, "maps/file48"]).status, 1);
    let entry = &xdvdfs(&["find", "--json", "--rule", "2", &image, "maps/file48"]).json()["entry"];
    let answer = xdvdfs(&["limits", "--json", &image, "maps/file48", "--max-age", "0s", "--now", &NOON.to_string()]).json();
    assert_eq!((&answer["sector"], &answer["size"]), (&entry["sector"], &entry["size"]));
    assert_eq!(xdvdfs(&["limits", "--rule", "2", &image, "maps/file48", "--max-age", "0s"]).status, 2);
}

/// The window is that of the game partition, wherever that is: sectors are counted from there, bytes from the start of the file.
#[test]
fn partitions() {
    let folder = Folder::new();
    let path = folder.path().join("disc.iso");
    let image = path.to_str().unwrap();
    for (offset, known) in [(0u64, true), (0x1830_0000, true), (0x0fd9_0000, true), (0x0208_0000, true), (12345, false)] {
        sparse_image(&path, &sample(), offset, offset + (1 << 20));
        let file = std::fs::OpenOptions::new().write(true).open(&path).unwrap();
        std::os::unix::fs::FileExt::write_all_at(&file, &NOON.to_le_bytes(), offset + 32 * SECTOR + 28).unwrap();
        let args = ["limits", "--json", image, "save", "--max-age", "1d", "--now", "2026-11-16T12:00:00Z"];
        let said = xdvdfs(&[&args[..], &["--offset", &offset.to_string()]].concat());
        said.done();
        let answer = said.json();
        assert_eq!((&answer["sector"], &answer["byte"]), (&json!(38), &json!(offset + 38 * 2048)));
        assert_eq!(answer["partition"]["offset"], json!(offset));
        if known {
            assert_eq!(xdvdfs(&args), said);
        } else {
            assert_eq!(xdvdfs(&args).json()["refused"]["number"], json!(20));
        }
        std::fs::remove_file(&path).unwrap();
    }
}

/// Ages in each unit: as old as is allowed is accepted, and 100 ns older is refused.
#[test]
fn ages() {
    let (_folder, image) = game();
    let second = 10_000_000;
    for (age, units, shown) in [
        ("0s", 0, "0s"),
        ("90s", 90 * second, "1m 30s"),
        ("15m", 15 * 60 * second, "15m"),
        ("36h", 36 * 3600 * second, "1d 12h"),
        ("30d", 30 * DAY, "30d"),
        ("030d", 30 * DAY, "30d"),
        ("4w", 28 * DAY, "28d"),
        ("5200w", 36_400 * DAY, "36400d"),
    ] {
        let told = load(&image, "save", age, &(NOON + units).to_string());
        assert!(told.done().contains(&format!("\nage      {shown}, at most {shown}\n")), "{age}: {told:?}");
        assert!(load(&image, "save", age, &(NOON + units + 1).to_string()).err.ends_with("(refusal 42)\n"), "{age}");
    }
    for age in ["1844674407370s", "30744573456m", "512409557h", "21350398d", "3050056w"] {
        load(&image, "save", age, "18446744073709551615").done();
    }
    for age in [
        "1844674407371s",
        "30744573457m",
        "512409558h",
        "21350399d",
        "3050057w",
        "18446744073709551615s",
        "18446744073709551616s",
        "99999999999999w",
        "340282366920938463463374607431768211456d",
    ] {
        let ran = load(&image, "save", age, "2026-11-16T12:00:00Z");
        assert_eq!((ran.status, ran.out.as_str()), (2, ""), "{age}");
        assert!(ran.err.contains("stamps do not reach so far; the greatest age is 1844674407370s"), "{ran:?}");
    }
    for age in [
        "", "30", "d", "30 d", " 30d", "30d ", "+30d", "1.5d", "1e3d", "0x1ed", "30D", "30dd", "3d4h", "30y", "30\u{e9}", "\u{663}d", "inf",
    ] {
        let ran = load(&image, "save", age, "2026-11-16T12:00:00Z");
        assert_eq!((ran.status, ran.out.as_str()), (2, ""), "{age}");
        assert!(ran.err.contains("no age; 90s, 15m, 36h, 30d and 4w are"), "{ran:?}");
    }
    // there is no age but the one that is said
    let ran = xdvdfs(&["limits", &image, "save", "--now", "2026-11-16T12:00:00Z"]);
    assert_eq!((ran.status, ran.out.as_str(), ran.err.contains("--max-age <AGE>")), (2, "", true), "{ran:?}");
    assert_eq!(load(&image, "save", "-1d", "2026-11-16T12:00:00Z").status, 2);
}

/// Times as dates and as stamps.
#[test]
fn times() {
    let (_folder, image) = game();
    for (time, date, stamp) in [
        ("134393040000000000", "2026-11-16T12:00:00Z", NOON),
        ("000134393040000000001", "2026-11-16T12:00:00.0000001Z", NOON + 1),
        ("2026-11-16T12:00:00Z", "2026-11-16T12:00:00Z", NOON),
        ("2026-11-16T12:00:00.5Z", "2026-11-16T12:00:00.5000000Z", NOON + 5_000_000),
        ("2026-11-16T12:00:00.0000001Z", "2026-11-16T12:00:00.0000001Z", NOON + 1),
        ("2028-02-29T23:59:59Z", "2028-02-29T23:59:59Z", 134_799_551_990_000_000),
        ("+10000-01-01T00:00:00Z", "+10000-01-01T00:00:00Z", 2_650_467_744_000_000_000),
        ("18446744073709551615", "+60056-05-28T05:36:10.9551615Z", u64::MAX),
        ("+60056-05-28T05:36:10.9551615Z", "+60056-05-28T05:36:10.9551615Z", u64::MAX),
    ] {
        let ran = load(&image, "save", "3050056w", time);
        assert_eq!(ran.done().lines().last(), Some(&*format!("now      {date} (stamp {stamp})")), "{time}");
    }
    let form = "the date is not written like 2026-11-16T12:00:00Z";
    let calendar = "there is no such day or no such time of day";
    for (time, words) in [
        ("", form),
        ("now", form),
        ("2026-11-16", form),
        ("2026-11-16T12:00:00", form),
        ("2026-11-16T12:00:00.Z", form),
        ("2026-11-16T12:00:00.12345678Z", form),
        ("2026-11-16T12:00:00+01:00", form),
        ("+2026-11-16T12:00:00Z", form),
        ("1.5", form),
        ("+5", form),
        ("0x5", form),
        ("2026-02-29T12:00:00Z", calendar),
        ("2026-11-16T24:00:00Z", calendar),
        ("2026-11-16T23:59:60Z", calendar),
        ("1601-01-01T00:00:00Z", "no stamp has that date"),
        ("1600-12-31T23:59:59Z", "no stamp has that date"),
        ("+60056-05-28T05:36:10.9551616Z", "no stamp has that date"),
        ("0", "the stamp 0 is no date"),
        ("00", "the stamp 0 is no date"),
        ("18446744073709551616", "no stamp; the greatest is 18446744073709551615"),
    ] {
        let ran = load(&image, "save", "1d", time);
        assert_eq!((ran.status, ran.out.as_str()), (2, ""), "{time}");
        assert!(ran.err.contains(words), "{time}: {ran:?}");
    }
    assert_eq!(load(&image, "save", "1d", "-5").status, 2);
}

/// Where no time is given it is that of the machine's clock.
#[test]
fn the_clock() {
    let folder = Folder::new();
    let now = || Stamp::from_system_time(SystemTime::now()).unwrap().0;
    let hour = 3600 * 10_000_000;
    let made = |stamp| folder.file("game.iso", &stamped_image_of(&sample(), stamp));
    let by_clock = |image: &str| xdvdfs(&["limits", "--json", image, "save", "--max-age", "90m"]);
    let before = now();
    let answer = by_clock(&made(before - hour));
    answer.done();
    let (answer, after) = (answer.json(), now());
    let time = answer["time"]["stamp"].as_str().unwrap().parse().unwrap();
    assert!((before..=after).contains(&time), "{answer}");
    assert_eq!(answer["age"], json!((time - (before - hour)).to_string()));
    assert_eq!(by_clock(&made(now() - 2 * hour)).json()["refused"]["number"], json!(42));
    assert_eq!(by_clock(&made(now() + hour)).json()["refused"]["number"], json!(41));
}
