//! What each command prints, as text and as JSON, of good and of damaged images. Refusals are quoted from the library's own words.
mod common;
use common::*;
use serde_json::{json, Value};
use xdvdfs_tables::Error;

/// A folder with game.iso, which holds the sample.
fn game() -> (Folder, String) {
    let folder = Folder::new();
    let image = folder.file("game.iso", &image_of(&sample()));
    (folder, image)
}

#[test]
fn ls() {
    let (_folder, image) = game();
    assert_eq!(xdvdfs(&["ls", &image]).done(), "maps/\ndefault.xbe\na b\nempty/\nsave\n");
    for root in ["/", "//", ""] {
        assert_eq!(xdvdfs(&["ls", &image, root]), xdvdfs(&["ls", &image]));
    }
    for maps in ["maps", "/maps", "MAPS/"] {
        assert_eq!(xdvdfs(&["ls", &image, maps]).done(), "one.bin\nNight/\ntwo.bin\n");
    }
    let long = "\
kind       sector  size  offset  name
directory      34  2048       0  maps/
file           35     7      20  default.xbe
file           36     0      48  a b
directory      37  2048      68  empty/
file           38  2048      88  save
";
    assert_eq!(xdvdfs(&["ls", "-l", &image]).done(), long);
    assert_eq!(
        xdvdfs(&["ls", "-l", &image, "maps/night"]).done(),
        "kind       sector  size  offset  name\nfile           44     1       0  moon\n"
    );
    assert_eq!(xdvdfs(&["ls", "-l", &image, "empty"]).done(), "");
    assert_eq!(xdvdfs(&["ls", &image, "empty"]).done(), "");
    refused(&["ls", &image, "none"], "none in /", Error::DoesNotExist { headers: Some(2) });
    let ran = xdvdfs(&["ls", &image, "SAVE"]);
    assert_eq!((ran.status, ran.out.as_str(), ran.err.as_str()), (1, "", "xdvdfs: /save is a file, no directory\n"));
}

#[test]
fn ls_as_json() {
    let (_folder, image) = game();
    let answer = xdvdfs(&["ls", "--json", &image, "MAPS"]);
    answer.done();
    let e = |name: &str, hex: &str, kind: &str, sector: u32, size: u32, offset: u32, attributes: u8| json!({"name": name, "name_hex": hex, "kind": kind, "sector": sector, "size": size, "offset": offset, "attributes": attributes});
    let entries = [
        e("one.bin", "6f6e652e62696e", "file", 39, 100, 0, 32),
        e("Night", "4e69676874", "directory", 40, 2048, 24, 16),
        e("two.bin", "74776f2e62696e", "file", 41, 5000, 44, 32),
    ];
    let want = json!({"command": "ls", "image": image, "partition": {"offset": 0, "name": "XISO"}, "path": "/maps", "path_hex": "2f6d617073",
        "table": {"sector": 34, "size": 2048}, "entries": entries});
    assert_eq!(answer.json(), want);
    // before the command as well
    assert_eq!(xdvdfs(&["--json", "ls", &image, "MAPS"]), answer);
    let none = xdvdfs(&["ls", "--json", &image, "none"]);
    let message = format!("none in /: {}", words(Error::DoesNotExist { headers: Some(2) }));
    let refused = json!({"number": 22, "message": message, "offset": null, "headers": 2, "rule_two": null});
    assert_eq!(none.json(), json!({"command": "ls", "refused": refused}));
    assert_eq!((none.status, none.err), (1, format!("xdvdfs: {message}\n")));
}

#[test]
fn names_that_are_no_text() {
    let folder = Folder::new();
    let names: [&[u8]; 3] = [b"\x1b[2J", b"caf\xe9", b"d\xff\\"];
    let table = vec![entry(0, 5, 34, 1, 0x20, names[0]), entry(0, 10, 35, 1, 0x20, names[1]), entry(0, 0, 36, 0, 0x10, names[2])];
    let image = folder.file("game.iso", &image_by_hand(&[(33, table)]));
    assert_eq!(xdvdfs(&["ls", &image]).done(), "\\x1b[2J\ncaf\\xe9\nd\\xff\\\\/\n");
    let answer = xdvdfs(&["ls", "--json", &image]).json();
    let told = |i: usize| (answer["entries"][i]["name"].clone(), answer["entries"][i]["name_hex"].clone());
    assert_eq!(told(0), (json!("\x1b[2J"), json!("1b5b324a")));
    assert_eq!(told(1), (Value::Null, json!("636166e9")));
    assert_eq!(told(2), (Value::Null, json!("64ff5c")));
    // a byte above 127 cannot be asked for
    let checked = xdvdfs(&["check", "--json", &image]);
    let hidden = &checked.json()["hidden"];
    assert_eq!((checked.status, &hidden[0]["name_hex"], &hidden[0]["number"]), (1, &json!("636166e9"), &json!(2)));
    assert_eq!(hidden.as_array().unwrap().len(), 2);
}

#[test]
fn find() {
    let (_folder, image) = game();
    let moon = "\
path     /maps/Night/moon
kind     file
sector   44, byte 90112 of the file
size     1
offset   0 in the table at sector 40
lookup   1 header read in that table, 1 + 2 + 1 along the path, under rule one
";
    assert_eq!(xdvdfs(&["find", &image, "Maps/night/MOON"]).done(), moon);
    assert_eq!(xdvdfs(&["find", "--rule", "1", &image, "Maps/night/MOON"]).done(), moon);
    assert_eq!(xdvdfs(&["find", "--rule", "2", &image, "Maps/night/MOON"]).done(), moon.replace("rule one", "rule two"));
    let maps = "\
path     /maps/
kind     directory
sector   34, byte 69632 of the file
size     2048
offset   0 in the table at sector 33
lookup   1 header read, under rule one
";
    assert_eq!(xdvdfs(&["find", &image, "/maps/"]).done(), maps);
    for rule in ["1", "2"] {
        let told = |path: &str, what: &str, error: Error| refused(&["find", "--rule", rule, &image, path], what, error);
        told("/", "/", Error::NoDirent);
        told("//", "//", Error::NoDirent);
        told("save/x", "/save is a file", Error::IsNotDirectory);
        told("maps/three/x", "three in /maps", Error::DoesNotExist { headers: Some(2) });
        told("empty/x", "x in /empty", Error::DoesNotExist { headers: Some(1) });
        told("caf\u{e9}", "caf\u{e9} in /", Error::BadByteSought);
        told("save/caf\u{e9}", "save/caf\u{e9}", Error::BadByteSought);
    }
}

#[test]
fn find_as_json() {
    let (_folder, image) = game();
    let answer = xdvdfs(&["find", "--json", &image, "maps/TWO.bin"]);
    answer.done();
    let entry = &xdvdfs(&["ls", "--json", &image, "maps"]).json()["entries"][2];
    let steps = json!([
        {"name": "maps", "name_hex": "6d617073", "table": {"sector": 33, "size": 108}, "offset": 0, "headers": 1},
        {"name": "two.bin", "name_hex": "74776f2e62696e", "table": {"sector": 34, "size": 2048}, "offset": 44, "headers": 2}
    ]);
    let want = json!({"command": "find", "image": image, "partition": {"offset": 0, "name": "XISO"}, "path": "/maps/two.bin",
        "path_hex": "2f6d6170732f74776f2e62696e", "rule": 1, "entry": entry, "byte": 41 * 2048, "headers": 2, "steps": steps});
    assert_eq!(answer.json(), want);
    let mut two = want;
    two["rule"] = json!(2);
    assert_eq!(xdvdfs(&["find", "--rule=2", "--json", &image, "maps/TWO.bin"]).json(), two);
}

#[test]
fn check() {
    let (_folder, image) = game();
    let good = |args: &[&str], counted: &str| {
        for (options, rule) in [(&[][..], "one"), (&["--rule", "1"], "one"), (&["--rule", "2"], "two")] {
            let verdict = format!("{counted}: good, and a lookup under rule {rule} finds every name\n");
            assert_eq!(xdvdfs(&[&["check"], options, args].concat()).done(), verdict);
        }
    };
    good(&[&image], "1 table, 5 entries");
    good(&[&image, "maps/night"], "1 table, 1 entry");
    good(&[&image, "empty"], "1 table, 0 entries");
    good(&["--all", &image], "4 tables, 9 entries");
    good(&["--all", &image, "maps"], "2 tables, 4 entries");
    let mut want = json!({"command": "check", "image": image, "partition": {"offset": 0, "name": "XISO"}, "path": "/", "path_hex": "2f",
        "rule": 1, "all": true, "good": true, "tables": 4, "entries": 9, "faults": [], "hidden": [], "shared": [], "untold": 0});
    assert_eq!(xdvdfs(&["check", "--all", "--json", &image]).json(), want);
    want["rule"] = json!(2);
    assert_eq!(xdvdfs(&["check", "--all", "--json", "--rule", "2", &image]).json(), want);
    refused(&["check", &image, "none"], "none in /", Error::DoesNotExist { headers: Some(2) });
}

/// A link of 255 is followed by the walk and not by rule one: the strict check accepts the table, and a name in it is hidden under that rule.
#[test]
fn a_link_of_255_hides_a_name() {
    let folder = Folder::new();
    let image = folder.file("game.iso", &image_of(&[directory("maps", many_files(60))]));
    assert!(xdvdfs(&["ls", &image, "maps"]).done().contains("file48\n"));
    let why = "a link of file49 at offset 1000 is 255, which rule one takes for none; rule two finds it";
    let message = format!(
        "file48 at offset 1020 is listed, but a lookup under rule one does not find it: {}; {why}",
        words(Error::DoesNotExist { headers: Some(5) })
    );
    let ran = xdvdfs(&["check", "--all", &image]);
    assert_eq!((ran.status, ran.err.as_str()), (1, ""));
    assert_eq!(ran.out, format!("hidden: /maps: {message}\n2 tables, 61 entries: 0 faults, 1 hidden name under rule one\n"));
    let hidden = json!([{"path": "/maps", "path_hex": "2f6d617073", "table": {"sector": 34, "size": 2048}, "kind": "hidden", "number": 22,
        "message": message, "offset": 1020, "name": "file48", "name_hex": "66696c653438"}]);
    let answer = xdvdfs(&["check", "--json", &image, "maps"]);
    assert_eq!((answer.status, &answer.json()["good"], &answer.json()["hidden"]), (1, &json!(false), &hidden));
    let two = xdvdfs(&["check", "--all", "--rule", "2", &image]);
    assert_eq!(two.done(), "2 tables, 61 entries: good, and a lookup under rule two finds every name\n");
    // what is below it is hidden with it, and the same link is told
    let image = folder.file("game.iso", &image_of(&many_files(100)));
    let ran = xdvdfs(&["check", &image]);
    let told = |words: &str| ran.out.lines().filter(|l| l.contains(words)).count() == ran.out.lines().count() - 1;
    assert!(ran.out.lines().count() > 2 && told("is 255, which rule one") && told("; rule two finds it"), "{ran:?}");
    xdvdfs(&["check", "--rule", "2", &image]).done();
}

/// What rule one does not find and rule two does: the refusal is rule one's, and a second line says where it is.
#[test]
fn find_says_what_rule_two_finds() {
    let folder = Folder::new();
    let image = folder.file("game.iso", &image_of(&[directory("maps", many_files(60))]));
    let there = xdvdfs(&["ls", "--json", &image, "maps"]).json();
    let entry = there["entries"].as_array().unwrap().iter().find(|e| e["name"] == "file48").unwrap();
    assert_eq!((&entry["offset"], &entry["kind"]), (&json!(1020), &json!("file")));
    let message = format!("File48 in /maps: {}", words(Error::DoesNotExist { headers: Some(5) }));
    let note = format!(
        "/maps/file48 is there, and rule two finds it: file, sector {}, size 1, offset 1020 in the table at sector 34",
        entry["sector"]
    );
    for options in [&[][..], &["--rule", "1"]] {
        let ran = xdvdfs(&[&["find", &image, "Maps/File48"], options].concat());
        assert_eq!((ran.status, ran.out.as_str(), ran.err), (1, "", format!("xdvdfs: {message}\nxdvdfs: {note}\n")));
        let ran = xdvdfs(&[&["find", "--json", &image, "Maps/File48"], options].concat());
        let rule_two =
            json!({"path": "/maps/file48", "path_hex": "2f6d6170732f66696c653438", "table": {"sector": 34, "size": 2048}, "entry": entry});
        let refused = json!({"number": 22, "message": message, "offset": null, "headers": 5, "rule_two": rule_two});
        assert_eq!((ran.status, ran.json()), (1, json!({"command": "find", "refused": refused})));
        assert_eq!(ran.err, format!("xdvdfs: {message}\nxdvdfs: {note}\n"));
    }
    let two = xdvdfs(&["find", "--json", "--rule", "2", &image, "Maps/File48"]);
    two.done();
    assert_eq!((&two.json()["entry"], &two.json()["headers"], &two.json()["rule"]), (entry, &json!(6), &json!(2)));
    assert_eq!(two.json()["steps"].as_array().unwrap().len(), 2);
    // what neither finds has one line
    for rule in ["1", "2"] {
        refused(&["find", "--rule", rule, &image, "maps/file99"], "file99 in /maps", Error::DoesNotExist { headers: Some(6) });
    }
}

/// A directory behind a link of 255: `ls` and `check` go into it under rule two alone, and under rule one say that it is there.
#[test]
fn a_hidden_directory() {
    let folder = Folder::new();
    let inner = || vec![file("moon", 1)];
    let members = (0..60).map(|i| directory(&format!("file{i:02}"), inner())).collect::<Vec<_>>();
    let image = folder.file("game.iso", &image_of(&members));
    let message = words(Error::DoesNotExist { headers: Some(5) });
    for command in [&["ls"][..], &["check"], &["check", "--all"]] {
        let ran = xdvdfs(&[command, &[&image, "FILE48"]].concat());
        let note = "xdvdfs: /file48 is there, and rule two finds it: directory, sector ";
        let lines: Vec<&str> = ran.err.lines().collect();
        assert_eq!((ran.status, lines.len(), lines[0]), (1, 2, &*format!("xdvdfs: FILE48 in /: {message}")), "{ran:?}");
        assert!(lines[1].starts_with(note) && lines[1].ends_with(", size 2048, offset 1020 in the table at sector 33"), "{ran:?}");
    }
    assert_eq!(xdvdfs(&["ls", "--rule", "2", &image, "FILE48"]).done(), "moon\n");
    let good = "1 table, 1 entry: good, and a lookup under rule two finds every name\n";
    assert_eq!(xdvdfs(&["check", "--rule", "2", &image, "FILE48"]).done(), good);
    // a file in it is told with its whole path
    let ran = xdvdfs(&["find", &image, "file48/MOON"]);
    assert!(ran.err.starts_with("xdvdfs: file48 in /: "), "{ran:?}");
    assert!(ran.err.contains("\nxdvdfs: /file48/moon is there, and rule two finds it: file,"), "{ran:?}");
    assert!(xdvdfs(&["find", "--rule", "2", &image, "file48/MOON"]).done().starts_with("path     /file48/moon\n"));
    // rule two does not find this one either
    assert_eq!(xdvdfs(&["find", &image, "file48/sun"]).err, format!("xdvdfs: file48 in /: {message}\n"));
}

/// Off written tables rule one may find what rule two does not: it follows a link of 65,535, which `ls` does not.
#[test]
fn a_link_of_65535() {
    let folder = Folder::new();
    let mut bytes = image_by_hand(&[(33, vec![vec![0xff; 262_144]])]);
    bytes.extend_from_slice(&[0xff; 2048]);
    for (offset, entry) in [(0, entry(0, u16::MAX, 34, 1, 0x20, b"m")), (262_140, entry(0, 0, 35, 1, 0x20, b"z"))] {
        bytes[33 * 2048 + offset..][..16].copy_from_slice(&entry);
    }
    let image = folder.file("game.iso", &bytes);
    assert_eq!(xdvdfs(&["ls", &image]).done(), "m\n");
    assert!(xdvdfs(&["find", &image, "z"]).done().contains("offset   262140 in the table at sector 33\n"));
    refused(&["find", "--rule", "2", &image, "z"], "z in /", Error::DoesNotExist { headers: Some(1) });
    xdvdfs(&["check", &image]).done();
    xdvdfs(&["check", "--rule", "2", &image]).done();
}

/// A name on the wrong side of an entry above it that is not its parent: the strict check refuses it, and no lookup finds it, under either rule.
#[test]
fn a_misfiled_name() {
    let folder = Folder::new();
    let tables: [(&[_], &str, u32, &str, u32); 4] = [
        (&[(4, 0, b"m"), (0, 8, b"c"), (0, 0, b"z")], "z", 1, "left subtree of m at offset 0", 32),
        (&[(0, 4, b"m"), (8, 0, b"x"), (0, 0, b"a")], "a", 1, "right subtree of m at offset 0", 32),
        (&[(4, 0, b"m"), (0, 8, b"c"), (12, 0, b"e"), (0, 0, b"b")], "b", 2, "right subtree of c at offset 16", 48),
        (&[(4, 0, b"m"), (0, 8, b"c"), (0, 12, b"e"), (0, 0, b"z")], "z", 1, "left subtree of m at offset 0", 48),
    ];
    for (entries, name, headers, subtree, offset) in tables {
        let table = entries.iter().map(|(left, right, name)| entry(*left, *right, 34, 1, 0x20, *name)).collect();
        let image = folder.file("game.iso", &image_by_hand(&[(33, table)]));
        let strict = words(Error::OutOfOrder { offset });
        let missing = words(Error::DoesNotExist { headers: Some(headers) });
        for (number, rule) in [("1", "one"), ("2", "two")] {
            let ran = xdvdfs(&["check", "--rule", number, &image]);
            let told = format!(
                "strict: /: {strict}; the entry is {name}; it stands in the {subtree}\n\
                 hidden: /: {name} at offset {offset} is listed, but a lookup under rule {rule} does not find it: {missing}\n\
                 1 table, {} entries: 1 fault, 1 hidden name under rule {rule}\n",
                entries.len()
            );
            assert_eq!((ran.status, ran.out), (1, told));
        }
    }
}

/// Below an entry of the same name, which is not its parent, a name is out of order: a lookup finds the other entry.
#[test]
fn an_equal_name_below_another() {
    let folder = Folder::new();
    let table = vec![entry(4, 0, 34, 1, 0x20, b"m"), entry(0, 8, 35, 1, 0x20, b"c"), entry(0, 0, 36, 1, 0x20, b"M")];
    let image = folder.file("game.iso", &image_by_hand(&[(33, table)]));
    let ran = xdvdfs(&["check", "--rule", "2", &image]);
    let told = format!(
        "strict: /: {}; the entry is M; it stands in the left subtree of m at offset 0\n\
         hidden: /: M at offset 32 is listed, but a lookup under rule two finds the entry at offset 0\n\
         1 table, 3 entries: 1 fault, 1 hidden name under rule two\n",
        words(Error::OutOfOrder { offset: 32 })
    );
    assert_eq!((ran.status, ran.out), (1, told));
}

#[test]
fn rules_of_other_numbers() {
    let (_folder, image) = game();
    for rule in ["0", "3", "", "one", "01", "+1", "4294967297"] {
        for command in [&["ls"][..], &["find", "save"], &["check"]] {
            let ran = xdvdfs(&[&command[..1], &["--rule", rule, &image], &command[1..]].concat());
            assert_eq!((ran.status, ran.out.as_str()), (2, ""), "{command:?} --rule {rule}");
            assert!(ran.err.contains("no rule; 1 and 2 are"), "{ran:?}");
        }
    }
    assert_eq!(xdvdfs(&["info", "--rule", "1", &image]).status, 2);
}

#[test]
fn two_entries_of_one_name() {
    let folder = Folder::new();
    let table = vec![entry(4, 8, 34, 1, 0x20, b"b"), entry(0, 0, 35, 1, 0x20, b"B"), entry(0, 0, 36, 1, 0x20, b"c/d")];
    let image = folder.file("game.iso", &image_by_hand(&[(33, table)]));
    let ran = xdvdfs(&["check", &image]);
    let strict = words(Error::OutOfOrder { offset: 16 });
    assert_eq!(
        ran.out,
        format!(
            "strict: /: {strict}; the entry is B; it stands in the left subtree of b at offset 0\n\
             hidden: /: B at offset 16 is listed, but a lookup under rule one finds the entry at offset 0\n\
             hidden: /: c/d at offset 32 is listed, but no path leads to it, for its name has a slash\n\
             1 table, 3 entries: 1 fault, 2 hidden names under rule one\n"
        )
    );
}

#[test]
fn strict_faults() {
    let folder = Folder::new();
    let good = vec![entry(4, 8, 34, 1, 0x20, b"b"), entry(0, 0, 35, 1, 0x20, b"a"), entry(0, 0, 36, 1, 0x20, b"c")];
    let bytes = image_by_hand(&[(33, good)]);
    let at = 33 * 2048;
    let told = |change: &dyn Fn(&mut Vec<u8>)| {
        let mut bytes = bytes.clone();
        change(&mut bytes);
        let ran = xdvdfs(&["check", &folder.file("game.iso", &bytes)]);
        assert_eq!((ran.status, ran.err.as_str()), (1, ""));
        ran.out
    };
    // the right link leads where the left one does
    let shared = told(&|b| b[at + 2] = 4);
    assert!(
        shared.starts_with(&format!("strict: /: {}; the entry is a; its parent is b at offset 0\n", words(Error::Shared { offset: 16 }))),
        "{shared}"
    );
    assert!(shared.ends_with("1 table, 2 entries: 1 fault, 0 hidden names under rule one\n"), "{shared}");
    // a name runs into the next entry
    let place = told(&|b| b[at + 16 + 13] = 3);
    assert!(place.starts_with(&format!("strict: /: {}; the entry is c;", words(Error::BadPlace { offset: 32 }))), "{place}");
    // a link leaves the table: nothing can be listed
    let bounds = words(Error::OutOfBounds { offset: Some(1600) });
    let left = told(&|b| b[at + 32..at + 34].copy_from_slice(&400u16.to_le_bytes()));
    assert_eq!(
        left,
        format!(
            "strict: /: {bounds}; the link is that of c at offset 32\n\
             walk: /: the table cannot be listed, so its names are not looked up: {bounds}\n\
             1 table, 0 entries: 2 faults, 0 hidden names under rule one\n"
        )
    );
    // the image ends before the table does
    let cut = words(Error::Truncated { offset: Some(0) });
    let short = told(&|b| b.truncate(at));
    assert_eq!(short.lines().next(), Some(&*format!("strict: /: {cut}")));
}

#[test]
fn info() {
    let (folder, image) = game();
    let told = xdvdfs(&["info", &image]);
    assert_eq!(
        told.done(),
        format!(
            "image      {image}, 92160 bytes\npartition  from byte 0x0 on (XISO), 45 sectors\n\
             root       sector 33, 108 bytes\ndate       no date\n"
        )
    );
    let want = json!({"command": "info", "image": image, "length": 92160, "partition": {"offset": 0, "name": "XISO"}, "sectors": 45,
        "root": {"sector": 33, "size": 108}, "stamp": "0", "date": null});
    assert_eq!(xdvdfs(&["info", "--json", &image]).json(), want);
    refused(&["info", "--offset", "0x800", &image], &format!("{image}: at sector 32 from byte 0x800 on"), Error::NoVolume);
    let none = folder.file("none", &[0; 100]);
    let tried = format!("{none}: at sector 32 from each of the bytes 0x0, 0x18300000, 0xfd90000, 0x2080000 on");
    refused(&["ls", &none], &tried, Error::NoVolume);
}

/// The date of a volume that has one. In JSON every digit of its stamp is there.
#[test]
fn info_of_a_date() {
    let folder = Folder::new();
    for (stamp, date) in [(134_393_040_000_000_000, "2026-11-16T12:00:00Z"), (u64::MAX, "+60056-05-28T05:36:10.9551615Z")] {
        let image = folder.file("game.iso", &stamped_image_of(&sample(), stamp));
        let told = xdvdfs(&["info", &image]);
        assert_eq!(told.done().lines().last(), Some(&*format!("date       {date} (stamp {stamp})")));
        let answer = xdvdfs(&["info", "--json", &image]).json();
        assert_eq!((&answer["stamp"], &answer["date"]), (&json!(stamp.to_string()), &json!(date)));
    }
}

/// The partition is found where a disc of each form has it, or where it is said to be; sectors are counted from there.
#[test]
fn partitions() {
    let folder = Folder::new();
    let path = folder.path().join("disc.iso");
    let image = path.to_str().unwrap();
    for (offset, name) in [(0u64, "XISO"), (0x1830_0000, "XGD1"), (0x0fd9_0000, "XGD2"), (0x0208_0000, "XGD3")] {
        sparse_image(&path, &sample(), offset, offset + (1 << 20));
        assert_eq!(xdvdfs(&["info", "--json", image]).json()["partition"], json!({"offset": offset, "name": name}));
        assert_eq!(xdvdfs(&["ls", image]).done(), "maps/\ndefault.xbe\na b\nempty/\nsave\n");
        let found = xdvdfs(&["find", "--json", image, "save"]).json();
        assert_eq!((&found["entry"]["sector"], &found["byte"]), (&json!(38), &json!(offset + 38 * 2048)));
        assert_eq!(xdvdfs(&["info", image, "--offset", &offset.to_string()]), xdvdfs(&["info", image]));
        std::fs::remove_file(&path).unwrap();
    }
    // elsewhere it is found only where it is said to be
    sparse_image(&path, &sample(), 12345, 1 << 20);
    assert_eq!(xdvdfs(&["ls", image]).status, 1);
    assert_eq!(xdvdfs(&["ls", "--offset", "12345", image]).done(), "maps/\ndefault.xbe\na b\nempty/\nsave\n");
    assert_eq!(xdvdfs(&["info", "--json", "--offset", "0x3039", image]).json()["partition"], json!({"offset": 12345, "name": null}));
    // of two the first counts
    let (first, second) = (image_of(&[file("first", 1)]), image_of(&[file("second", 1)]));
    let disc = std::fs::File::create(&path).unwrap();
    for (at, bytes) in [(0, &first), (0x0208_0000, &second)] {
        std::os::unix::fs::FileExt::write_all_at(&disc, bytes, at).unwrap();
    }
    assert_eq!(xdvdfs(&["ls", image]).done(), "first\n");
    assert_eq!(xdvdfs(&["ls", "--offset", "0x2080000", image]).done(), "second\n");
}

const MANIFEST: &str = "\
# the sample image, in the order in which the tests make it
f 7 default.xbe
d maps
f 2048 save
d empty
f 0 a b
f 100 maps/one.bin
f 5000 maps/two.bin
f 1 maps/Night/moon
";

#[test]
fn plan() {
    let folder = Folder::new();
    let manifest = folder.file("game.txt", MANIFEST.as_bytes());
    let want = "\
kind       sector  sectors  size  path
directory      33        1   108  /
directory      34        1    68  /maps
file           35        1     7  /default.xbe
file           36        1     0  /a b
directory      37        1  2048  /empty
file           38        1  2048  /save
file           39        1   100  /maps/one.bin
directory      40        1    20  /maps/Night
file           41        3  5000  /maps/two.bin
file           44        1     1  /maps/Night/moon
next free sector 45, an image of 92160 bytes
";
    assert_eq!(xdvdfs(&["plan", &manifest]).done(), want);
    let answer = xdvdfs(&["plan", "--json", &manifest]).json();
    assert_eq!((&answer["command"], &answer["next_free"], &answer["bytes"]), (&json!("plan"), &json!(45), &json!(92160)));
    assert_eq!(answer["directories"][1], json!({"path": "/maps", "path_hex": "2f6d617073", "sector": 34, "sectors": 1, "size": 68}));
    assert_eq!(answer["files"][4]["path"], json!("/maps/two.bin"));
    assert_eq!((answer["directories"].as_array().unwrap().len(), answer["files"].as_array().unwrap().len()), (4, 6));
    // the same as JSON
    let members = json!([{"file": "default.xbe", "size": 7}, {"directory": "maps"}, {"file": "save", "size": 2048}, {"directory": "empty"},
        {"file": "a b", "size": 0}, {"file": "maps/one.bin", "size": 100}, {"file": "maps/two.bin", "size": 5000},
        {"file": "maps/Night/moon", "size": 1}]);
    let manifest = folder.file("game.json", members.to_string().as_bytes());
    assert_eq!(xdvdfs(&["plan", &manifest]).done(), want);
}

#[test]
fn plan_of_a_folder() {
    let folder = Folder::new();
    for name in ["b/c/deep", "a", "Z", "b/one"] {
        let path = folder.path().join("folder").join(name);
        std::fs::create_dir_all(path.parent().unwrap()).unwrap();
        std::fs::write(path, name).unwrap();
    }
    let root = folder.path().join("folder");
    std::os::unix::fs::symlink("a", root.join("link")).unwrap();
    let manifest = folder.file("manifest", b"f 1 Z\nf 1 a\nd b\nf 1 link\nd b/c\nf 5 b/one\nf 8 b/c/deep\n");
    assert_eq!(xdvdfs(&["plan", "--dir", root.to_str().unwrap()]).done(), xdvdfs(&["plan", &manifest]).done());
    std::os::unix::fs::symlink(".", root.join("round")).unwrap();
    let ran = xdvdfs(&["plan", "--dir", root.to_str().unwrap()]);
    assert_eq!((ran.status, ran.err.ends_with("/folder/round: is a link to a directory, which is not followed\n")), (1, true), "{ran:?}");
    assert_eq!(xdvdfs(&["plan", "--dir", "/nowhere"]).status, 1);
}

#[test]
fn plans_refused() {
    let folder = Folder::new();
    let told = |text: &str, what: &str, error: Error| refused(&["plan", &folder.file("manifest", text.as_bytes())], what, error);
    let none = None;
    told("f 1 a\nf 1 d/x\nf 2 d/X\n", "/d/X", Error::DuplicateFileName { entry: none });
    told("d maps\nd MAPS\n", "/MAPS", Error::DuplicateFileName { entry: none });
    told("f 1 a\nf 1 a/b\n", "/a", Error::DuplicateFileName { entry: none });
    told("f 4294967296 d/big\n", "/d/big", Error::FileTooLarge { entry: none });
    told("f 1 d/caf\u{e9}\n", "/d/caf\u{e9}", Error::BadByte { entry: none });
    told("f 1 d//x\n", "/d/", Error::EmptyName { entry: none });
    told(&format!("f 1 {}\n", "x".repeat(256)), &format!("/{}", "x".repeat(256)), Error::NameTooLong { entry: none });
    let many: String = (0..14_000).map(|i| format!("f 1 d/{i:05}\n")).collect();
    told(&many, "/d", Error::TooManyDirectoryEntries { directory: none });
    let large: String = (0..2049).map(|i| format!("f 4294967295 d/{i}\n")).collect();
    told(&large, "/d", Error::SectorOverflow { directory: none });
    let ran = xdvdfs(&["plan", &folder.file("manifest", b"f 1 a\nnonsense\n")]);
    assert_eq!(
        (ran.status, ran.err.ends_with("manifest: line 2: is neither 'f SIZE PATH' nor 'd PATH': nonsense\n")),
        (1, true),
        "{ran:?}"
    );
}

/// The tables of a planned image, put where the plan has them, are that image.
#[test]
fn tables_make_the_image() {
    let folder = Folder::new();
    let manifest = folder.file("game.txt", MANIFEST.as_bytes());
    let image = image_of(&sample());
    let plan = xdvdfs(&["plan", "--json", &manifest]).json();
    for d in plan["directories"].as_array().unwrap() {
        let output = folder.path().join("table");
        let (path, output) = (d["path"].as_str().unwrap(), output.to_str().unwrap());
        let answer = xdvdfs(&["table", &manifest, "--path", path, "-o", output, "--json"]);
        answer.done();
        let bytes = std::fs::read(output).unwrap();
        let at = d["sector"].as_u64().unwrap() as usize * 2048;
        assert_eq!(bytes, image[at..at + bytes.len()], "{path}");
        let answer = answer.json();
        assert_eq!((&answer["sector"], &answer["size"], &answer["bytes"]), (&d["sector"], &d["size"], &json!(bytes.len())));
        let first = if path == "/empty" { Value::Null } else { answer["first"].clone() };
        assert_eq!((&answer["first"], first.is_u64()), (&first, path != "/empty"));
        std::fs::remove_file(output).unwrap();
        assert_eq!(xdvdfs(&["table", &manifest, "--path", path, "-o", output]).done(), "");
        assert_eq!(std::fs::read(output).unwrap(), bytes);
    }
    let ran = xdvdfs(&["table", &manifest, "--path", "none"]);
    assert_eq!((ran.status, ran.err.as_str()), (1, "xdvdfs: none: no such directory is in the plan\n"));
    let nowhere = xdvdfs(&["table", &manifest, "-o", "/nowhere/table"]);
    assert_eq!((nowhere.status, nowhere.err.starts_with("xdvdfs: /nowhere/table: ")), (1, true));
}

/// Directories are coloured on a terminal, and nothing is in JSON.
#[test]
fn colours() {
    use xdvdfs_tool::Screen;
    let (_folder, image) = game();
    let terminal = Screen { out: true, err: true, plain: false };
    let ran = on_screen(&["ls", &image], terminal);
    assert_eq!(ran.out, "\x1b[1;34mmaps/\x1b[0m\ndefault.xbe\na b\n\x1b[1;34mempty/\x1b[0m\nsave\n");
    let plain = Screen { plain: true, ..terminal };
    for args in [
        &["ls", "-l", &image][..],
        &["check", "--all", &image],
        &["find", &image, "maps"],
        &["--help"],
        &["ls", "--help"],
        &["find", &image, "none"],
        &["ls"],
    ] {
        let coloured = on_screen(args, terminal);
        assert_eq!(on_screen(args, plain), xdvdfs(args));
        let bare = |text: &str| {
            text.split("\x1b[").enumerate().map(|(i, t)| if i == 0 { t } else { t.split_once('m').unwrap().1 }).collect::<String>()
        };
        let without = Ran { status: coloured.status, out: bare(&coloured.out), err: bare(&coloured.err) };
        assert_eq!(without, xdvdfs(args), "{args:?}");
        assert_ne!(coloured, xdvdfs(args), "{args:?}");
    }
    assert_eq!(on_screen(&["check", "--json", &image], terminal), xdvdfs(&["check", "--json", &image]));
}
