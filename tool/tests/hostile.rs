//! Images that nobody would make: whatever the bytes are, the program ends with an answer or a refusal, prints nothing that a terminal would obey, and what `check` calls
//! good can be found. What `limits` says is what `info` and `find` say together.
mod common;
use common::*;
use std::panic::{catch_unwind, AssertUnwindSafe};

const RUNS: usize = 20_000;

/// A run that may refuse and may not panic. What it prints has no control byte but the ends of lines.
fn survives(args: &[&str], why: &dyn Fn() -> String) -> Ran {
    let ran = catch_unwind(AssertUnwindSafe(|| xdvdfs(args))).unwrap_or_else(|_| panic!("{args:?} panicked on {}", why()));
    assert!(ran.status <= 1, "{args:?} ended with {} on {}", ran.status, why());
    let safe = |text: &str| text.chars().all(|c| c == '\n' || !c.is_control());
    assert!(safe(&ran.out) && safe(&ran.err), "{args:?} printed a control byte on {}", why());
    if args[0] == "check" && ran.err.is_empty() {
        assert!(!ran.out.is_empty(), "check says nothing on {}", why());
    } else {
        assert_eq!(ran.status == 1, !ran.err.is_empty(), "{args:?} on {}: {ran:?}", why());
    }
    if args.contains(&"--json") {
        ran.json();
    }
    ran
}

/// A rule, by its number.
const RULES: [&str; 2] = ["1", "2"];

/// Every command on an image; how many runs that were.
fn every_command(image: &str, dice: &mut Dice, why: &dyn Fn() -> String) -> usize {
    let paths = ["maps", "/maps/night/", "maps/one.bin", "a b", "empty", "FILE30", "maps//", "\u{e9}", "none/x"];
    let path = paths[dice.below(paths.len())];
    let json = |args: &mut Vec<&'static str>, dice: &mut Dice| {
        if dice.below(2) == 0 {
            args.push("--json");
        }
    };
    let mut runs = 0;
    for command in [&["ls"][..], &["ls", "-l"], &["check"], &["check", "--all"], &["info"]] {
        let mut args = command.to_vec();
        json(&mut args, dice);
        let mut args: Vec<&str> = args;
        args.push(image);
        if command[0] != "info" {
            args.extend(["--rule", RULES[dice.below(2)]]);
            if dice.below(2) == 0 {
                args.push(path);
            }
        }
        survives(&args, why);
        runs += 1;
    }
    for rule in RULES {
        survives(&["find", "--rule", rule, image, path], why);
        found_where_good(image, rule, dice, why);
    }
    for path in paths {
        loaded_as_found(image, path, dice, why);
    }
    runs + RULES.len() + paths.len()
}

/// `limits` at a time beside the stamp: the first refusal in its order, or the date that `info` shows with the file that `find` finds under rule two.
fn loaded_as_found(image: &str, path: &str, dice: &mut Dice, why: &dyn Fn() -> String) {
    let info = survives(&["info", "--json", image], why).json();
    let found = survives(&["find", "--json", "--rule", "2", "--", image, path], why).json();
    let stamp: u64 = info["stamp"].as_str().map_or(1, |digits| digits.parse().unwrap());
    let after = [0, 1, 10_000_000, 10_000_001][dice.below(4)];
    let time = if dice.below(5) == 0 { stamp.saturating_sub(1) } else { stamp.saturating_add(after) }.max(1);
    let age = dice.below(2) as u64;
    let (age_text, time_text) = (format!("{age}s"), time.to_string());
    let loaded = survives(&["limits", "--json", "--max-age", &age_text, "--now", &time_text, "--", image, path], why).json();
    let refusal = if !info["refused"].is_null() {
        20.into()
    } else if stamp == 0 {
        40.into()
    } else if time < stamp {
        41.into()
    } else if time - stamp > age * 10_000_000 {
        42.into()
    } else if found["entry"]["kind"] == "directory" {
        43.into()
    } else {
        found["refused"]["number"].clone()
    };
    assert_eq!(loaded["refused"]["number"], refusal, "{path} at {time}, {age}s, on {}", why());
    let answer = |sector, size, byte, stamp| [sector, size, byte, stamp].map(serde_json::Value::clone);
    let told = answer(&loaded["sector"], &loaded["size"], &loaded["byte"], &loaded["stamp"]);
    if refusal.is_null() {
        let entry = &found["entry"];
        assert_eq!(told, answer(&entry["sector"], &entry["size"], &found["byte"], &info["stamp"]), "{path} on {}", why());
    } else {
        assert!(told.iter().all(|value| value.is_null()), "{path} is refused, and answered, on {}", why());
    }
}

/// Where `check` finds the root good under a rule, each name that `ls` lists is found where it is listed under that rule; ten of them are asked for.
fn found_where_good(image: &str, rule: &str, dice: &mut Dice, why: &dyn Fn() -> String) {
    let checked = survives(&["check", "--json", "--rule", rule, image], why);
    if checked.status != 0 {
        return;
    }
    let listed = survives(&["ls", "--json", image], why).json();
    let entries = listed["entries"].as_array().unwrap();
    assert_eq!(entries.len() as u64, checked.json()["entries"]);
    for _ in 0..entries.len().min(10) {
        let entry = &entries[dice.below(entries.len())];
        let name = entry["name"].as_str().unwrap();
        // a path cannot say the empty name in the root, nor end with a NUL on a command line
        if name.is_empty() || name.contains('\0') {
            continue;
        }
        let path = format!("/{name}");
        let found = survives(&["find", "--json", "--rule", rule, "--", image, &path], why);
        assert_eq!((found.status, &found.json()["entry"]), (0, entry), "{name:?} on {}", why());
    }
}

fn bases() -> Vec<Vec<u8>> {
    let many = (0..100).map(|i| file(&format!("file{i:02}"), i)).collect::<Vec<_>>();
    let dated = |members: &[Member]| stamped_image_of(members, NOON);
    vec![dated(&sample()), dated(&many), dated(&[directory("maps", many)]), image_of(&[])]
}

/// Where tables and descriptor stand: damage elsewhere says nothing.
fn damaged(base: &[u8], dice: &mut Dice) -> Vec<u8> {
    let mut bytes = base.to_vec();
    let from = 32 * SECTOR as usize;
    for _ in 0..=dice.below(6) {
        let (place, value) = match dice.below(10) {
            0 => (from + 20 + dice.below(16), dice.next() as u8), // root and stamp
            1 => (from + dice.below(2048), dice.next() as u8),
            2..=5 => (from + 2048 + dice.below(64), [0, 1, 4, 8, 16, 255, dice.next() as u8][dice.below(7)]),
            _ => (from + dice.below(bytes.len() - from), [0, 4, 16, 255, dice.next() as u8][dice.below(5)]),
        };
        bytes[place] = value;
    }
    if dice.below(8) == 0 {
        bytes.truncate(dice.below(base.len() + 1));
    }
    bytes
}

#[test]
fn damaged_images() {
    let folder = Folder::new();
    let (bases, mut dice, mut runs, mut round) = (bases(), Dice::new(1), 0, 0);
    while runs < RUNS {
        let bytes = damaged(&bases[dice.below(bases.len())], &mut dice);
        let image = folder.file("image", &bytes);
        runs += every_command(&image, &mut dice, &|| format!("round {round}"));
        round += 1;
    }
}

#[test]
fn random_tables_below_a_good_descriptor() {
    let folder = Folder::new();
    let mut dice = Dice::new(2);
    for round in 0..1000 {
        let mut bytes = stamped(image_by_hand(&[(33, vec![vec![0; 4096]])]), NOON);
        for b in &mut bytes[33 * SECTOR as usize..] {
            // small links and lengths, so that something is linked to something
            *b = match dice.below(4) {
                0 => 0,
                1 => dice.below(32) as u8,
                2 => b"ab/Z\x10\x1b"[dice.below(6)],
                _ => dice.next() as u8,
            };
        }
        let image = folder.file("image", &bytes);
        every_command(&image, &mut dice, &|| format!("round {round}"));
    }
}

#[test]
fn random_files() {
    let folder = Folder::new();
    let mut dice = Dice::new(3);
    for round in 0..200 {
        let bytes: Vec<u8> = (0..dice.below(80_000)).map(|_| dice.next() as u8).collect();
        let image = folder.file("image", &bytes);
        every_command(&image, &mut dice, &|| format!("round {round}"));
        let offset = dice.next().to_string();
        for offset in [offset.as_str(), "18446744073709551615", "0xffffffffffffffff", "1"] {
            assert_eq!(xdvdfs(&["info", "--offset", offset, &image]).status, 1);
        }
    }
}

#[test]
fn manifests_of_random_bytes() {
    let folder = Folder::new();
    let mut dice = Dice::new(4);
    let words: [&[u8]; 12] =
        [b"f ", b"d ", b"7 ", b"a", b"/", b"\n", b"99999999999 ", b"A", b"\xe9", b"\x1b", b"[", b"{\"file\":\"a\",\"size\":1}"];
    for round in 0..2000 {
        let text: Vec<u8> = (0..dice.below(40)).flat_map(|_| words[dice.below(words.len())].to_vec()).collect();
        let manifest = folder.file("manifest", &text);
        let output = folder.path().join("table").to_str().unwrap().to_owned();
        survives(&["plan", &manifest], &|| format!("round {round}: {text:?}"));
        survives(&["plan", "--json", &manifest], &|| format!("round {round}: {text:?}"));
        survives(&["table", "--json", &manifest, "-o", &output, "--path", "a"], &|| format!("round {round}: {text:?}"));
    }
}

/// Rings, and tables that list an entry so often that no list would do.
#[test]
fn rings_and_doubling() {
    let folder = Folder::new();
    let ring = image_by_hand(&[(33, vec![entry(4, 0, 1, 1, 0, b"m"), entry(0, 0, 1, 1, 0, b"c")])]);
    let mut around = ring.clone();
    around[33 * 2048 + 16..][..2].copy_from_slice(&4u16.to_le_bytes()); // c is its own left child
    let image = folder.file("ring", &around);
    assert_eq!(xdvdfs(&["ls", &image]).status, 1);
    assert!(xdvdfs(&["ls", &image]).err.contains("(refusal 26)"));
    assert!(xdvdfs(&["find", &image, "a"]).err.contains("(refusal 25)"));
    assert_eq!(xdvdfs(&["check", &image]).status, 1);
    // each entry has the next as both of its children: two to the thirtieth would be listed
    let doubling = (1..=30).map(|i| entry(4 * i, 4 * i, 1, 1, 0, &[64 - i as u8])).chain([entry(0, 0, 1, 1, 0, b" ")]).collect();
    let image = folder.file("doubling", &image_by_hand(&[(33, doubling)]));
    assert!(xdvdfs(&["ls", &image]).err.contains("(refusal 26)"));
    assert!(xdvdfs(&["check", "--all", &image]).out.contains("(refusal 30)"));
    // a chain of as many entries as links can name, overlapping one another: listed, and checked to the end or to the bound
    let mut bytes = image_by_hand(&[(33, vec![vec![0; 262_144]])]);
    bytes.extend_from_slice(&[0; 2048]);
    for unit in 0..65_534u16 {
        bytes[33 * 2048 + 4 * usize::from(unit) + 2..][..2].copy_from_slice(&(unit + 1).to_le_bytes());
    }
    let image = folder.file("chain", &bytes);
    assert_eq!(xdvdfs(&["ls", &image]).done().lines().count(), 65_534);
    assert_eq!(xdvdfs(&["check", &image]).status, 1);
}

/// Directories in circles, shared, and deeper than any path: each table is checked once, and it ends.
#[test]
fn directories_in_circles() {
    let folder = Folder::new();
    let d = |sector, name: &[u8]| entry(0, 0, sector, 20, 0x10, name);
    // /a has /a/b, which has the root's table under another size and so once more, and then itself
    let around = image_by_hand(&[(33, vec![d(34, b"aaaa")]), (34, vec![d(35, b"bbbb")]), (35, vec![d(34, b"cccc")])]);
    let image = folder.file("around", &around);
    let ran = xdvdfs(&["check", "--all", &image]);
    assert_eq!(ran.status, 1);
    assert_eq!(
        ran.out,
        "cycle: /aaaa/bbbb/cccc: the directory has the table of /aaaa, which it is inside of: a listing of the image would never end\n\
         3 tables, 3 entries: 1 fault, 0 hidden names under rule one\n"
    );
    let own = folder.file("own", &image_by_hand(&[(33, vec![d(33, b"self")])]));
    assert_eq!(kinds(&xdvdfs(&["check", "--all", &own])), ["cycle"]);
    // two names for one table is no fault
    let twice = vec![entry(0, 5, 34, 20, 0x10, b"left"), entry(0, 0, 34, 20, 0x10, b"right")];
    let twice = folder.file("twice", &image_by_hand(&[(33, twice), (34, vec![entry(0, 0, 40, 1, 0x20, b"x")])]));
    let ran = xdvdfs(&["check", "--all", &twice]);
    assert_eq!(
        ran.done(),
        "shared: /right: the directory has the table of /left, which is checked there\n\
         2 tables, 3 entries: good, and a lookup under rule one finds every name\n"
    );
    // a chain of 200 directories
    let deep = (0..200).fold(vec![file("end", 1)], |below, _| vec![directory("d", below)]);
    let deep = folder.file("deep", &image_of(&deep));
    let ran = xdvdfs(&["check", "--all", "--json", &deep]);
    assert_eq!((ran.status, &ran.json()["tables"], &ran.json()["faults"][0]["kind"]), (1, &129.into(), &"stopped".into()));
}

/// The words in front of the lines of `check`.
fn kinds(ran: &Ran) -> Vec<&str> {
    ran.out.lines().filter(|l| l.contains(": /")).filter_map(|l| l.split(':').next()).collect()
}

#[test]
fn what_is_no_image() {
    let folder = Folder::new();
    let empty = folder.file("empty", b"");
    let short = folder.file("short", &[0; 65_536]);
    let place = folder.path().to_str().unwrap().to_owned();
    let pipe = folder.path().join("pipe").to_str().unwrap().to_owned();
    assert!(std::process::Command::new("mkfifo").arg(&pipe).status().unwrap().success());
    let missing = folder.path().join("missing").to_str().unwrap().to_owned();
    let closed = folder.file("closed", &stamped_image_of(&sample(), NOON));
    let mut rights = std::fs::metadata(&closed).unwrap().permissions();
    std::os::unix::fs::PermissionsExt::set_mode(&mut rights, 0o000);
    std::fs::set_permissions(&closed, rights).unwrap();
    let readable = std::fs::File::open(&closed).is_ok(); // as root, who may read everything
    for (image, words) in [
        (&empty, "(refusal 20)"),
        (&short, "(refusal 20)"),
        (&place, "is a directory, no image"),
        (&pipe, "is neither a file nor a block device, and cannot be mapped"),
        (&missing, "No such file or directory"),
        (&closed, if readable { "" } else { "Permission denied" }),
    ] {
        for args in [
            &["ls", image][..],
            &["ls", "-l", image, "maps"],
            &["find", image, "save"],
            &["check", "--all", image],
            &["info", image],
            &["limits", image, "save", "--max-age", "0s", "--now", "2026-11-16T12:00:00Z"],
        ] {
            let ran = survives(args, &|| image.clone());
            assert_eq!(ran.status, u8::from(image != &closed || !readable), "{args:?}: {ran:?}");
            assert!(ran.err.contains(words), "{args:?}: {ran:?}");
        }
    }
}
