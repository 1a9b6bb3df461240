//! The program itself: its streams, its statuses, and large images.
mod common;
use common::*;
use std::io::{Read, Write};
use std::os::unix::ffi::OsStrExt;
use std::os::unix::fs::FileExt;
use std::process::{Command, Output, Stdio};
use std::time::{Duration, Instant};

const PROGRAM: &str = env!("CARGO_BIN_EXE_xdvdfs");
const GIB: u64 = 1 << 30;

fn start(args: &[&str]) -> Output {
    Command::new(PROGRAM).args(args).output().unwrap()
}

/// What the program does within a process of this test it does by itself too.
#[test]
fn statuses_and_streams() {
    let folder = Folder::new();
    let image = folder.file("game.iso", &stamped_image_of(&sample(), NOON));
    for (args, status) in [
        (&["ls", &image][..], 0),
        (&["ls", &image, "none"], 1),
        (&["check", &image], 0),
        (&["frobnicate"], 2),
        (&[], 2),
        (&["ls"], 2),
        (&["ls", "--offset", "x", &image], 2),
        (&["find", "--rule", "2", &image, "save"], 0),
        (&["find", "--rule", "3", &image, "save"], 2),
        (&["limits", &image, "save", "--max-age", "1d", "--now", "2026-11-17T12:00:00Z"], 0),
        (&["limits", &image, "save", "--max-age", "1d", "--now", "2026-11-17T12:00:00.0000001Z"], 1),
        (&["limits", &image, "save", "--now", "2026-11-17T12:00:00Z"], 2),
        (&["limits", &image, "save", "--max-age", "1", "--now", "2026-11-17T12:00:00Z"], 2),
        (&["limits", &image, "--max-age", "1d"], 2),
        (&["plan"], 2),
        (&["plan", "m", "--dir", "d"], 2),
        (&["table", "--json", &image], 2),
        (&["--help"], 0),
        (&["ls", "--help"], 0),
        (&["--version"], 0),
    ] {
        let (own, here) = (start(args), xdvdfs(args));
        assert_eq!(own.status.code(), Some(status), "{args:?}");
        assert_eq!(
            (own.status.code(), &own.stdout[..], &own.stderr[..]),
            (Some(here.status.into()), here.out.as_bytes(), here.err.as_bytes())
        );
        assert_eq!(own.stdout.is_empty(), status != 0, "{args:?}");
    }
}

/// A reader that goes away early is no fault, and nothing is said of it.
#[test]
fn a_closed_pipe() {
    let folder = Folder::new();
    let path = folder.path().join("game.iso");
    sparse_image(&path, &fifteen_thousand(), 0, 4 * GIB);
    let image = path.to_str().unwrap();
    for args in [&["ls", image][..], &["ls", "-l", image], &["ls", "--json", image], &["--help"], &["check", "--json", image]] {
        let mut child = Command::new(PROGRAM).args(args).stdout(Stdio::piped()).stderr(Stdio::piped()).spawn().unwrap();
        let mut stdout = child.stdout.take().unwrap();
        stdout.read_exact(&mut [0; 4]).unwrap();
        drop(stdout);
        let ended = child.wait_with_output().unwrap();
        assert!(ended.stderr.is_empty(), "{args:?}: {}", String::from_utf8_lossy(&ended.stderr));
        assert!(matches!(ended.status.code(), Some(0 | 1)), "{args:?}: {}", ended.status);
    }
    let full = std::fs::OpenOptions::new().write(true).open("/dev/full").unwrap();
    let ended = Command::new(PROGRAM).args(["ls", image]).stdout(full).output().unwrap();
    assert_eq!(ended.status.code(), Some(1));
    assert!(String::from_utf8_lossy(&ended.stderr).contains("cannot write the output"));
    let full = std::fs::OpenOptions::new().write(true).open("/dev/full").unwrap();
    assert_eq!(Command::new(PROGRAM).args(["ls", "missing"]).stderr(full).status().unwrap().code(), Some(1));
}

#[test]
fn a_manifest_on_standard_input() {
    let mut child = Command::new(PROGRAM).args(["plan", "-"]).stdin(Stdio::piped()).stdout(Stdio::piped()).spawn().unwrap();
    child.stdin.take().unwrap().write_all(b"f 7 limits\nf 5000 maps/two.bin\n").unwrap();
    let ended = child.wait_with_output().unwrap();
    assert_eq!((ended.status.code(), String::from_utf8(ended.stdout).unwrap().lines().count()), (Some(0), 6));
}

/// A name of the image file that is no UTF-8, as it is on the command line.
#[test]
fn an_image_of_any_name() {
    let folder = Folder::new();
    let path = folder.path().join(std::ffi::OsStr::from_bytes(b"caf\xe9.iso"));
    std::fs::write(&path, image_of(&sample())).unwrap();
    let told = Command::new(PROGRAM).arg("info").arg(&path).output().unwrap();
    assert_eq!(told.status.code(), Some(0));
    assert!(String::from_utf8(told.stdout).unwrap().contains("caf\\xe9.iso"));
}

/// The least time of three runs.
fn least_time(args: &[&str], status: i32) -> Duration {
    let run = |_| {
        let started = Instant::now();
        let ended = start(args);
        assert_eq!(ended.status.code(), Some(status), "{args:?}: {}", String::from_utf8_lossy(&ended.stderr));
        started.elapsed()
    };
    (0..3).map(run).min().unwrap()
}

/// Each command on a sparse image of 4 GiB takes less than a second, wherever the partition is, with 15,000 files in one directory and 1,000 directories.
#[test]
fn large_images_at_once() {
    let folder = Folder::new();
    let mut members = vec![directory("many", fifteen_thousand())];
    let small = |i: u32| directory(&format!("d{i:03}"), (0..9).map(|k| file(&format!("f{k}"), 1000)).collect());
    members.extend((0..1000).map(small));
    let mut slowest = Duration::ZERO;
    for partition in [0, 0x1830_0000, 0x0fd9_0000, 0x0208_0000] {
        let path = folder.path().join("game.iso");
        sparse_image(&path, &members, partition, 4 * GIB);
        let written = std::fs::OpenOptions::new().write(true).open(&path).unwrap();
        written.write_all_at(&NOON.to_le_bytes(), partition + 32 * SECTOR + 28).unwrap();
        let image = path.to_str().unwrap();
        for (args, status) in [
            (&["info", image][..], 0),
            (&["ls", image], 0),
            (&["ls", "-l", image, "many"], 0),
            (&["find", image, "MANY/AZ"], 0),
            (&["limits", image, "MANY/AZ", "--max-age", "0s", "--now", "2026-11-16T12:00:00Z"], 0),
            (&["check", image], 1), // under rule one a link of 255 hides names of the root
            (&["check", image, "many"], 1),
            (&["check", "--all", image], 1),
            (&["check", "--all", "--rule", "2", image], 0),
        ] {
            let time = least_time(args, status);
            slowest = slowest.max(time);
            assert!(time < Duration::from_secs(1), "{args:?} took {time:?}");
        }
        let info: serde_json::Value = serde_json::from_slice(&start(&["info", "--json", image]).stdout).unwrap();
        assert_eq!((&info["length"], &info["partition"]["offset"]), (&(4 * GIB).into(), &partition.into()));
        assert_eq!(start(&["ls", image, "many"]).stdout.iter().filter(|&&b| b == b'\n').count(), 15_000);
        std::fs::remove_file(path).unwrap();
    }
    let _ = writeln!(std::io::stderr(), "sparse images of 4 GiB: the slowest command took {:.3} s", slowest.as_secs_f64());
}

/// Tables whose entries hang on one another in a row, so that lookups take long: `check --all` tells on a terminal how far it is, and elsewhere nothing.
#[test]
fn progress() {
    let folder = Folder::new();
    let after = |i: u16, last: u16, units: u16| if i == last { 0 } else { units * (i + 1) };
    let row: Vec<Vec<u8>> = (0..8000).map(|i| entry(0, after(i, 7999, 8), 1, 1, 0x20, format!("{i:018}").as_bytes())).collect();
    let places = |d: u16| 34 + 125 * u32::from(d);
    let root = (0..5).map(|d| entry(0, after(d, 4, 4), places(d), 256_000, 0x10, &[b'0' + d as u8])).collect();
    let mut tables = vec![(33, root)];
    tables.extend((0..5).map(|d| (places(d), row.clone())));
    let image = folder.file("slow.iso", &image_by_hand(&tables));
    let started = Instant::now();
    let quiet = start(&["check", "--all", &image]);
    let took = started.elapsed();
    assert_eq!((quiet.status.code(), quiet.stderr.is_empty()), (Some(0), true));
    assert_eq!(String::from_utf8(quiet.stdout).unwrap(), "6 tables, 40005 entries: good, and a lookup under rule one finds every name\n");
    if took < Duration::from_secs(2) || Command::new("script").arg("--version").output().is_err() {
        let _ = writeln!(
            std::io::stderr(),
            "skipped: progress on a terminal: no program 'script', or the check takes {took:?}, too short to be told of"
        );
        return;
    }
    let told = Command::new("script")
        .args(["-qec", &format!("{PROGRAM} check --all {image}"), "/dev/null"])
        .stdin(Stdio::null())
        .output()
        .unwrap();
    let told = String::from_utf8(told.stdout).unwrap();
    // lines of progress, the last of which is gone before the answer comes
    let (progress, answer) = told.split_at(told.rfind("\u{1b}[2K").expect("a line that is cleared"));
    assert!(progress.contains(" tables, ") && progress.contains(" entries"), "{progress:?}");
    let verdict = "good, and a lookup under rule one finds every name";
    assert!(answer.contains("6 tables, 40005 entries: ") && answer.contains(verdict), "{answer:?}");
}

/// On a terminal there are colours, unless NO_COLOR says otherwise; a table's bytes are refused there.
#[test]
fn on_a_terminal() {
    if Command::new("script").arg("--version").output().is_err() {
        let _ = writeln!(std::io::stderr(), "skipped: the test on a terminal: no program 'script'");
        return;
    }
    let folder = Folder::new();
    let image = folder.file("game.iso", &image_of(&sample()));
    let manifest = folder.file("manifest", b"f 1 a\n");
    let on_terminal = |command: &str| {
        let ended = Command::new("script").args(["-qec", command, "/dev/null"]).stdin(Stdio::null()).output().unwrap();
        (ended.status.code(), String::from_utf8(ended.stdout).unwrap().replace("\r\n", "\n"))
    };
    let (status, text) = on_terminal(&format!("{PROGRAM} ls {image}"));
    assert_eq!((status, text.contains("\x1b[1;34mmaps/\x1b[0m")), (Some(0), true), "{text:?}");
    let (status, text) = on_terminal(&format!("NO_COLOR=1 {PROGRAM} ls {image}"));
    assert_eq!((status, text), (Some(0), xdvdfs(&["ls", &image]).out));
    let (status, text) = on_terminal(&format!("{PROGRAM} ls --json {image}"));
    assert_eq!((status, text), (Some(0), xdvdfs(&["ls", "--json", &image]).out));
    let (status, text) = on_terminal(&format!("{PROGRAM} table {manifest}"));
    assert_eq!((status, text.contains("not for a terminal")), (Some(2), true), "{text:?}");
    let (status, text) = on_terminal(&format!("{PROGRAM} ls {image} none"));
    assert_eq!((status, text.starts_with("\x1b[1;31mxdvdfs:\x1b[0m none in /: ")), (Some(1), true), "{text:?}");
}
