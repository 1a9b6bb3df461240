//! The help of each command is the stored one (tests/help/), and the examples in it run.
mod common;
use common::*;
use std::path::Path;
use std::process::Command;
use std::time::{Duration, SystemTime};
use xdvdfs_tables::Stamp;

const COMMANDS: [&str; 8] = ["", "ls", "find", "check", "info", "limits", "plan", "table"];

fn help(command: &str) -> String {
    let args: Vec<&str> = [command, "--help"].into_iter().filter(|a| !a.is_empty()).collect();
    xdvdfs(&args).done().to_owned()
}

#[test]
fn help_is_as_stored() {
    for command in COMMANDS {
        let name = if command.is_empty() { "xdvdfs" } else { command };
        let path = Path::new(env!("CARGO_MANIFEST_DIR")).join(format!("tests/help/{name}.txt"));
        let told = help(command);
        if std::env::var_os("STORE_HELP").is_some() {
            std::fs::write(&path, &told).unwrap();
        }
        assert_eq!(told, std::fs::read_to_string(&path).unwrap(), "{name}: STORE_HELP=1 stores it anew");
        assert!(told.contains("Examples:\n"), "{name} has no example");
        assert!(told.lines().all(|l| l.chars().count() <= 80 && !l.ends_with(' ')), "{name}: a line is too long, or ends with a space");
    }
}

/// Each example, as printed, on images, a manifest and a folder of the names that the examples use. The first image is an hour old by the clock.
#[test]
fn examples_work() {
    let folder = Folder::new();
    let at = |name: &str| folder.path().join(name);
    let day = directory("day", vec![file("sun", 1)]);
    let members = vec![file("default.xbe", 7), directory("maps", vec![file("one", 1), file("one.bin", 100), day])];
    let an_hour_ago = Stamp::from_system_time(SystemTime::now() - Duration::from_secs(3600)).unwrap();
    folder.file("game.iso", &stamped_image_of(&members, an_hour_ago.0));
    folder.file("old.iso", &stamped_image_of(&[file("limits", 7)], NOON));
    folder.file("game.txt", b"d maps\nf 5000 maps/two.bin\nf 7 limits\n");
    std::fs::create_dir_all(at("folder/maps")).unwrap();
    std::fs::write(at("folder/maps/one"), b"one").unwrap();
    let has_jq = Command::new("jq").arg("--version").output().is_ok();
    let has_xxd = Command::new("xxd").arg("--version").output().is_ok();
    let path = format!("{}:{}", Path::new(env!("CARGO_BIN_EXE_xdvdfs")).parent().unwrap().display(), std::env::var("PATH").unwrap());
    let mut ran = 0;
    for command in COMMANDS {
        let text = help(command);
        let examples = text.split("Examples:\n").nth(1).unwrap().lines().take_while(|l| l.starts_with("  "));
        for line in examples {
            let example = line.trim().split("   ").next().unwrap();
            if (example.contains("| jq") && !has_jq) || (example.contains("| xxd") && !has_xxd) {
                eprintln!("skipped: {example}: a program of it is not here");
                continue;
            }
            let ended = Command::new("bash")
                .args(["-o", "pipefail", "-c", example])
                .current_dir(folder.path())
                .env("PATH", &path)
                .output()
                .unwrap();
            assert!(ended.status.success(), "{example}: {}", String::from_utf8_lossy(&ended.stderr));
            ran += 1;
        }
    }
    assert!(ran >= 16, "only {ran} examples ran");
}
