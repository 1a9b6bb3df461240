//! README's section on the tool, run as printed: each line that starts with `$ ` in a folder that has the repository's crates/, and the lines after it compared.
mod common;
use common::*;
use std::io::Write;
use std::path::Path;
use std::process::Command;

#[test]
fn the_section_runs_as_printed() {
    let top = Path::new(env!("CARGO_MANIFEST_DIR")).join("..").canonicalize().unwrap();
    let readme = std::fs::read_to_string(top.join("README.md")).unwrap();
    let section = readme.split("\n## ").find(|s| s.starts_with("Use from the shell: images by name")).expect("the section");
    let folder = Folder::new();
    std::os::unix::fs::symlink(top.join("crates"), folder.path().join("crates")).unwrap();
    std::fs::create_dir(folder.path().join("bin")).unwrap();
    std::os::unix::fs::symlink(env!("CARGO_BIN_EXE_xdvdfs"), folder.path().join("bin/xdvdfs")).unwrap();
    let mut printed: Vec<(String, String)> = Vec::new();
    for block in section.split("\n\n").filter(|b| b.trim_start_matches('\n').starts_with("    $ ")) {
        for line in block.trim_matches('\n').lines() {
            let line = line.strip_prefix("    ").expect("a block of code");
            match line.strip_prefix("$ ") {
                Some(command) => printed.push((command.to_owned(), String::new())),
                None => printed.last_mut().unwrap().1 += &format!("{line}\n"),
            }
        }
    }
    assert!(printed.len() >= 10, "only {} commands in the section", printed.len());
    let has_jq = Command::new("jq").arg("--version").output().is_ok();
    for (command, wanted) in printed {
        if command.contains("| jq") && !has_jq {
            let _ = writeln!(std::io::stderr(), "skipped: {command}: no program 'jq'");
            continue;
        }
        let ran = Command::new("bash").args(["-c", &format!("{{ {command}; }} 2>&1")]).current_dir(folder.path()).output().unwrap();
        assert_eq!(String::from_utf8(ran.stdout).unwrap(), wanted, "$ {command}");
    }
}
