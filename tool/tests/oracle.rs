//! `ls`, and `find` under rule one, which is the Rust's, held against the Rust original, where oracle/build has built it with the harness (XDVDFS_LIB set).
mod common;
use common::*;
use std::io::Write;
use std::path::{Path, PathBuf};
use std::process::{Command, Stdio};

/// The program that asks the Rust, or why there is none.
fn oracle() -> Result<PathBuf, String> {
    let own = Path::new(env!("CARGO_MANIFEST_DIR")).join("../oracle/target/out/judge/ask");
    let program = std::env::var_os("XDVDFS_ORACLE").map_or(own, PathBuf::from);
    program.exists().then(|| program.clone()).ok_or(format!("no {}: XDVDFS_LIB=… oracle/build makes it", program.display()))
}

/// The Rust's answers to questions about an image.
fn ask(program: &Path, image: &str, questions: &[String]) -> Vec<String> {
    let mut child =
        Command::new("timeout").arg("60").arg(program).args([image, "0"]).stdin(Stdio::piped()).stdout(Stdio::piped()).spawn().unwrap();
    let mut stdin = child.stdin.take().unwrap();
    let text = questions.join("\n") + "\n";
    let writer = std::thread::spawn(move || stdin.write_all(text.as_bytes()));
    let output = child.wait_with_output().unwrap();
    writer.join().unwrap().unwrap();
    assert!(output.status.success(), "the oracle ended with {}", output.status);
    String::from_utf8(output.stdout).unwrap().lines().map(str::to_owned).collect()
}

fn number_of(ran: &Ran) -> u64 {
    ran.json()["refused"]["number"].as_u64().unwrap()
}

/// What the tool says of a directory, and the question to the Rust. Of a table that cannot be listed it does not say where it is: that of the root is asked for by itself.
fn listed(image: &str, path: &str) -> Option<(Vec<String>, String)> {
    let ran = xdvdfs(&["ls", "--json", "--", image, path]);
    if ran.status != 0 {
        // where the list is full the Rust may never return
        if path != "/" || number_of(&ran) == 26 {
            return None;
        }
        let root = &xdvdfs(&["info", "--json", image]).json()["root"];
        return Some((vec![format!("refused {}", number_of(&ran))], format!("walk {} {}", root["sector"], root["size"])));
    }
    let answer = ran.json();
    let text = |v: &serde_json::Value| v.as_str().map_or(v.to_string(), str::to_owned);
    let line = |e: &serde_json::Value| ["offset", "sector", "size", "attributes", "name_hex"].map(|k| text(&e[k])).join(" ");
    let entries = answer["entries"].as_array().unwrap();
    let lines = std::iter::once(format!("listed {}", entries.len())).chain(entries.iter().map(line)).collect();
    Some((lines, format!("walk {} {}", answer["table"]["sector"], answer["table"]["size"])))
}

/// What the tool says of a path, as the oracle writes it; nothing where the Rust never returns.
fn found(image: &str, path: &str) -> Option<String> {
    let ran = xdvdfs(&["find", "--json", "--rule", "1", "--", image, path]);
    if ran.status != 0 {
        let number = number_of(&ran);
        return (number != 25).then(|| if number == 28 && path.len() > 1 { "panicked".to_owned() } else { format!("refused {number}") });
    }
    let answer = ran.json();
    let steps = answer["steps"].as_array().unwrap();
    let last = steps.last().unwrap();
    let byte = last["table"]["sector"].as_u64().unwrap() * SECTOR + last["offset"].as_u64().unwrap();
    let headers: u64 = steps.iter().map(|s| s["headers"].as_u64().unwrap()).sum();
    let e = &answer["entry"];
    Some(format!("found {byte} {} {} {} {headers}", e["sector"], e["size"], e["attributes"]))
}

#[test]
fn as_the_rust_answers() {
    let program = match oracle() {
        Ok(program) => program,
        Err(why) => {
            // not through println!, which cargo test keeps back where a test passes
            let _ = writeln!(std::io::stderr(), "skipped: comparison with the Rust: {why}");
            return;
        }
    };
    let folder = Folder::new();
    let many = (0..100).map(|i| file(&format!("file{i:02}"), i)).collect::<Vec<_>>();
    let bases = [image_of(&sample()), image_of(&many), image_of(&[directory("maps", many)]), image_of(&[])];
    let mut dice = Dice::new(7);
    let (mut lists, mut faults, mut paths) = (0, 0, 0);
    for round in 0..400 {
        let mut bytes = bases[round % bases.len()].clone();
        if round >= bases.len() {
            for _ in 0..=dice.below(5) {
                let most = [64, 3 * 2048][dice.below(2)].min(bytes.len() - 33 * 2048);
                let place = 33 * 2048 + dice.below(most);
                bytes[place] = [0, 4, 8, 16, 255, dice.next() as u8][dice.below(6)];
            }
        }
        let image = folder.file("image", &bytes);
        let (mut questions, mut own) = (Vec::new(), Vec::new());
        for path in ["/", "maps", "maps/night", "empty"] {
            if let Some((lines, question)) = listed(&image, path) {
                questions.push(question);
                faults += usize::from(lines[0].starts_with("refused"));
                own.extend(lines);
                lists += 1;
            }
        }
        let fixed =
            ["/", "//", "maps/", "/maps/one.bin", "MAPS/night/MOON", "save", "save/x", "maps//", "none", "a b", "empty/x", "default.xbe"];
        let many = (0..100).map(|i| format!("{}File{i:02}", if i % 2 == 0 { "" } else { "maps/" }));
        for path in fixed.iter().map(|p| p.to_string()).chain(many) {
            if let Some(answer) = found(&image, &path) {
                questions.push(format!("path {path}"));
                own.push(answer);
                paths += 1;
            }
        }
        let theirs = ask(&program, &image, &questions);
        let differs = own.iter().zip(&theirs).position(|(a, b)| a != b);
        let at = |i: usize| (own.get(i), theirs.get(i));
        assert_eq!((own.len(), differs), (theirs.len(), None), "round {round}: {:?}", differs.map(at));
    }
    let _ = writeln!(std::io::stderr(), "compared with the Rust: {lists} directories, {faults} of them refused, and {paths} paths");
    assert!(lists > 400 && faults > 20 && paths > 20_000);
}
