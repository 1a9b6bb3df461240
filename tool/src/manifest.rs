//! What an image is to hold: a tree of directories and files with their lengths, out of a manifest or a folder.
use crate::fault::Fault;
use crate::image::shown_path;
use crate::place::{parts, Spelled};
use crate::text::shown;
use serde::Deserialize;
use std::collections::HashMap;
use std::io::Read;
use std::os::unix::ffi::OsStrExt;
use std::path::Path;
use xdvdfs_tables::Content;

/// A file with its length, or the number of a directory.
#[derive(Clone, Copy, Debug, PartialEq, Eq)]
pub enum Held {
    File(u64),
    Directory(usize),
}

impl Held {
    /// As the planner takes it; a directory's number that is too large for it is no directory's.
    pub fn content(self) -> Content {
        match self {
            Held::File(length) => Content::File(length),
            Held::Directory(place) => Content::Directory(u32::try_from(place).unwrap_or(u32::MAX)),
        }
    }
}

#[derive(Clone, Debug)]
pub struct Member {
    pub name: Vec<u8>,
    pub held: Held,
}

#[derive(Clone, Debug, Default)]
pub struct Folder {
    pub path: Spelled,
    pub members: Vec<Member>,
}

/// Directories, the root first, each after the one that it is in.
#[derive(Clone, Debug)]
pub struct Tree {
    pub folders: Vec<Folder>,
    by_name: HashMap<(usize, Vec<u8>), usize>,
}

impl Tree {
    fn new() -> Tree {
        Tree { folders: vec![Folder::default()], by_name: HashMap::new() }
    }

    /// The directory of a name in another, which is made where it is not there yet. Names that differ in the case of letters are two, and the planner refuses them.
    fn directory(&mut self, above: usize, name: &[u8]) -> usize {
        if let Some(&place) = self.by_name.get(&(above, name.to_vec())) {
            return place;
        }
        let place = self.folders.len();
        let path = self.folders[above].path.join(name);
        self.folders[above].members.push(Member { name: name.to_vec(), held: Held::Directory(place) });
        self.folders.push(Folder { path, members: Vec::new() });
        self.by_name.insert((above, name.to_vec()), place);
        place
    }

    fn add_directory(&mut self, path: &[u8]) {
        parts(path).into_iter().fold(0, |above, name| self.directory(above, name));
    }

    fn add_file(&mut self, path: &[u8], length: u64) -> Result<(), String> {
        let parts = parts(path);
        let Some((name, above)) = parts.split_last().filter(|_| !path.ends_with(b"/")) else {
            return Err(format!("{} names no file", shown(path)));
        };
        let above = above.iter().fold(0, |above, name| self.directory(above, name));
        self.folders[above].members.push(Member { name: name.to_vec(), held: Held::File(length) });
        Ok(())
    }

    /// The directory of a path, as the tree spells it.
    pub fn find(&self, path: &[u8]) -> Option<usize> {
        parts(path).into_iter().try_fold(0, |above, name| self.by_name.get(&(above, name.to_vec())).copied())
    }
}

/// Reads a manifest, from standard input where it is named `-`.
pub fn read_manifest(path: &Path) -> Result<Tree, Fault> {
    let unfit = |words: String| Fault::Unfit(format!("{}: {words}", shown_path(path)));
    let mut text = Vec::new();
    if path == Path::new("-") {
        std::io::stdin().lock().read_to_end(&mut text).map_err(|e| unfit(e.to_string()))?;
    } else {
        text = std::fs::read(path).map_err(|e| unfit(e.to_string()))?;
    }
    parse(&text).map_err(unfit)
}

/// A manifest that begins with `[` or `{` is JSON; any other is lines of text.
pub fn parse(text: &[u8]) -> Result<Tree, String> {
    match text.iter().find(|b| !b.is_ascii_whitespace()) {
        Some(b'[' | b'{') => parse_json(text),
        _ => parse_lines(text),
    }
}

#[derive(Deserialize)]
#[serde(untagged, deny_unknown_fields)]
enum JsonMember {
    File(JsonFile),
    Directory(JsonDirectory),
}

#[derive(Deserialize)]
#[serde(deny_unknown_fields)]
struct JsonFile {
    file: String,
    size: u64,
}

#[derive(Deserialize)]
#[serde(deny_unknown_fields)]
struct JsonDirectory {
    directory: String,
}

fn parse_json(text: &[u8]) -> Result<Tree, String> {
    let values: Vec<serde_json::Value> = serde_json::from_slice(text).map_err(|e| format!("is no JSON list: {e}"))?;
    let mut tree = Tree::new();
    for (i, value) in values.into_iter().enumerate() {
        let told = value.to_string();
        match serde_json::from_value(value) {
            Ok(JsonMember::File(f)) => tree.add_file(f.file.as_bytes(), f.size).map_err(|e| format!("member {i} of the list: {e}"))?,
            Ok(JsonMember::Directory(d)) => tree.add_directory(d.directory.as_bytes()),
            Err(_) => {
                let told = shown(told.as_bytes());
                return Err(format!(
                    "member {i} of the list is neither {{\"file\": PATH, \"size\": BYTES}} nor {{\"directory\": PATH}}: {told}"
                ));
            }
        }
    }
    Ok(tree)
}

fn parse_lines(text: &[u8]) -> Result<Tree, String> {
    let mut tree = Tree::new();
    for (i, line) in text.split(|&b| b == b'\n').enumerate() {
        let line = line.strip_suffix(b"\r").unwrap_or(line);
        if line.is_empty() || line.starts_with(b"#") {
            continue;
        }
        let at = |words: String| format!("line {}: {words}", i + 1);
        if let Some(path) = line.strip_prefix(b"d ") {
            tree.add_directory(path);
        } else if let Some((size, path)) = line.strip_prefix(b"f ").and_then(split_at_space) {
            let size = length_of(size).ok_or_else(|| at(format!("{} is no size in bytes", shown(size))))?;
            tree.add_file(path, size).map_err(at)?;
        } else {
            return Err(at(format!("is neither 'f SIZE PATH' nor 'd PATH': {}", shown(line))));
        }
    }
    Ok(tree)
}

fn split_at_space(line: &[u8]) -> Option<(&[u8], &[u8])> {
    let space = line.iter().position(|&b| b == b' ')?;
    Some((line.get(..space)?, line.get(space + 1..)?))
}

fn length_of(digits: &[u8]) -> Option<u64> {
    if digits.is_empty() || !digits.iter().all(u8::is_ascii_digit) {
        return None;
    }
    std::str::from_utf8(digits).ok()?.parse().ok()
}

/// Reads a folder, level by level, its names sorted by their bytes. Of links those to files are followed.
pub fn read_folder(root: &Path) -> Result<Tree, Fault> {
    let mut tree = Tree::new();
    let mut waiting = std::collections::VecDeque::from([(0, root.to_path_buf())]);
    while let Some((place, folder)) = waiting.pop_front() {
        let unfit = |path: &Path, words: &dyn std::fmt::Display| Fault::Unfit(format!("{}: {words}", shown_path(path)));
        let mut found = Vec::new();
        for entry in std::fs::read_dir(&folder).map_err(|e| unfit(&folder, &e))? {
            found.push(entry.map_err(|e| unfit(&folder, &e))?.path());
        }
        found.sort_by(|a, b| a.as_os_str().as_bytes().cmp(b.as_os_str().as_bytes()));
        for path in found {
            let name = path.file_name().unwrap_or_default().as_bytes();
            let kind = std::fs::symlink_metadata(&path).map_err(|e| unfit(&path, &e))?;
            let behind = std::fs::metadata(&path).map_err(|e| unfit(&path, &e))?;
            if behind.is_file() {
                tree.folders[place].members.push(Member { name: name.to_vec(), held: Held::File(behind.len()) });
            } else if kind.is_dir() {
                let below = tree.directory(place, name);
                waiting.push_back((below, path));
            } else if behind.is_dir() {
                return Err(unfit(&path, &"is a link to a directory, which is not followed"));
            } else {
                return Err(unfit(&path, &"is neither a file nor a directory"));
            }
        }
    }
    Ok(tree)
}

#[cfg(test)]
mod tests {
    use super::*;

    fn told(tree: &Tree) -> Vec<String> {
        let member = |m: &Member| match m.held {
            Held::File(n) => format!("{}={n}", shown(&m.name)),
            Held::Directory(d) => format!("{}->{d}", shown(&m.name)),
        };
        tree.folders.iter().map(|f| format!("{} {}", f.path.shown(), f.members.iter().map(member).collect::<Vec<_>>().join(" "))).collect()
    }

    #[test]
    fn both_forms_are_one() {
        let text = b"# a comment\r\n\r\nd maps\nf 5000 maps/two  spaces.bin\r\nf 7 /limits\nf 0 a/b/c\nd a/b/\nd /\n";
        let json = br#" [{"directory": "maps"}, {"file": "maps/two  spaces.bin", "size": 5000}, {"size": 7, "file": "limits"},
            {"file": "a/b/c", "size": 0}, {"directory": "a/b"}, {"directory": "/"}]"#;
        let want = ["/ maps->1 limits=7 a->2", "/maps two  spaces.bin=5000", "/a b->3", "/a/b c=0"];
        assert_eq!(told(&parse(text).unwrap()), want);
        assert_eq!(told(&parse(json).unwrap()), want);
        assert_eq!(told(&parse(b"").unwrap()), ["/ "]);
        assert_eq!(told(&parse(b"[]").unwrap()), ["/ "]);
        assert_eq!(parse(text).unwrap().find(b"a/b/"), Some(3));
        assert_eq!(parse(text).unwrap().find(b"/"), Some(0));
        assert_eq!(parse(text).unwrap().find(b"limits"), None);
    }

    #[test]
    fn unfit_manifests() {
        let words = |text: &str| parse(text.as_bytes()).map(|t| told(&t)).unwrap_err();
        assert_eq!(words("f 7 a\nx 1 b"), "line 2: is neither 'f SIZE PATH' nor 'd PATH': x 1 b");
        assert_eq!(words("f 7"), "line 1: is neither 'f SIZE PATH' nor 'd PATH': f 7");
        assert_eq!(words("f +7 a"), "line 1: +7 is no size in bytes");
        assert_eq!(words("f 18446744073709551616 a"), "line 1: 18446744073709551616 is no size in bytes");
        assert_eq!(words("f 7 /"), "line 1: / names no file");
        assert_eq!(words("f 7 a/"), "line 1: a/ names no file");
        assert!(words("{\"file\": \"a\", \"size\": 1}").starts_with("is no JSON list: "));
        assert!(words("[{\"file\": \"a\"}]").starts_with("member 0 of the list is neither "));
        assert!(words("[{\"directory\": \"a\"}, {\"file\": \"a\", \"size\": -1}]").starts_with("member 1 of the list is neither "));
        assert!(words("[{\"directory\": \"a\", \"size\": 1}]").starts_with("member 0 of the list is neither "));
        assert!(words("[1,").starts_with("is no JSON list: "));
    }
}
