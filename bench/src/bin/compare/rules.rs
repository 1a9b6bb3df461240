//! Rule two, and numbers that are no rule. The Rust has rule one alone: it is asked for its walk of the tables that it wrote, and all else is held against the plain reader.
use crate::tally::Tally;
use bench::inputs::{image, names, written, Dice, Folder};
use bench::{ours, plain, theirs, Entry, Said, Table, View};

pub const ONE: u32 = 1;
pub const TWO: u32 = 2;
/// Numbers that are no rule; in some of them a byte or a half is one.
pub const NO_RULES: [u32; 6] = [0, 3, 4, 0x101, 65_536 + 1, u32::MAX];

/// What became of the entries that the Rust's walk lists.
#[derive(Default)]
pub struct Found {
    /// Under rule one as under rule two.
    pub both: u64,
    /// Under rule two alone: 22 under rule one.
    pub two_alone: u64,
}

impl Found {
    /// Of an entry that the Rust lists: ours under each rule.
    fn take(&mut self, asked: &[u8], entry: Entry, one: Said, two: Said) -> Result<(), String> {
        let found = matches!(&two, Said::Found { entry: e, .. } if *e == entry);
        let fair = match &one {
            Said::Found { .. } => one == two,
            Said::Refused { number, .. } => *number == 22,
            _ => false,
        };
        if !found || !fair {
            return Err(format!("{asked:?}: the Rust lists {entry:?}, ours under rule two {two:?}, under rule one {one:?}"));
        }
        *if one == two { &mut self.both } else { &mut self.two_alone } += 1;
        Ok(())
    }
}

/// Each name that the Rust's walk lists in a table that the Rust wrote, looked up under both rules.
pub fn each_listed(v: View, t: Table) -> Result<Found, String> {
    let mut found = Found::default();
    for (entry, name) in theirs::walked(v, t).map_err(|said| format!("the Rust's walk of its own table: {said:?}"))? {
        found.take(&name, entry, ours::look_up(v, t, &name, ONE), ours::look_up(v, t, &name, TWO))?;
    }
    Ok(found)
}

/// Each entry that the Rust's walks list in an image that the Rust wrote, with its path.
pub fn entries_of(v: View, root: Table) -> Result<Vec<(Vec<u8>, Entry)>, String> {
    let mut list = Vec::new();
    let mut tables = vec![(root, Vec::new())];
    while let Some((t, front)) = tables.pop() {
        for (entry, name) in theirs::walked(v, t).map_err(|said| format!("the Rust's walk of its own table: {said:?}"))? {
            let path = [&front[..], &name[..]].concat();
            if entry.attributes & 16 != 0 {
                tables.push((Table { sector: entry.sector, size: entry.size }, [&path[..], b"/"].concat()));
            }
            list.push((path, entry));
        }
    }
    Ok(list)
}

/// Each of their paths followed under both rules.
fn each_path(v: View, root: Table) -> Result<Found, String> {
    let mut found = Found::default();
    for (path, entry) in entries_of(v, root)? {
        found.take(&path, entry, ours::path(v, root, &path, ONE).0, ours::path(v, root, &path, TWO).0)?;
    }
    Ok(found)
}

impl Tally {
    pub fn listed(&mut self, what: &str, found: Result<Found, String>) {
        match found {
            Err(text) => self.wrong(what, text),
            Ok(found) => {
                let what = format!("{what}, as the Rust lists it, rule two");
                self.add(&what, "found, as under rule one", found.both);
                self.add(&what, "found, 22 under rule one", found.two_alone);
                self.listed += found.both + found.two_alone;
                self.two_alone += found.two_alone;
            }
        }
    }

    pub fn listed_names(&mut self, what: &str, v: View, t: Table) {
        self.listed(what, each_listed(v, t));
    }

    pub fn listed_paths(&mut self, what: &str, v: View, root: Table) {
        self.listed(what, each_path(v, root));
    }

    /// Ours and the plain answer, under a rule that the Rust does not have or under no rule.
    fn judge_rule(&mut self, what: &str, v: View, t: Table, asked: &[u8], rule: u32, a: Said, c: Said) {
        if !a.agrees(&c) {
            return self.wrong(what, self.text(v, t, asked, &format!("rule {rule}: ours {a:?}, plain {c:?}")));
        }
        let (what, count) = match rule {
            TWO => (format!("{what}, rule two"), &mut self.two),
            _ => (format!("{what}, no rule"), &mut self.no_rule),
        };
        *count += 1;
        self.count(&what, a.kind());
    }

    /// A number that is no rule, each in turn.
    fn next_no_rule(&self) -> u32 {
        NO_RULES[self.no_rule as usize % NO_RULES.len()]
    }

    pub fn look_up_by_rule(&mut self, what: &str, v: View, t: Table, sought: &[u8], rule: u32) {
        let (a, c) = (ours::look_up(v, t, sought, rule), plain::look_up(v, t, sought, rule));
        self.judge_rule(what, v, t, sought, rule, a, c);
    }

    pub fn path_by_rule(&mut self, what: &str, v: View, t: Table, sought: &[u8], rule: u32) {
        let (c, last) = plain::path(v, t, sought, rule);
        let a = crate::reads::placed(ours::path(v, t, sought, rule), last);
        self.judge_rule(what, v, t, sought, rule, a, c);
    }

    /// What was asked under rule one, under rule two and under a number that is no rule.
    pub fn look_up_by_others(&mut self, what: &str, v: View, t: Table, sought: &[u8]) {
        self.look_up_by_rule(what, v, t, sought, TWO);
        self.look_up_by_rule(what, v, t, sought, self.next_no_rule());
    }

    pub fn path_by_others(&mut self, what: &str, v: View, t: Table, sought: &[u8]) {
        self.path_by_rule(what, v, t, sought, TWO);
        self.path_by_rule(what, v, t, sought, self.next_no_rule());
    }
}

/// 29 comes first: whatever else is the matter with the name, the path, the table or the window.
fn no_rules(tally: &mut Tally) {
    let (bytes, size) = written(&["a", "b", "c"].map(String::from), false).expect("a table");
    for rule in NO_RULES {
        for len in [0, 20, bytes.len()] {
            let v = View { bytes: &bytes[..len], first: 33 };
            for t in [Table { sector: 33, size }, Table { sector: 33, size: 0 }, Table { sector: 32, size }] {
                for sought in [&b""[..], b"a", b"A", b"x", b"\x80", b"a\xff", &[255; 300], &[b'a'; 300]] {
                    tally.look_up_by_rule("29 before all else, lookup", v, t, sought, rule);
                }
                for sought in [&b""[..], b"/", b"//", b"a", b"/a/", b"a/b", b"x", b"\x80", b"a/\xff", &[b'/'; 300]] {
                    tally.path_by_rule("29 before all else, path", v, t, sought, rule);
                }
            }
        }
    }
}

/// Bytes above 127 under rule two: 2, before all but 29.
fn high_bytes(tally: &mut Tally) {
    let (bytes, size) = written(&["a", "b", "c"].map(String::from), false).expect("a table");
    let v = View { bytes: &bytes, first: 33 };
    for t in [Table { sector: 33, size }, Table { sector: 33, size: 0 }] {
        for sought in [&b"\x80"[..], b"a\xff", b"/\x80", b"a/b\x80/", &[255; 300]] {
            tally.look_up_by_rule("byte above 127, lookup", v, t, sought, TWO);
            tally.path_by_rule("byte above 127, path", v, t, sought, TWO);
        }
    }
}

/// 70 to 129 names in the root and in each directory, of which each tenth of the root is one.
pub fn large_folder(dice: &mut Dice) -> Folder {
    let large = |dice: &mut Dice| {
        let count = 70 + dice.below(60);
        names(dice, count, "", 1..=6)
    };
    let mut root = Folder { files: vec![], folders: vec![] };
    for (i, name) in large(dice).into_iter().enumerate() {
        if i % 10 == 0 {
            let files = large(dice).into_iter().map(|name| (name, dice.below(5000) as u64)).collect();
            root.folders.push((name, Folder { files, folders: vec![] }));
        } else {
            root.files.push((name, dice.below(5000) as u64));
        }
    }
    root
}

/// Tables and images of the Rust with so many names in a directory that an entry often stands at 1,020, with entries below it.
fn beyond_1020(tally: &mut Tally, dice: &mut Dice, rounds: usize) {
    for round in 0..rounds {
        let count = 60 + dice.below(400);
        let (front, lens) = [("", 1..=3), ("", 4..=8), ("", 1..=12), ("a front", 1..=9)][round % 4].clone();
        let list = names(dice, count, front, lens);
        let (bytes, size) = written(&list, true).expect("a table");
        tally.listed_names("table of 60 to 459 names", View { bytes: &bytes, first: 33 }, Table { sector: 33, size });
    }
    for _ in 0..rounds / 20 {
        let bytes = image(&mut large_folder(dice));
        let t = theirs::read_descriptor(&bytes[65_536..]).expect("a volume").root;
        tally.listed_paths("image of 70 to 129 names a directory", View { bytes: &bytes, first: 0 }, t);
    }
}

pub fn all(tally: &mut Tally, dice: &mut Dice, rounds: usize) {
    no_rules(tally);
    high_bytes(tally);
    beyond_1020(tally, dice, 1_000 * rounds);
}
