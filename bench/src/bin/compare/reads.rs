//! The readers on the same windows.
use crate::rules::{self, ONE};
use crate::tally::Tally;
use bench::inputs::{damage, damage_descriptor, descriptor, image, name, names, noise, shortest_names, written, Dice, Folder};
use bench::{ours, plain, theirs, Descriptor, Said, Table, View};

impl Tally {
    /// Ours, the Rust's (None where it is not asked), and the plain answer.
    fn judge(&mut self, what: &str, v: View, t: Table, asked: &[u8], a: Said, b: Option<Said>, c: Said) {
        self.asked += b.is_some() as u64;
        if a.agrees(&c) && b.as_ref().map_or(true, |b| a.agrees(b)) {
            self.count(what, a.kind() + if b.is_some() { "" } else { ", the Rust not asked" });
            return;
        }
        self.wrong(what, self.text(v, t, asked, &format!("ours {a:?}, the Rust {b:?}, plain {c:?}")));
    }

    fn look_up(&mut self, what: &str, v: View, t: Table, sought: &str) {
        self.look_up_by_others(what, v, t, sought.as_bytes());
        let a = ours::look_up(v, t, sought.as_bytes(), ONE);
        let c = plain::look_up(v, t, sought.as_bytes(), ONE);
        if c == Said::refused(25) {
            self.judge(what, v, t, sought.as_bytes(), a, None, c); // the Rust would never return
            return;
        }
        let b = theirs::look_up(v, t, sought);
        self.judge(what, v, t, sought.as_bytes(), a, Some(b), c);
    }

    fn path(&mut self, what: &str, v: View, t: Table, sought: &str) {
        self.path_by_others(what, v, t, sought.as_bytes());
        let (c, last) = plain::path(v, t, sought.as_bytes(), ONE);
        let a = placed(ours::path(v, t, sought.as_bytes(), ONE), last);
        if c == Said::refused(25) {
            self.judge(what, v, t, sought.as_bytes(), a, None, c);
            return;
        }
        match theirs::path(v, t, sought, last) {
            Said::Panicked if sought.len() > 1 && sought.bytes().all(|b| b == b'/') => {
                let what = format!("{what} of slashes alone, where the Rust panics");
                self.judge(&what, v, t, sought.as_bytes(), a, Some(Said::refused(28)), c);
            }
            b => self.judge(what, v, t, sought.as_bytes(), a, Some(without_count(b)), without_count(c)),
        }
    }

    /// The walk into lists of several lengths. One of more entries than `most` is not asked of the Rust: it may never return.
    fn walk(&mut self, what: &str, v: View, t: Table, most: usize) {
        let c = plain::walk(v, t, most);
        if c == Said::refused(26) {
            for places in [0, 1, most / 2, most] {
                self.judge(what, v, t, &[], ours::walk(v, t, places), None, c.clone());
            }
            return;
        }
        let b = theirs::walk(v, t);
        let length = if let Said::Listed(list) = &c { list.len() } else { most };
        self.judge(what, v, t, &[], ours::walk(v, t, length), Some(b), c);
        for places in [length.saturating_sub(1), 0, 2] {
            if places < length {
                let c = plain::walk(v, t, places);
                self.judge(what, v, t, &[], ours::walk(v, t, places), None, c);
            }
        }
    }

    fn entry(&mut self, what: &str, v: View, t: Table, offset: u32) {
        let of = |said: Option<Said>| said.unwrap_or(Said::refused(1000));
        let (a, b, c) = (of(ours::entry(v, t, offset)), of(theirs::entry(v, t, offset)), of(plain::entry(v, t, offset)));
        self.judge(what, v, t, &offset.to_le_bytes(), a, Some(b), c);
    }
}

fn without_count(said: Said) -> Said {
    match said {
        Said::Found { entry, .. } => Said::Found { entry, headers: None },
        Said::Refused { number, byte, .. } => Said::Refused { number, byte, headers: None },
        other => other,
    }
}

/// A path's answer; 23 and 24 with the byte of the image, which lies in the table that the path ended in.
pub fn placed((said, offset): (Said, u32), last: Table) -> Said {
    match said {
        Said::Refused { number, .. } if number == 23 || number == 24 => {
            Said::Refused { number, byte: Some(2048 * last.sector as u64 + offset as u64), headers: None }
        }
        other => other,
    }
}

/// Every name, in either case, and names near them.
fn near(dice: &mut Dice, list: &[String], most: usize) -> Vec<String> {
    let mut sought = Vec::new();
    for _ in 0..most {
        if list.is_empty() {
            break;
        }
        let base = &list[dice.below(list.len())];
        sought.push(match dice.below(6) {
            0 => base.to_ascii_uppercase(),
            1 => base.to_ascii_lowercase(),
            2 => format!("{base}{}", name(dice, 1)),
            3 if base.len() > 1 => base[..base.len() - 1].to_string(),
            _ => base.clone(),
        });
    }
    sought.push(name(dice, 2));
    sought.push(name(dice, 300));
    sought
}

/// The names of a table for the Rust to write: each fiftieth time thousands.
pub fn list_to_write(dice: &mut Dice, round: usize) -> Vec<String> {
    let count = if round % 50 == 49 { 2000 + dice.below(4000) } else { round % 50 * (1 + dice.below(4)) };
    let (front, lens) = [("", 1..=3), ("", 4..=8), ("a common front, and then ", 1..=9), ("", 1..=60)][dice.below(4)].clone();
    let mut list = names(dice, count.min(if lens == (1..=3) { 2000 } else { 6000 }), front, lens);
    if round % 2 == 0 {
        list.sort();
    }
    list
}

fn written_tables(tally: &mut Tally, dice: &mut Dice, rounds: usize) {
    for round in 0..rounds {
        let list = list_to_write(dice, round);
        let Some((bytes, size)) = written(&list, true) else { continue };
        let v = View { bytes: &bytes, first: 33 };
        let t = Table { sector: 33, size };
        for sought in &list {
            tally.look_up("written table, lookup", v, t, sought);
        }
        for sought in near(dice, &list, 20) {
            tally.look_up("written table, lookup", v, t, &sought);
        }
        tally.listed_names("written table", v, t);
        tally.walk("written table, walk", v, t, 20_000);
        for offset in 0..size.min(300) {
            if offset % 4 == 0 {
                tally.entry("written table, entry", v, t, offset);
            }
        }
    }
    let list = shortest_names(15_000);
    let (bytes, size) = written(&list, false).expect("15,000 names");
    let (v, t) = (View { bytes: &bytes, first: 33 }, Table { sector: 33, size });
    list.iter().for_each(|sought| tally.look_up("written table, lookup", v, t, sought));
    tally.listed_names("written table", v, t);
    tally.walk("written table, walk", v, t, 20_000);
}

fn damaged_tables(tally: &mut Tally, dice: &mut Dice, rounds: usize) {
    for _ in 0..rounds {
        let count = 1 + dice.below(60);
        let list = names(dice, count, "", 1..=5);
        let (mut bytes, mut size) = written(&list, true).expect("a table");
        tally.listed_names("table before it is damaged", View { bytes: &bytes, first: 33 }, Table { sector: 33, size });
        damage(dice, &mut bytes, size);
        if dice.below(4) == 0 {
            bytes.truncate(dice.below(size as usize + 30));
        }
        if dice.below(6) == 0 {
            size = dice.below(size as usize + 40) as u32;
        }
        let v = View { bytes: &bytes, first: 33 };
        let t = Table { sector: if dice.below(20) == 0 { 32 + dice.below(3) as u32 } else { 33 }, size };
        for sought in near(dice, &list, 10) {
            tally.look_up("damaged table, lookup", v, t, &sought);
        }
        tally.walk("damaged table, walk", v, t, 1_000);
        tally.entry("damaged table, entry", v, t, 4 * dice.below(600) as u32);
    }
}

fn random_windows(tally: &mut Tally, dice: &mut Dice, rounds: usize) {
    for _ in 0..rounds {
        let (bytes, first, t) = noise(dice);
        let v = View { bytes: &bytes, first };
        for len in [1, 1, 2, 3] {
            let sought = name(dice, len);
            tally.look_up("random window, lookup", v, t, &sought);
        }
        tally.path("random window, path", v, t, &format!("{}/{}", name(dice, 1), name(dice, 1)));
        tally.walk("random window, walk", v, t, 1_000);
        for _ in 0..4 {
            tally.entry("random window, entry", v, t, 4 * dice.below(bytes.len() / 4 + 3) as u32);
        }
    }
}

/// How many tables of three there are: with every choice of six links, each out of six, and of three names out of three.
pub const SMALL_TABLES: usize = 6usize.pow(6) * 27;

/// One of them: three entries of sixteen bytes.
pub fn small_table(choice: usize) -> ([u8; 48], Table) {
    const LINKS: [u16; 6] = [0, 4, 8, 12, 255, 65535];
    let (mut links, mut letters) = (choice % 6usize.pow(6), choice / 6usize.pow(6));
    let mut bytes = [0u8; 48];
    for at in [0, 16, 32] {
        for side in [0, 2] {
            bytes[at + side..at + side + 2].copy_from_slice(&LINKS[links % 6].to_le_bytes());
            links /= 6;
        }
        bytes[at + 12..at + 15].copy_from_slice(&[32, 1, b"bDf"[letters % 3]]);
        letters /= 3;
    }
    (bytes, Table { sector: 0, size: 48 + 4 * (choice % 2) as u32 })
}

fn small_tables(tally: &mut Tally) {
    for choice in 0..SMALL_TABLES {
        let (bytes, t) = small_table(choice);
        let v = View { bytes: &bytes, first: 0 };
        for sought in ["a", "B", "c", "d", "e"] {
            tally.look_up("small table, lookup", v, t, sought);
        }
        tally.walk("small table, walk", v, t, 16);
    }
}

/// Every size, every length of the window and every first sector near a table of three; headers that are blank but for a byte.
fn edges(tally: &mut Tally) {
    let list: Vec<String> = ["a", "b", "c"].map(String::from).to_vec();
    let (bytes, _) = written(&list, false).expect("a table");
    for len in 0..70 {
        for size in 0..70 {
            for (first, sector) in [(33, 33), (32, 33), (34, 33), (0, u32::MAX), (u32::MAX, u32::MAX)] {
                let v = View { bytes: &bytes[..len], first };
                let t = Table { sector, size };
                for sought in ["A", "b", "c", "0", "d"] {
                    tally.look_up("edges, lookup", v, t, sought);
                    tally.path("edges, path", v, t, sought);
                }
                tally.walk("edges, walk", v, t, 16);
                for offset in 0..18 {
                    tally.entry("edges, entry", v, t, 4 * offset);
                }
            }
        }
    }
    for base in [0u8, 255] {
        for at in 0..15 {
            for value in 0..=255 {
                let mut bytes = [base; 300];
                if at < 14 {
                    bytes[at] = value;
                }
                let (v, t) = (View { bytes: &bytes, first: 7 }, Table { sector: 7, size: 300 });
                tally.look_up("edges, lookup", v, t, "m");
                tally.walk("edges, walk", v, t, 16);
                tally.entry("edges, entry", v, t, 0);
            }
        }
    }
}

/// The longest chains that links can make, ended by an absent link, by no entry, by a ring and past the table's end; a link of 65,535.
fn long_chains(tally: &mut Tally) {
    let entry = |bytes: &mut [u8], at: usize, left: u16, right: u16| {
        bytes[at..at + 2].copy_from_slice(&left.to_le_bytes());
        bytes[at + 2..at + 4].copy_from_slice(&right.to_le_bytes());
        bytes[at + 12..at + 16].copy_from_slice(&[32, 1, b'a', 255]);
    };
    for end in [0u16, 255, 65535, 4, 40000, 65532] {
        for size in [262_144u32, 262_140, 300_000] {
            let mut bytes = vec![255u8; 262_200];
            for i in 0..16_384usize {
                let next = 4 * (i + 1);
                let link = if i == 16_383 {
                    end
                } else if next == 255 {
                    256
                } else {
                    next as u16
                };
                entry(&mut bytes, 16 * i, link, link);
            }
            let (v, t) = (View { bytes: &bytes, first: 5 }, Table { sector: 5, size });
            for sought in ["a", "b", "!"] {
                tally.look_up("long chains, lookup", v, t, sought);
            }
        }
    }
    let mut bytes = vec![255u8; 262_160];
    entry(&mut bytes, 0, 65535, 65535);
    entry(&mut bytes, 262_140, 0, 0);
    bytes[262_154] = b'b';
    for size in [262_140u32, 262_141, 300_000] {
        let (v, t) = (View { bytes: &bytes, first: 5 }, Table { sector: 5, size });
        for sought in ["a", "b", "c"] {
            tally.look_up("long chains, lookup", v, t, sought);
        }
        tally.walk("long chains, walk", v, t, 20_000);
    }
}

fn images(tally: &mut Tally, dice: &mut Dice, rounds: usize) {
    for round in 0..rounds {
        let mut folder = Folder::random(dice, 3);
        let paths = folder.paths();
        let mut bytes = image(&mut folder);
        let first = [0, 32][round % 2];
        let Some(Descriptor { root: t, stamp: 0 }) = theirs::read_descriptor(&bytes[65_536..]) else { panic!("a volume with no date") };
        assert_eq!(ours::read_descriptor(&bytes[65_536..]), Some(Descriptor { root: t, stamp: 0 }));
        tally.listed_paths("image", View { bytes: &bytes, first: 0 }, t);
        if round % 3 == 2 {
            damage(dice, &mut bytes[2048 * t.sector as usize..], t.size);
        }
        let v = View { bytes: &bytes[2048 * first as usize..], first };
        for path in &paths {
            tally.path("image, path", v, t, path);
            for form in [
                format!("/{path}"),
                format!("///{path}/"),
                format!("{path}//"),
                format!("{path}/x"),
                path.replace('/', "//"),
                path.to_uppercase(),
            ] {
                tally.path("image, path", v, t, &form);
            }
        }
        for path in ["", "/", "//", "///", "a", "/a/", "a//b", "\u{1}"] {
            tally.path("image, path", v, t, path);
        }
        tally.walk("image, walk", v, t, 20_000);
    }
}

fn read_descriptor(tally: &mut Tally, bytes: &[u8]) {
    let (a, b) = (ours::read_descriptor(bytes), theirs::read_descriptor(bytes));
    if a != b {
        tally.wrong("descriptor, read", format!("ours {a:?}, the Rust {b:?}"));
    }
    let how = a.map_or("20", |d| if d.stamp == 0 { "volume, no date" } else { "volume" });
    tally.count("descriptor, read", how.into());
    tally.asked += 1;
}

/// Each written, read as it was written, and read once more damaged or cut; some are written into an output that is too short.
fn descriptors(tally: &mut Tally, dice: &mut Dice, rounds: usize) {
    for round in 0..rounds {
        let d = descriptor(dice, round);
        let mut bytes = vec![9; 2048 + dice.below(3)];
        let wanted = [theirs::write_descriptor(d), bytes[2048..].to_vec()].concat();
        if ours::write_descriptor(&mut bytes, d) != 0 || bytes != wanted {
            let at = (0..bytes.len()).find(|&i| bytes[i] != wanted[i]);
            tally.wrong("descriptor, write", format!("{d:?}: first at byte {at:?}"));
        }
        tally.count("descriptor, write", "done".into());
        tally.asked += 1;
        if dice.below(8) == 0 {
            let mut short = vec![9; 2047 - dice.below(2) * dice.below(2048)];
            if ours::write_descriptor(&mut short, d) != 9 {
                tally.wrong("descriptor, write", format!("{d:?} into {} bytes", short.len()));
            }
            tally.count("descriptor, write", "9, the Rust not asked".into());
        }
        let mut bytes = wanted;
        read_descriptor(tally, &bytes);
        damage_descriptor(dice, &mut bytes);
        read_descriptor(tally, &bytes);
    }
}

/// Bytes above 127: 2 here, whatever the Rust makes of them.
fn high_bytes(tally: &mut Tally, dice: &mut Dice) {
    let list = names(dice, 30, "", 1..=3);
    let (bytes, size) = written(&list, false).expect("a table");
    let (v, t) = (View { bytes: &bytes, first: 33 }, Table { sector: 33, size });
    for sought in ["é", "a\u{80}", "\u{ff}b", "€"] {
        for said in [ours::look_up(v, t, sought.as_bytes(), ONE), ours::path(v, t, sought.as_bytes(), ONE).0] {
            if said != Said::refused(2) {
                tally.wrong("high byte", format!("{said:?}"));
            }
            tally.count("byte above 127", "2, the Rust not asked".into());
        }
    }
}

pub fn all(tally: &mut Tally, dice: &mut Dice, rounds: usize) {
    rules::all(tally, &mut Dice(dice.0.wrapping_add(1)), rounds);
    written_tables(tally, dice, 300 * rounds);
    damaged_tables(tally, dice, 20_000 * rounds);
    random_windows(tally, dice, 100_000 * rounds);
    small_tables(tally);
    edges(tally);
    long_chains(tally);
    images(tally, dice, 2_000 * rounds);
    descriptors(tally, dice, 20_000 * rounds);
    high_bytes(tally, dice);
}
