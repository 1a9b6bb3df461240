//! The strict check on the same windows: number, offset and list, against the plain check. Every table that it accepts is walked by the Rust besides, and names are sought in it:
//! each that is listed, and some that are not.
use crate::reads::{list_to_write, small_table, SMALL_TABLES};
use crate::rules::{ONE, TWO};
use crate::tally::Tally;
use bench::inputs::{damage, names, noise, shortest_names, written, Dice};
use bench::plain::{Checked, Listed};
use bench::{ours, plain, theirs, Said, Table, View};
use std::collections::BTreeMap;

/// The check's answers: each has to come, and no other.
const NUMBERS: [u32; 8] = [0, 6, 23, 24, 26, 30, 31, 32];

/// What was seen of the strict check.
#[derive(Default)]
pub struct Strict {
    /// Answers by their number.
    pub numbers: BTreeMap<u32, u64>,
    /// Those that are 31 where no bound of the parent is broken, by how many entries up the nearest one stands whose bound is: 2 or more.
    pub beyond: BTreeMap<usize, u64>,
    /// Tables that were accepted.
    pub accepted: u64,
    /// Names sought in them: listed ones that are found under both rules, under rule two alone, and not at all, having a byte above 127; and names near them.
    pub both: u64,
    pub two_alone: u64,
    pub high: u64,
    pub near: u64,
}

/// What is said of an entry that is to be found.
fn found(v: View, t: Table, entry: &Listed) -> Said {
    match plain::entry(v, t, entry.offset) {
        Some(Said::Found { entry: fields, .. }) => Said::Found { entry: fields, headers: Some(entry.way.len() as u32 + 1) },
        other => panic!("no entry is read where one is listed: {other:?}"),
    }
}

fn can_be_sought(name: &[u8]) -> bool {
    name.iter().all(|&b| b <= 127)
}

/// What is said of a name that is not listed: 22, or 21 where the table has size 0.
fn is_missing(said: &Said, t: Table) -> bool {
    matches!(said, Said::Refused { number, .. } if *number == if t.size == 0 { 21 } else { 22 })
}

/// A name near another: longer, shorter, or with another last byte.
fn beside(name: &[u8], way: usize) -> Vec<u8> {
    let (mut name, last) = (name.to_vec(), name.last().copied().unwrap_or(0));
    match way % 4 {
        0 => name.push(b'!'),
        1 => drop(name.pop()),
        2 => name.iter_mut().last().into_iter().for_each(|b| *b = last.saturating_add(1).min(127)),
        _ => name.iter_mut().last().into_iter().for_each(|b| *b = last.saturating_sub(1)),
    }
    name
}

impl Tally {
    fn strict(&mut self, what: &str, number: u32, how: String) {
        *self.strict.numbers.entry(number).or_default() += 1;
        self.count(&format!("strict, {what}"), how);
    }

    /// One question.
    fn check(&mut self, what: &str, v: View, t: Table, places: usize) -> Checked {
        let (a, c) = (ours::check(v, t, places), plain::check(v, t, places));
        if !a.agrees(&c.said) {
            self.wrong(what, self.text(v, t, &[], &format!("strict check, {places} places: ours {a:?}, plain {:?}", c.said)));
        }
        let number = if let Said::Refused { number, .. } = a { number } else { 0 };
        let mut how = a.kind();
        if let Some(up) = c.broken.iter().min().filter(|up| **up > 1) {
            *self.strict.beyond.entry(*up).or_default() += 1;
            how += ", the parent's bound kept";
        }
        self.strict(what, number, how);
        c
    }

    /// A table: into a list of `most` places, into shorter ones, and with scratch that is too short. Where it is accepted, what is found in it.
    fn checked(&mut self, what: &str, v: View, t: Table, most: usize) -> Checked {
        let c = self.check(what, v, t, most);
        let length = if let Said::Listed(list) = &c.said { list.len() } else { 3 };
        for places in [length, length.saturating_sub(1), length / 2] {
            if places < most {
                self.check(what, v, t, places);
            }
        }
        if ours::check_without_room(v, t, length) != 6 {
            self.wrong(what, self.text(v, t, &[], "strict check with scratch that is too short: not 6"));
        }
        self.strict(what, 6, "6".into());
        if let Said::Listed(_) = c.said {
            self.sought(what, v, t, &c.entries);
        }
        c
    }

    /// In a table that is accepted, which the Rust's walk lists as the check does, each listed name is found under rule two, and under rule one unless a link of 255 stands on
    /// the way; names near them are found where they are listed, and else are 22 (21 in a table of size 0), never 23, 24 or 25.
    fn sought(&mut self, what: &str, v: View, t: Table, entries: &[Listed]) {
        let by_name: BTreeMap<Vec<u8>, &Listed> = entries.iter().map(|entry| (entry.name.to_ascii_uppercase(), entry)).collect();
        let wrong =
            |tally: &mut Tally, name: &[u8], said: &str| tally.wrong(what, tally.text(v, t, name, &format!("an accepted table: {said}")));
        if by_name.len() != entries.len() {
            wrong(self, &[], "a name is listed twice");
        }
        let rust = theirs::walk(v, t);
        if rust != Said::Listed(entries.iter().map(|entry| entry.offset).collect()) {
            wrong(self, &[], &format!("the Rust's walk: {rust:?}"));
        }
        for entry in entries {
            let (one, two) = (ours::look_up(v, t, &entry.name, ONE), ours::look_up(v, t, &entry.name, TWO));
            let right = if !can_be_sought(&entry.name) {
                self.strict.high += 1;
                one == Said::refused(2) && two == Said::refused(2)
            } else if entry.way.contains(&255) {
                self.strict.two_alone += 1;
                is_missing(&one, t) && two == found(v, t, entry)
            } else {
                self.strict.both += 1;
                one == two && two == found(v, t, entry)
            };
            if !right {
                wrong(self, &entry.name, &format!("listed by the way {:?}, rule one {one:?}, rule two {two:?}", entry.way));
            }
        }
        let step = entries.len() / 40 + 1;
        let near = entries.iter().step_by(step).enumerate().map(|(i, entry)| beside(&entry.name, i));
        for name in near.chain([vec![], vec![127; 20]]).filter(|name| can_be_sought(name)) {
            let two = ours::look_up(v, t, &name, TWO);
            let right = match by_name.get(&name.to_ascii_uppercase()) {
                Some(entry) => two == found(v, t, entry),
                None => is_missing(&two, t),
            };
            if !right {
                wrong(self, &name, &format!("near a listed name, rule two {two:?}"));
            }
            self.strict.near += 1;
        }
        self.strict.accepted += 1;
    }
}

/// An entry to be laid at an offset: its links and its name.
type Laid<'a> = (usize, u16, u16, &'a [u8]);

/// The bytes of entries, with `fill` between and behind them, and where the last one ends.
fn laid(entries: &[Laid], fill: u8) -> (Vec<u8>, u32) {
    let end = |(at, _, _, name): &Laid| at + (14 + name.len()).div_ceil(4) * 4;
    let size = entries.iter().map(end).max().unwrap_or(0);
    let mut bytes = vec![fill; size.div_ceil(2048) * 2048];
    for (at, left, right, name) in entries {
        let header = [&left.to_le_bytes()[..], &right.to_le_bytes(), &[0; 8], &[32, name.len() as u8], name].concat();
        bytes[*at..at + header.len()].copy_from_slice(&header);
    }
    (bytes, size as u32)
}

/// The answers of single tables: what is listed, or a number with its offset.
#[rustfmt::skip]
const CASES: &[(&str, &[Laid], Result<&[u32], (u32, u32)>)] = &[
    ("greater than the entry two up", &[(0, 4, 0, b"m"), (16, 0, 8, b"c"), (32, 0, 0, b"z")], Err((31, 32))),
    ("less than the entry two up", &[(0, 0, 4, b"m"), (16, 8, 0, b"x"), (32, 0, 0, b"a")], Err((31, 32))),
    ("in order on the left", &[(0, 4, 0, b"m"), (16, 0, 8, b"c"), (32, 0, 0, b"d")], Ok(&[0, 16, 32])),
    ("in order on the right", &[(0, 0, 4, b"m"), (16, 8, 0, b"x"), (32, 0, 0, b"t")], Ok(&[0, 16, 32])),
    ("on the wrong side of the parent, left", &[(0, 4, 0, b"m"), (16, 0, 0, b"z")], Err((31, 16))),
    ("on the wrong side of the parent, right", &[(0, 0, 4, b"m"), (16, 0, 0, b"c")], Err((31, 16))),
    ("equal to the parent, left", &[(0, 4, 0, b"m"), (16, 0, 0, b"M")], Err((31, 16))),
    ("equal to the parent, right", &[(0, 0, 4, b"m"), (16, 0, 0, b"M")], Err((31, 16))),
    ("greater than the entry three up", &[(0, 4, 0, b"m"), (16, 0, 8, b"c"), (32, 0, 12, b"e"), (48, 0, 0, b"z")], Err((31, 48))),
    ("less than the entry three up", &[(0, 0, 4, b"m"), (16, 8, 0, b"x"), (32, 12, 0, b"t"), (48, 0, 0, b"a")], Err((31, 48))),
    ("less than the entry two up, below a third", &[(0, 4, 0, b"m"), (16, 0, 8, b"c"), (32, 12, 0, b"e"), (48, 0, 0, b"b")], Err((31, 48))),
    ("greater than the entry two up, below a third", &[(0, 0, 4, b"m"), (16, 8, 0, b"x"), (32, 0, 12, b"t"), (48, 0, 0, b"y")], Err((31, 48))),
    ("between those above it, on the left", &[(0, 4, 0, b"m"), (16, 0, 8, b"c"), (32, 12, 0, b"e"), (48, 0, 0, b"d")], Ok(&[0, 16, 32, 48])),
    ("between those above it, on the right", &[(0, 0, 4, b"m"), (16, 8, 0, b"x"), (32, 0, 12, b"t"), (48, 0, 0, b"u")], Ok(&[0, 16, 32, 48])),
    ("equal to the entry two up, on its left", &[(0, 4, 0, b"m"), (16, 0, 8, b"c"), (32, 0, 0, b"M")], Err((31, 32))),
    ("equal to the entry two up, on its right", &[(0, 0, 4, b"m"), (16, 8, 0, b"x"), (32, 0, 0, b"M")], Err((31, 32))),
    ("equal to the entry three up, on its left", &[(0, 4, 0, b"m"), (16, 0, 8, b"c"), (32, 0, 12, b"e"), (48, 0, 0, b"M")], Err((31, 48))),
    ("equal to the entry three up, on its right", &[(0, 0, 4, b"m"), (16, 8, 0, b"x"), (32, 12, 0, b"t"), (48, 0, 0, b"M")], Err((31, 48))),
    ("longer than the entry two up", &[(0, 4, 0, b"mm"), (16, 0, 8, b"c"), (32, 0, 0, b"mmm")], Err((31, 32))),
    ("shorter than the entry two up", &[(0, 4, 0, b"mm"), (16, 0, 8, b"c"), (32, 0, 0, b"m")], Ok(&[0, 16, 32])),
    ("a byte above 127 greater than the entry two up", &[(0, 4, 0, b"m"), (16, 0, 8, b"c"), (32, 0, 0, b"\x80")], Err((31, 32))),
    ("bytes above 127 in order", &[(0, 4, 0, b"\x90"), (16, 0, 8, b"c"), (32, 0, 0, b"\x80")], Ok(&[0, 16, 32])),
    ("a blank header between, on the left", &[(0, 4, 0, b"m"), (16, 12, 8, b"c"), (32, 0, 0, b"z")], Err((31, 32))),
    ("a blank header between, on the right", &[(0, 4, 8, b"m"), (32, 12, 0, b"x"), (48, 0, 0, b"a")], Err((31, 48))),
    ("blank headers bound nothing", &[(0, 4, 8, b"m"), (32, 12, 16, b"x"), (48, 0, 16, b"t")], Ok(&[0, 32, 48])),
    ("the first in walk order of two, on the left", &[(0, 4, 12, b"m"), (16, 0, 8, b"c"), (32, 0, 0, b"z"), (48, 16, 0, b"x"), (64, 0, 0, b"a")], Err((31, 32))),
    ("the second alone, on the right", &[(0, 4, 12, b"m"), (16, 0, 8, b"c"), (32, 0, 0, b"d"), (48, 16, 0, b"x"), (64, 0, 0, b"a")], Err((31, 64))),
    ("30 before 31", &[(0, 4, 4, b"m"), (16, 0, 0, b"c")], Err((30, 16))),
    ("32 before 31", &[(0, 4, 0, b"m"), (16, 0, 8, b"cc\0\0"), (32, 0, 0, b"z")], Err((32, 32))),
    ("31 before what is past it, below", &[(0, 4, 0, b"m"), (16, 0, 8, b"c"), (32, 999, 0, b"z")], Err((31, 32))),
    ("31 before what is past it, on the right", &[(0, 4, 999, b"m"), (16, 0, 8, b"c"), (32, 0, 0, b"z")], Err((31, 32))),
    ("23 before a later 31", &[(0, 4, 0, b"m"), (16, 999, 8, b"c"), (32, 0, 0, b"z")], Err((23, 3996))),
    ("a link of 65,535 is absent", &[(0, 4, 65535, b"m"), (16, 65535, 8, b"c"), (32, 65535, 65535, b"d")], Ok(&[0, 16, 32])),
    ("an empty name is the least", &[(0, 4, 0, b"b"), (16, 8, 0, b"a"), (32, 0, 0, b"")], Ok(&[0, 16, 32])),
];

fn cases(tally: &mut Tally) {
    for ((what, entries, says), fill) in CASES.iter().flat_map(|case| [(case, 255), (case, 0)]) {
        let (bytes, end) = laid(entries, fill);
        // The table reaches past its last entry: blank headers stand there.
        let (v, t) = (View { bytes: &bytes, first: 33 }, Table { sector: 33, size: end + 64 });
        let said = match says {
            Ok(list) => Said::Listed(list.to_vec()),
            Err((number, offset)) => Said::Refused { number: *number, byte: Some(2048 * 33 + *offset as u64), headers: None },
        };
        if !tally.checked("single cases", v, t, 16).said.agrees(&said) {
            tally.wrong(what, format!("the plain strict check does not say {said:?}"));
        }
        if let Err((31, offset)) = says {
            // With places for the entries before it alone: 26 comes before 31.
            let before = entries.iter().filter(|entry| entry.0 < *offset as usize).count();
            if tally.check("single cases", v, t, before).said != Said::refused(26) {
                tally.wrong(what, "the plain strict check does not say 26 before 31".into());
            }
        }
    }
}

/// Every binary tree of so many entries, numbered in preorder: the left and the right child of each.
fn trees(count: usize) -> Vec<Vec<[Option<usize>; 2]>> {
    let moved =
        |tree: &[[Option<usize>; 2]], by: usize| -> Vec<_> { tree.iter().map(|at| at.map(|child| child.map(|c| c + by))).collect() };
    if count == 0 {
        return vec![vec![]];
    }
    let mut all = Vec::new();
    for left in 0..count {
        for l in trees(left) {
            for r in trees(count - 1 - left) {
                let root = [(!l.is_empty()).then_some(1), (!r.is_empty()).then_some(1 + left)];
                all.push([vec![root], moved(&l, 1), moved(&r, 1 + left)].concat());
            }
        }
    }
    all
}

/// Every tree of up to five entries with every choice of names out of as many letters, some of them small and some capital; absent links are 0 or 65,535, or lead to no
/// entry.
fn every_tree(tally: &mut Tally) {
    for count in 1..=5 {
        for (round, tree) in trees(count).iter().enumerate() {
            for choice in 0..count.pow(count as u32) {
                let mut entries: Vec<Laid> = Vec::new();
                for (i, children) in tree.iter().enumerate() {
                    let none = [0, 65535, 4 * count as u16][(i + round + choice) % 3];
                    let [left, right] = children.map(|child| child.map_or(none, |c| 4 * c as u16));
                    let letter = choice / count.pow(i as u32) % count;
                    let name = if (i + choice) % 2 == 0 { b"bdfhj" } else { b"BDFHJ" };
                    entries.push((16 * i, left, right, &name[letter..letter + 1]));
                }
                let (bytes, size) = laid(&entries, 255);
                let (v, t) = (View { bytes: &bytes[..16 * count + 16], first: 33 }, Table { sector: 33, size: size + 16 });
                tally.checked("every tree of up to 5", v, t, 8);
            }
        }
    }
}

/// Three entries of sixteen bytes with every choice of links and of names out of a few.
fn small_tables(tally: &mut Tally) {
    for choice in 0..SMALL_TABLES {
        let (bytes, t) = small_table(choice);
        tally.checked("small table", View { bytes: &bytes, first: 0 }, t, 16);
    }
}

/// Tables that the Rust wrote: all are accepted.
fn written_tables(tally: &mut Tally, dice: &mut Dice, rounds: usize) {
    let accepted = |tally: &mut Tally, list: &[String], directories: bool| {
        let Some((bytes, size)) = written(list, directories) else { return };
        let (v, t) = (View { bytes: &bytes, first: 33 }, Table { sector: 33, size });
        if tally.checked("written table", v, t, list.len() + 1).entries.len() != list.len() {
            tally.wrong("written table", format!("of {} names the strict check does not list as many", list.len()));
        }
    };
    for round in 0..rounds {
        accepted(tally, &list_to_write(dice, round), true);
    }
    accepted(tally, &shortest_names(15_000), false);
}

/// A table of names in order, laid in preorder, that is any tree and not a balanced one.
fn any_tree(dice: &mut Dice, list: &[Vec<u8>]) -> (Vec<u8>, u32) {
    /// The entries of a part of the names: where the first of them stands, if there is one.
    fn lay<'a>(dice: &mut Dice, list: &'a [Vec<u8>], end: &mut usize, entries: &mut Vec<Laid<'a>>) -> u16 {
        if list.is_empty() {
            return [0, 65535][dice.below(2)];
        }
        let root = [dice.below(list.len()), 0, list.len() - 1][dice.below(3)];
        let (name, length) = (&list[root], (14 + list[root].len()).div_ceil(4) * 4);
        if *end / 2048 != (*end + length - 1) / 2048 {
            *end = end.next_multiple_of(2048);
        }
        let (at, place) = (*end, entries.len());
        *end += length;
        entries.push((at, 0, 0, name));
        let left = lay(dice, &list[..root], end, entries);
        let right = lay(dice, &list[root + 1..], end, entries);
        entries[place] = (at, left, right, name);
        (at / 4) as u16
    }
    let (mut end, mut entries) = (0, Vec::new());
    lay(dice, list, &mut end, &mut entries);
    laid(&entries, 255)
}

/// Something of a table that is in order put where it does not belong: names of the same length exchanged, of neighbours in order or of any two; a name again in the other
/// case; two links exchanged, with all that stands below them.
fn disorder(dice: &mut Dice, bytes: &mut [u8], entries: &[Listed]) {
    let mut sorted: Vec<&Listed> = entries.iter().collect();
    sorted.sort_by_key(|entry| entry.name.to_ascii_uppercase());
    let i = dice.below(sorted.len());
    let j = match dice.below(3) {
        0 => dice.below(sorted.len()),
        k => (i + k).min(sorted.len() - 1),
    };
    let (a, b) = (sorted[i], sorted[j]);
    let mut put =
        |offset: u32, more: usize, what: &[u8]| bytes[offset as usize + more..offset as usize + more + what.len()].copy_from_slice(what);
    let kind = dice.below(4);
    if kind < 3 && a.name.len() == b.name.len() {
        put(a.offset, 14, &if kind == 2 { b.name.to_ascii_uppercase() } else { b.name.clone() });
        if kind < 2 {
            put(b.offset, 14, &a.name);
        }
        return;
    }
    let (x, y) = (a.offset as usize + 2 * dice.below(2), b.offset as usize + 2 * dice.below(2));
    for byte in 0..2 {
        bytes.swap(x + byte, y + byte);
    }
}

/// So many names, of which no two are equal when raised, in order; in some lists many have bytes above 127.
fn any_names(dice: &mut Dice, list: Vec<String>) -> Vec<Vec<u8>> {
    let high = dice.below(4) == 0;
    let mut list: Vec<Vec<u8>> = list.into_iter().map(String::into_bytes).collect();
    for name in list.iter_mut().filter(|_| high && dice.below(2) == 0) {
        name[0] |= 128;
    }
    list.sort_by_key(|name| name.to_ascii_uppercase());
    list.dedup_by_key(|name| name.to_ascii_uppercase());
    list
}

/// Tables of the Rust, and trees of any shape: as they are, with something out of order, and damaged besides or cut.
fn disordered_tables(tally: &mut Tally, dice: &mut Dice, rounds: usize) {
    for round in 0..rounds {
        let (count, len) = (2 + dice.below(if round % 20 < 2 { 300 } else { 60 }), [2, 3, 5][dice.below(3)]);
        let (front, more) = (["", "front"][dice.below(2)], dice.below(2));
        let list = names(dice, count, front, len..=len + more);
        let (what, (mut bytes, mut size)) = if round % 2 == 0 {
            ("table of the Rust", written(&list, true).expect("a table"))
        } else {
            let list = any_names(dice, list);
            ("tree of any shape", any_tree(dice, &list))
        };
        let t = Table { sector: 33, size };
        let c = tally.checked(&format!("{what}, in order"), View { bytes: &bytes, first: 33 }, t, 400);
        if !matches!(c.said, Said::Listed(_)) {
            tally.wrong(what, format!("a table in order: {:?}", c.said));
            continue;
        }
        for _ in 0..1 + dice.below(2) {
            disorder(dice, &mut bytes, &c.entries);
        }
        tally.checked(&format!("{what}, out of order"), View { bytes: &bytes, first: 33 }, t, 400);
        damage(dice, &mut bytes, size);
        if dice.below(4) == 0 {
            bytes.truncate(dice.below(size as usize + 30));
        }
        if dice.below(6) == 0 {
            size = dice.below(size as usize + 40) as u32;
        }
        tally.checked(&format!("{what}, damaged"), View { bytes: &bytes, first: 33 }, Table { sector: 33, size }, 400);
    }
}

fn random_windows(tally: &mut Tally, dice: &mut Dice, rounds: usize) {
    for _ in 0..rounds {
        let (bytes, first, t) = noise(dice);
        tally.checked("random window", View { bytes: &bytes, first }, t, 300);
    }
}

/// Every size and every length of the window about a table of five, with one of its names in order and out of it.
fn edges(tally: &mut Tally) {
    for last in [b"d", b"z"] {
        let (bytes, _) = laid(&[(0, 4, 12, b"m"), (16, 0, 8, b"c"), (32, 0, 0, last), (48, 16, 0, b"x"), (64, 0, 0, b"t")], 255);
        for len in 0..100 {
            for size in 0..100 {
                for (first, sector) in [(33, 33), (32, 33), (34, 33)] {
                    tally.checked("edges", View { bytes: &bytes[..len], first }, Table { sector, size }, 8);
                }
            }
        }
    }
}

/// Chains of entries, each the right child of the one before it, below the left link of the first; and the other way round. The last is within the first one's bound, at
/// it, or past it.
fn chains(tally: &mut Tally) {
    let letters: Vec<u8> = (1..=255).filter(|b: &u8| !b.is_ascii_lowercase()).collect();
    for (count, up) in [3, 10, 1_000, 16_384].into_iter().flat_map(|count| [(count, true), (count, false)]) {
        for last in [count - 1, 2 * count, 2 * count + 1] {
            let name = |i: usize| {
                let number = match i {
                    0 => 2 * count,
                    i if i == count - 1 => last,
                    i => i,
                };
                let place = if up { number } else { 2 * count + 1 - number };
                [letters[place / letters.len()], letters[place % letters.len()]]
            };
            let names: Vec<[u8; 2]> = (0..count).map(name).collect();
            let next = |i: usize| if i + 1 == count { 0 } else { 4 * (i as u16 + 1) };
            let links = |i: usize| if (i == 0) == up { (next(i), 0) } else { (0, next(i)) };
            let entries: Vec<Laid> = names.iter().enumerate().map(|(i, name)| (16 * i, links(i).0, links(i).1, &name[..])).collect();
            let (bytes, size) = laid(&entries, 255);
            let (v, t) = (View { bytes: &bytes, first: 33 }, Table { sector: 33, size });
            if count > 1_000 {
                tally.check("chains", v, t, count); // to seek each name would take long
            } else {
                tally.checked("chains", v, t, count + 1);
            }
        }
    }
}

pub fn all(tally: &mut Tally, dice: &mut Dice, rounds: usize) {
    cases(tally);
    every_tree(tally);
    small_tables(tally);
    edges(tally);
    chains(tally);
    written_tables(tally, dice, 300 * rounds);
    disordered_tables(tally, dice, 40_000 * rounds);
    random_windows(tally, dice, 100_000 * rounds);
    for number in NUMBERS {
        if !tally.strict.numbers.contains_key(&number) {
            tally.wrong("strict", format!("{number} was never answered"));
        }
    }
    for number in tally.strict.numbers.keys().copied().collect::<Vec<u32>>() {
        if !NUMBERS.contains(&number) {
            tally.wrong("strict", format!("{number} is no answer of the strict check"));
        }
    }
    if tally.strict.beyond.is_empty() {
        tally.wrong(
            "strict",
            "no 31 breaks the bound of an entry that is not the parent alone: the rule over subtrees is not reached".into(),
        );
    }
    if tally.strict.two_alone == 0 {
        tally.wrong("strict", "no table that is accepted has an entry behind a link of 255".into());
    }
}
