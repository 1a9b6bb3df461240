//! The strict check once more: a walk that keeps, for each place to visit, the names of all entries above it, and each listed entry's bytes, and looks through all of them.
use super::{raised, read, Here};
use crate::{Said, Table, View};
use std::rc::Rc;

/// The raised name of an entry above a place, and how many entries stand above that one.
type Bound = (usize, Rc<[u8]>);

/// A place to visit: its offset, the links that lead to it from the first entry, and the names of all entries above it: of those in whose left subtree it stands, and of
/// those in whose right.
struct Visit {
    offset: u32,
    way: Vec<u16>,
    less_than: Vec<Bound>,
    greater_than: Vec<Bound>,
}

/// An entry that was listed: its offset, its name, and the links that lead to it.
pub struct Listed {
    pub offset: u32,
    pub name: Vec<u8>,
    pub way: Vec<u16>,
}

/// What the strict check answers. Where nothing is refused, the entries listed; of 31 how many entries up each stands whose bound is broken (1: the parent).
pub struct Checked {
    pub said: Said,
    pub entries: Vec<Listed>,
    pub broken: Vec<usize>,
}

/// The children of an entry, the right one first: they are taken off the stack from its end.
fn children(at: &Visit, left: u16, right: u16, name: &[u8]) -> Vec<Visit> {
    let below = |link: u16| Visit {
        offset: 4 * link as u32,
        way: [&at.way[..], &[link]].concat(),
        less_than: at.less_than.clone(),
        greater_than: at.greater_than.clone(),
    };
    let bound = (at.way.len(), Rc::from(raised(name)));
    let mut visits = Vec::new();
    for (link, is_left) in [(right, false), (left, true)] {
        if link != 0 && link != 65535 {
            let mut visit = below(link);
            if is_left { &mut visit.less_than } else { &mut visit.greater_than }.push(Clone::clone(&bound));
            visits.push(visit);
        }
    }
    visits
}

/// How many entries up each stands whose bound a name breaks at a visit.
fn broken(at: &Visit, name: &[u8]) -> Vec<usize> {
    let name = raised(name);
    let not_less = at.less_than.iter().filter(|(_, above)| name[..] >= above[..]);
    let not_greater = at.greater_than.iter().filter(|(_, above)| name[..] <= above[..]);
    not_less.chain(not_greater).map(|(depth, _)| at.way.len() - depth).collect()
}

/// The strict check into a list of so many places.
pub fn check(v: View, t: Table, places: usize) -> Checked {
    let mut entries: Vec<Listed> = Vec::new();
    let mut taken: Vec<(u32, u32)> = Vec::new();
    let root = Visit { offset: 0, way: vec![], less_than: vec![], greater_than: vec![] };
    let mut stack = if t.size == 0 { vec![] } else { vec![root] };
    let refused = |number: u32, offset: Option<u32>, broken: Vec<usize>| {
        let byte = offset.map(|offset| 2048 * t.sector as u64 + offset as u64);
        Checked { said: Said::Refused { number, byte, headers: None }, entries: vec![], broken }
    };
    while let Some(at) = stack.pop() {
        let (entry, name) = match read(v, t, at.offset as u64) {
            Here::Entry(entry, name) => (entry, name),
            Here::Nothing => continue,
            Here::Refused(number) => return refused(number, Some(at.offset), vec![]),
        };
        if entries.iter().any(|other| other.offset == at.offset) {
            return refused(30, Some(at.offset), vec![]);
        }
        if entries.len() == places {
            return refused(26, None, vec![]);
        }
        let (from, to) = (at.offset, at.offset + (14 + entry.name_len as u32).div_ceil(4) * 4);
        if to > t.size || from / 2048 != (to - 1) / 2048 || taken.iter().any(|other| from < other.1 && other.0 < to) {
            return refused(32, Some(at.offset), vec![]);
        }
        let broken = broken(&at, &name);
        if !broken.is_empty() {
            return refused(31, Some(at.offset), broken);
        }
        taken.push((from, to));
        stack.extend(children(&at, entry.left, entry.right, &name));
        entries.push(Listed { offset: at.offset, name, way: at.way });
    }
    Checked { said: Said::Listed(entries.iter().map(|entry| entry.offset).collect()), entries, broken: vec![] }
}
