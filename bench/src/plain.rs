//! The readers once more, written from docs/SCOPE.md with no thought of speed: they tell beforehand where the Rust would never return, and are compared too.
mod limits;
mod plan;
mod strict;
mod write;

pub use limits::load_limits;
pub use plan::{plan, refused_twice};
pub use strict::{check, Checked, Listed};
pub use write::{add_in_turn, sectors_for, stored, whole, MOST};

use crate::{Entry, Said, Table, View};
use std::cmp::Ordering;
use std::collections::HashSet;

enum Here {
    Entry(Entry, Vec<u8>),
    Nothing,
    Refused(u32),
}

fn read(v: View, t: Table, offset: u64) -> Here {
    if offset >= t.size as u64 {
        return Here::Refused(23);
    }
    let byte = 2048 * t.sector as u64 + offset;
    let Some(from) = byte.checked_sub(2048 * v.first as u64).map(|x| x as usize) else {
        return Here::Refused(24);
    };
    let Some(h) = v.bytes.get(from..from + 14) else {
        return Here::Refused(24);
    };
    if h.iter().all(|&b| b == 0) || h.iter().all(|&b| b == 255) {
        return Here::Nothing;
    }
    let word = |i: usize| h[i] as u16 + 256 * h[i + 1] as u16;
    let long = |i: usize| word(i) as u32 + 65536 * word(i + 2) as u32;
    let Some(name) = v.bytes.get(from + 14..from + 14 + h[13] as usize) else {
        return Here::Refused(24);
    };
    let entry = Entry { byte, left: word(0), right: word(2), sector: long(4), size: long(8), attributes: h[12], name_len: h[13] };
    Here::Entry(entry, name.to_vec())
}

fn raised(name: &[u8]) -> Vec<u8> {
    name.iter().map(|b| if (b'a'..=b'z').contains(b) { b - 32 } else { *b }).collect()
}

/// The links that are absent for a lookup under a rule; None where no rule has the number.
fn absent_under(rule: u32) -> Option<[u16; 2]> {
    match rule {
        1 => Some([0, 255]),
        2 => Some([0, 65535]),
        _ => None,
    }
}

fn is_bad_sought(name: &[u8]) -> bool {
    name.iter().any(|&b| b > 127)
}

/// The lookup of a name under a rule.
pub fn look_up(v: View, t: Table, name: &[u8], rule: u32) -> Said {
    match absent_under(rule) {
        None => Said::refused(29),
        Some(_) if is_bad_sought(name) => Said::refused(2),
        Some(absent) => look_up_by(v, t, name, absent),
    }
}

/// The lookup of an ASCII name, where these links are absent. 25 where an offset would be read again.
fn look_up_by(v: View, t: Table, name: &[u8], absent: [u16; 2]) -> Said {
    if t.size == 0 {
        return Said::refused(21);
    }
    let mut seen = HashSet::new();
    let mut at = 0;
    while seen.insert(at) {
        let headers = Some(seen.len() as u32);
        let (entry, stored) = match read(v, t, at) {
            Here::Entry(entry, stored) => (entry, stored),
            Here::Nothing => return Said::Refused { number: 22, byte: None, headers },
            Here::Refused(number) => {
                return Said::Refused { number, byte: Some(2048 * t.sector as u64 + at), headers: None };
            }
        };
        let link = match raised(name).cmp(&raised(&stored)) {
            Ordering::Equal => return Said::Found { entry, headers },
            Ordering::Less => entry.left,
            Ordering::Greater => entry.right,
        };
        if absent.contains(&link) {
            return Said::Refused { number: 22, byte: None, headers };
        }
        at = 4 * link as u64;
    }
    Said::refused(25)
}

/// A path, each part looked up under the same rule; with it the table in which it ended.
pub fn path(v: View, t: Table, path: &[u8], rule: u32) -> (Said, Table) {
    let Some(absent) = absent_under(rule) else {
        return (Said::refused(29), t);
    };
    if is_bad_sought(path) {
        return (Said::refused(2), t);
    }
    let start = path.iter().take_while(|&&b| b == b'/').count();
    let rest = &path[start..];
    let rest = rest.strip_suffix(b"/").unwrap_or(rest);
    if rest.is_empty() {
        return (Said::refused(28), t);
    }
    let parts: Vec<&[u8]> = rest.split(|&b| b == b'/').collect();
    let mut table = t;
    for (i, part) in parts.iter().enumerate() {
        let answer = look_up_by(v, table, part, absent);
        let Said::Found { entry, .. } = answer else {
            return (answer, table);
        };
        if i + 1 == parts.len() {
            return (Said::Found { entry, headers: None }, table);
        }
        if entry.attributes & 16 == 0 {
            return (Said::refused(27), table);
        }
        table = Table { sector: entry.sector, size: entry.size };
    }
    unreachable!()
}

/// The entry at an offset; None where no entry stands there.
pub fn entry(v: View, t: Table, offset: u32) -> Option<Said> {
    match read(v, t, offset as u64) {
        Here::Entry(entry, _) => Some(Said::Found { entry, headers: None }),
        Here::Nothing => None,
        Here::Refused(number) => Some(Said::Refused { number, byte: Some(2048 * t.sector as u64 + offset as u64), headers: None }),
    }
}

/// The walk, at most so many entries.
pub fn walk(v: View, t: Table, places: usize) -> Said {
    let mut list = Vec::new();
    let mut stack = if t.size == 0 { vec![] } else { vec![0u32] };
    while let Some(at) = stack.pop() {
        match read(v, t, at as u64) {
            Here::Entry(entry, _) => {
                if list.len() == places {
                    return Said::refused(26);
                }
                list.push(at);
                for link in [entry.right, entry.left] {
                    if link != 0 && link != 65535 {
                        stack.push(4 * link as u32);
                    }
                }
            }
            Here::Nothing => {}
            Here::Refused(number) => {
                return Said::Refused { number, byte: Some(2048 * t.sector as u64 + at as u64), headers: None };
            }
        }
    }
    Said::Listed(list)
}
