//! The limits loader once more: the descriptor out of the bytes of the image, the tests of its date in their order, the path under rule two, and whether it leads to a file.
use super::path;
use crate::{Descriptor, Limits, Said, Table, View};

const MARK: &[u8] = b"MICROSOFT*XBOX*MEDIA";

/// What the image's sector 32 says; None where it is not whole in the window or a mark differs.
fn volume(v: View) -> Option<Descriptor> {
    let from = 2048 * 32u32.checked_sub(v.first)? as usize;
    let s = v.bytes.get(from..from + 2048)?;
    if &s[..20] != MARK || &s[2028..] != MARK {
        return None;
    }
    let number = |from: usize, to: usize| s[from..to].iter().rev().fold(0, |n: u64, &b| 256 * n + b as u64);
    Some(Descriptor { root: Table { sector: number(20, 24) as u32, size: number(24, 28) as u32 }, stamp: number(28, 36) })
}

pub fn load_limits(v: View, sought: &[u8], time: u64, age: u64) -> Limits {
    let Some(Descriptor { root, stamp }) = volume(v) else {
        return Limits::refused(20);
    };
    if stamp == 0 {
        return Limits::refused(40);
    }
    if time < stamp {
        return Limits::refused(41);
    }
    if time - stamp > age {
        return Limits::refused(42);
    }
    match path(v, root, sought, 2).0 {
        Said::Found { entry, .. } if entry.attributes & 16 != 0 => Limits::refused(43),
        Said::Found { entry, .. } => Limits { number: 0, sector: entry.sector, size: entry.size, stamp },
        Said::Refused { number, .. } => Limits::refused(number),
        other => unreachable!("a path is found or refused: {other:?}"),
    }
}
