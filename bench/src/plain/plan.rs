//! Planning once more, written from docs/SCOPE.md with no thought of speed.
use super::write::{add_in_turn, laid, sectors_for, stored};
use crate::plans::{Member, Planned, Request};
use crate::{Job, New};

fn is_tree(request: &Request) -> bool {
    let count = request.directories.len() as u64;
    let mut named = vec![0; request.directories.len()];
    for (d, list) in request.directories.iter().enumerate() {
        for member in list.iter().filter(|member| member.directory) {
            if member.value <= d as u64 || member.value >= count {
                return false;
            }
            named[member.value as usize] += 1;
        }
    }
    count > 0 && named[1..].iter().all(|&times| times == 1)
}

/// The entries of a directory as they are added, as far as no file is too large.
fn entries(list: &[Member], sizes: &[u64]) -> Vec<New> {
    let size = |member: &Member| if member.directory { sizes[member.value as usize] } else { member.value };
    let fits = list.iter().take_while(|member| size(member) <= u32::MAX as u64);
    fits.map(|member| New { name: member.name.clone(), size: size(member) as u32, directory: member.directory }).collect()
}

/// The sizes from the last directory to the first, or the first entry that is refused.
fn sized(request: &Request, starts: &[usize]) -> Result<Vec<u64>, (u32, u32)> {
    let mut sizes = vec![0; request.directories.len()];
    for (d, list) in request.directories.iter().enumerate().rev() {
        let entries = entries(list, &sizes);
        let numbers = add_in_turn(&Job::of(entries.clone())).numbers;
        if let Some(i) = numbers.iter().position(|&number| number != 0) {
            return Err((numbers[i], (starts[d] + i) as u32));
        }
        if entries.len() < list.len() {
            return Err((10, (starts[d] + entries.len()) as u32));
        }
        sizes[d] = laid(&entries).2;
    }
    Ok(sizes)
}

/// The place of each directory's first entry in the row of all entries, and how many there are in all.
fn starts_of(request: &Request) -> Vec<usize> {
    let mut starts = vec![0];
    request.directories.iter().for_each(|list| starts.push(starts[starts.len() - 1] + list.len()));
    starts
}

/// Each table's sector, each entry's sector, and the next free one.
type Places = (Vec<u32>, Vec<u32>, u32);

/// The first directory whose table cannot be placed: whether links do not reach one of its entries, and whether sectors run out.
struct Unplaced {
    directory: u32,
    unreached: bool,
    run_out: bool,
}

fn placed(request: &Request, starts: &[usize], sizes: &[u64]) -> Result<Places, Unplaced> {
    let (mut tables, mut sectors) = (vec![33; sizes.len()], vec![0; starts[sizes.len()]]);
    let mut next = 33 + sectors_for(sizes[0]);
    for (d, list) in request.directories.iter().enumerate() {
        let entries = entries(list, sizes);
        let (order, at, _) = laid(&entries);
        for i in order {
            sectors[starts[d] + i] = next as u32;
            if list[i].directory {
                tables[list[i].value as usize] = next as u32;
            }
            next += sectors_for(stored(&entries[i]) as u64);
        }
        let (unreached, run_out) = (at.iter().any(|at| at / 4 > 65_535), next > u32::MAX as u64);
        if unreached || run_out {
            return Err(Unplaced { directory: d as u32, unreached, run_out });
        }
    }
    Ok((tables, sectors, next as u32))
}

pub fn plan(request: &Request) -> Planned {
    if !is_tree(request) {
        return Planned::Refused { number: 11, entry: None };
    }
    let starts = starts_of(request);
    let sizes = match sized(request, &starts) {
        Ok(sizes) => sizes,
        Err((number, entry)) => return Planned::Refused { number, entry: Some(entry) },
    };
    match placed(request, &starts, &sizes) {
        Ok((tables, sectors, next)) => {
            Planned::Done { sizes: sizes.iter().map(|&size| size as u32).collect(), tables, sectors, next: Some(next) }
        }
        Err(Unplaced { directory, unreached, .. }) => Planned::Refused { number: if unreached { 7 } else { 8 }, entry: Some(directory) },
    }
}

/// Whether a tree is refused for both at once: the table that links do not reach to its end (7) is the one with which sectors run out (8).
pub fn refused_twice(request: &Request) -> bool {
    let starts = starts_of(request);
    let sizes = sized(request, &starts);
    sizes.is_ok_and(|sizes| matches!(placed(request, &starts, &sizes), Err(Unplaced { unreached: true, run_out: true, .. })))
}
