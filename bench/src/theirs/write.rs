//! Tables written by the Rust. A panic is read as the scope's added refusal, by the file in which it arises: dirtab.rs rounds a directory's size (5), sector.rs counts sectors (8).
use crate::{Job, Wrote};
use std::cell::RefCell;
use std::panic::{catch_unwind, set_hook, AssertUnwindSafe};
use xdvdfs::layout::NameEncodingError;
use xdvdfs::write::dirtab::{AvlDirectoryEntryTableBuilder, DirtabWriterBuffers};
use xdvdfs::write::sector::SectorAllocator;
use xdvdfs::write::FileStructureError as E;

thread_local! {
    static LAST: RefCell<String> = const { RefCell::new(String::new()) };
}

/// Panics are kept for `heard` in place of being printed. To be called once, before all else.
pub fn hear_panics() {
    set_hook(Box::new(|info| {
        let file = info.location().map_or("", |at| at.file()).to_string();
        LAST.with(|last| *last.borrow_mut() = format!("{} {info}", file.rsplit('/').next().unwrap_or("")));
    }));
}

/// What a call answered, or the file in which it panicked and what was said.
pub type Heard<T> = Result<T, String>;

pub fn heard<T>(work: impl FnOnce() -> T) -> Heard<T> {
    catch_unwind(AssertUnwindSafe(work)).map_err(|_| LAST.with(|last| last.borrow().clone()))
}

/// The sector counter at a given sector; the Rust's own starts at 33 and can only be moved on.
pub fn counter_at(first: u32) -> SectorAllocator {
    let mut sectors = SectorAllocator::default();
    if first > 33 {
        sectors.allocate_contiguous(2048 * (first as u64 - 33));
    }
    sectors
}

/// The next free sector. Asked for by taking one, which panics exactly where the counter stands at the last number.
pub fn next_free(sectors: &mut SectorAllocator) -> u32 {
    heard(|| sectors.allocate_contiguous(0)).unwrap_or(u32::MAX)
}

/// Of each entry of a job its number when it is added in turn, a refused one left out, and the table of those that were taken. An entry that is not to be
/// asked for (`asked`) is not given to the Rust, and has no number.
pub fn add_in_turn(job: &Job, asked: &[bool]) -> (Vec<Option<u32>>, Wrote) {
    let mut builder = AvlDirectoryEntryTableBuilder::default();
    let mut numbers = Vec::new();
    for (new, &asked) in job.list.iter().zip(asked) {
        if !asked {
            numbers.push(None);
            continue;
        }
        let name = std::str::from_utf8(&new.name).expect("an ASCII name");
        let answer = heard(|| if new.directory { builder.add_dir(name, new.size, 0) } else { builder.add_file(name, new.size) });
        numbers.push(Some(match answer {
            Ok(Ok(())) => 0,
            Ok(Err(E::DuplicateFileName)) => 4,
            Ok(Err(E::FileNameError(NameEncodingError::NameTooLong))) => 3,
            Ok(Err(other)) => panic!("an answer that docs/SCOPE.md does not know: {other:?}"),
            Err(said) => {
                assert!(said.starts_with("dirtab.rs ") && said.contains("overflow"), "a panic that docs/SCOPE.md does not know: {said}");
                5
            }
        }));
    }
    let mut writer = builder.build().expect("names that were taken");
    let (mut sectors, mut buffers) = (counter_at(job.first), DirtabWriterBuffers::default());
    let end = match heard(|| writer.disk_repr(&mut sectors, &mut buffers)) {
        Ok(Ok(())) => Wrote::Done { size: writer.dirtab_size(), next: next_free(&mut sectors), bytes: buffers.dirtab_bytes },
        Ok(Err(E::TooManyDirectoryEntries)) => Wrote::Refused { number: 7, entry: None },
        Ok(Err(other)) => panic!("an answer that docs/SCOPE.md does not know: {other:?}"),
        Err(said) => {
            assert!(said.starts_with("sector.rs ") && said.contains("overflow"), "a panic that docs/SCOPE.md does not know: {said}");
            Wrote::Refused { number: 8, entry: None }
        }
    };
    (numbers, end)
}

/// A whole list written as a table, as the Rust's own image writer does it: room for the entries reserved, the buffers used again from call to call. The
/// i-th entry is a file of i bytes. Its size and the next free sector; the bytes are in the buffers.
#[inline]
pub fn write_list(names: &[String], buffers: &mut DirtabWriterBuffers) -> Option<(u32, u32)> {
    let mut builder = AvlDirectoryEntryTableBuilder::default();
    builder.reserve(names.len());
    for (i, name) in names.iter().enumerate() {
        builder.add_file(name, i as u32).ok()?;
    }
    let mut writer = builder.build().ok()?;
    let mut sectors = SectorAllocator::default();
    writer.disk_repr(&mut sectors, buffers).ok()?;
    Some((writer.dirtab_size(), sectors.allocate_contiguous(0)))
}
