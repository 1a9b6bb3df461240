//! `plan` and `table`.
use crate::arguments::{PlanArguments, SourceArguments, TableArguments};
use crate::fault::Fault;
use crate::image::{shown_path, SECTOR};
use crate::manifest::{read_folder, read_manifest, Held, Tree};
use crate::output::{Colour, Printer};
use crate::place::Spelled;
use crate::text::{shown, JsonPath};
use serde::Serialize;
use std::os::unix::ffi::OsStrExt;
use std::path::Path;
use xdvdfs_tables::{plan, required_sectors, write_table, Error, Kind, NewEntry, Plan, PlanEntry};

fn read_source(a: &SourceArguments) -> Result<Tree, Fault> {
    match (&a.manifest, &a.dir) {
        (Some(manifest), None) => read_manifest(manifest),
        (None, Some(folder)) => read_folder(folder),
        _ => Err(Fault::Usage("a manifest or --dir FOLDER is wanted, and not both".to_owned())),
    }
}

/// The library's plan of a tree; a refusal names the path that it is about.
fn planned(tree: &Tree) -> Result<Plan, Fault> {
    let entries: Vec<Vec<PlanEntry>> =
        tree.folders.iter().map(|f| f.members.iter().map(|m| PlanEntry { name: &m.name, content: m.held.content() }).collect()).collect();
    let directories: Vec<&[PlanEntry]> = entries.iter().map(Vec::as_slice).collect();
    plan(&directories).map_err(|error| refused(tree, error))
}

/// The refusal with the path in place of the numbers of entry or directory.
fn refused(tree: &Tree, error: Error) -> Fault {
    let entry = |place: u32| {
        let mut members = tree.folders.iter().flat_map(|f| f.members.iter().map(|m| f.path.join(&m.name)));
        members.nth(place as usize).map_or(format!("entry {place}"), |path| path.shown())
    };
    let directory = |place: u32| tree.folders.get(place as usize).map_or(format!("directory {place}"), |f| f.path.shown());
    let (what, error) = match error {
        Error::EmptyName { entry: Some(e) } => (entry(e), Error::EmptyName { entry: None }),
        Error::BadByte { entry: Some(e) } => (entry(e), Error::BadByte { entry: None }),
        Error::NameTooLong { entry: Some(e) } => (entry(e), Error::NameTooLong { entry: None }),
        Error::DuplicateFileName { entry: Some(e) } => (entry(e), Error::DuplicateFileName { entry: None }),
        Error::SizeOverflow { entry: Some(e) } => (entry(e), Error::SizeOverflow { entry: None }),
        Error::Full { entry: Some(e) } => (entry(e), Error::Full { entry: None }),
        Error::FileTooLarge { entry: Some(e) } => (entry(e), Error::FileTooLarge { entry: None }),
        Error::TooManyDirectoryEntries { directory: Some(d) } => (directory(d), Error::TooManyDirectoryEntries { directory: None }),
        Error::SectorOverflow { directory: Some(d) } => (directory(d), Error::SectorOverflow { directory: None }),
        other => ("the plan".to_owned(), other),
    };
    Fault::refused(what, error)
}

/// A directory's table or a file in a plan.
struct Placed {
    path: Spelled,
    is_directory: bool,
    sector: u32,
    sectors: u64,
    size: u32,
}

/// The tables, in the tree's order, and the files.
fn placed(tree: &Tree, plan: &Plan) -> (Vec<Placed>, Vec<Placed>) {
    let place =
        |path, is_directory, sector, size: u32| Placed { path, is_directory, sector, sectors: required_sectors(u64::from(size)), size };
    let tables = tree.folders.iter().zip(&plan.tables).map(|(f, t)| place(f.path.clone(), true, t.sector, t.size)).collect();
    let members = tree.folders.iter().flat_map(|f| f.members.iter().map(move |m| (f, m)));
    let files = members.zip(&plan.sectors).filter_map(|((f, m), &sector)| match m.held {
        // a plan has no file that is longer
        Held::File(length) => Some(place(f.path.join(&m.name), false, sector, u32::try_from(length).unwrap_or(u32::MAX))),
        Held::Directory(_) => None,
    });
    (tables, files.collect())
}

#[derive(Serialize)]
struct JsonPlaced {
    #[serde(flatten)]
    path: JsonPath,
    sector: u32,
    sectors: u64,
    size: u32,
}

impl From<Placed> for JsonPlaced {
    fn from(p: Placed) -> JsonPlaced {
        JsonPlaced { path: JsonPath::of(p.path.bytes()), sector: p.sector, sectors: p.sectors, size: p.size }
    }
}

pub fn plan_image(a: &PlanArguments, printer: &mut Printer) -> Result<u8, Fault> {
    let tree = read_source(&a.source)?;
    let plan = planned(&tree)?;
    let (tables, files) = placed(&tree, &plan);
    let bytes = u64::from(plan.next_free) * SECTOR;
    if printer.json() {
        #[derive(Serialize)]
        struct Answer {
            command: &'static str,
            directories: Vec<JsonPlaced>,
            files: Vec<JsonPlaced>,
            next_free: u32,
            bytes: u64,
        }
        let (directories, files) = (tables.into_iter().map(JsonPlaced::from).collect(), files.into_iter().map(JsonPlaced::from).collect());
        printer.object(&Answer { command: "plan", directories, files, next_free: plan.next_free, bytes })?;
        return Ok(crate::DONE);
    }
    let mut all: Vec<Placed> = tables.into_iter().chain(files).collect();
    all.sort_by_key(|p| p.sector);
    let widest =
        |title: &str, value: fn(&Placed) -> u64| title.len().max(all.iter().map(|p| value(p).to_string().len()).max().unwrap_or(0));
    let (sector, sectors) = (widest("sector", |p| u64::from(p.sector)), widest("sectors", |p| p.sectors));
    let size = widest("size", |p| u64::from(p.size));
    let title = format!("{:<9}  {:>sector$}  {:>sectors$}  {:>size$}  path", "kind", "sector", "sectors", "size");
    printer.line(printer.coloured(Colour::Faint, &title))?;
    for p in &all {
        let (kind, path) = match p.is_directory {
            true => ("directory", printer.coloured(Colour::Directory, &p.path.shown())),
            false => ("file", p.path.shown()),
        };
        printer.line(format_args!("{kind:<9}  {:>sector$}  {:>sectors$}  {:>size$}  {path}", p.sector, p.sectors, p.size))?;
    }
    printer.line(format_args!("next free sector {}, an image of {bytes} bytes", plan.next_free))?;
    Ok(crate::DONE)
}

pub fn write_one(a: &TableArguments, printer: &mut Printer) -> Result<u8, Fault> {
    let output = a.output.as_deref().filter(|o| *o != Path::new("-"));
    if output.is_none() && printer.json() {
        return Err(Fault::Usage("table --json needs -o FILE: the bytes would stand beside the JSON".to_owned()));
    }
    if output.is_none() && printer.screen().out {
        return Err(Fault::Usage("the bytes of a table are not for a terminal: give -o FILE, or send them to a program".to_owned()));
    }
    let tree = read_source(&a.source)?;
    let path = a.path.as_ref().map_or(&b""[..], |p| p.as_bytes());
    let Some(at) = tree.find(path) else {
        return Err(Fault::Unfit(format!("{}: no such directory is in the plan", shown(path))));
    };
    let plan = planned(&tree)?;
    let (first, bytes) = table_bytes(&tree, &plan, at)?;
    match output {
        None => printer.bytes(&bytes)?,
        Some(file) => std::fs::write(file, &bytes).map_err(|e| Fault::Unfit(format!("{}: {e}", shown_path(file))))?,
    }
    if printer.json() {
        #[derive(Serialize)]
        struct Answer {
            command: &'static str,
            #[serde(flatten)]
            path: JsonPath,
            sector: u32,
            size: u32,
            bytes: usize,
            first: Option<u32>,
            output: Option<String>,
        }
        let (table, path) = (plan.tables[at], JsonPath::of(tree.folders[at].path.bytes()));
        let output = output.map(|o| o.to_string_lossy().into_owned());
        printer.object(&Answer { command: "table", path, sector: table.sector, size: table.size, bytes: bytes.len(), first, output })?;
    }
    Ok(crate::DONE)
}

/// The bytes of a directory's table as the plan has it, and the sector of the first of its entries: the least that the plan gives one of them.
fn table_bytes(tree: &Tree, plan: &Plan, at: usize) -> Result<(Option<u32>, Vec<u8>), Fault> {
    let before: usize = tree.folders.iter().take(at).map(|f| f.members.len()).sum();
    let folder = &tree.folders[at];
    let entries: Vec<NewEntry> = folder
        .members
        .iter()
        .map(|m| match m.held {
            Held::File(length) => NewEntry { name: &m.name, kind: Kind::File, size: u32::try_from(length).unwrap_or(u32::MAX) },
            Held::Directory(place) => NewEntry { name: &m.name, kind: Kind::Directory, size: plan.tables[place].size },
        })
        .collect();
    let first = plan.sectors.iter().skip(before).take(entries.len()).min().copied();
    // a table without entries takes no sector, whichever is the first
    let (bytes, _) = write_table(&entries, first.unwrap_or(0)).map_err(|error| Fault::refused(folder.path.shown(), error))?;
    Ok((first, bytes))
}
