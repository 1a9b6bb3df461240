//! `ls`.
use crate::arguments::LsArguments;
use crate::fault::Fault;
use crate::image::{open_volume, Image, JsonTable, Partition};
use crate::output::{width, Colour, Printer};
use crate::place::{directory, Spelled};
use crate::text::{shown, JsonName, JsonPath};
use serde::Serialize;
use std::os::unix::ffi::OsStrExt;
use xdvdfs_tables::{Entry, Error, Header, Table, Window};

/// An entry with its offset in its table.
#[derive(Clone, Copy, Debug)]
pub struct Listed<'a> {
    pub offset: u32,
    pub entry: Entry<'a>,
}

#[derive(Debug, Serialize)]
pub struct JsonEntry {
    #[serde(flatten)]
    pub name: JsonName,
    pub kind: &'static str,
    pub sector: u32,
    pub size: u32,
    pub offset: u32,
    pub attributes: u8,
}

impl From<Listed<'_>> for JsonEntry {
    fn from(l: Listed) -> JsonEntry {
        let h = l.entry.header;
        JsonEntry {
            name: JsonName::of(l.entry.name),
            kind: kind(h),
            sector: h.sector,
            size: h.size,
            offset: l.offset,
            attributes: h.attributes,
        }
    }
}

pub fn kind(header: Header) -> &'static str {
    if header.is_directory() {
        "directory"
    } else {
        "file"
    }
}

/// The entries at offsets that a walk listed.
pub fn entries_at<'a>(window: Window<'a>, table: Table, offsets: &[u32]) -> Result<Vec<Listed<'a>>, Error> {
    let mut entries = Vec::with_capacity(offsets.len());
    for &offset in offsets {
        if let Some(entry) = window.read_entry(table, offset)? {
            entries.push(Listed { offset, entry });
        }
    }
    Ok(entries)
}

/// The entries of a table in walk order. The list has a place for every offset of the table at which an entry can start.
fn entries_of<'a>(window: Window<'a>, path: &Spelled, table: Table) -> Result<Vec<Listed<'a>>, Fault> {
    let most = table.most_entries();
    let (mut list, mut scratch) = (vec![0; most], vec![0; most + 1]);
    let count = window.walk(table, &mut list, &mut scratch).map_err(|error| match error {
        Error::WalkFull => Fault::refused(format!("{}: an entry is reached more than once, and the walk is given up", path.shown()), error),
        _ => Fault::refused(path.shown(), error),
    })?;
    list.truncate(count);
    entries_at(window, table, &list).map_err(|error| Fault::refused(path.shown(), error))
}

pub fn ls(a: &LsArguments, printer: &mut Printer) -> Result<u8, Fault> {
    let image = Image::open(&a.image.image)?;
    let volume = open_volume(&image, &a.image.image, a.image.offset)?;
    let sought = a.path.as_ref().map_or(&b""[..], |p| p.as_bytes());
    let (path, table) = directory(&volume, sought, a.rule.rule)?;
    let entries = entries_of(volume.window, &path, table)?;
    if printer.json() {
        #[derive(Serialize)]
        struct Answer {
            command: &'static str,
            image: String,
            partition: Partition,
            #[serde(flatten)]
            path: JsonPath,
            table: JsonTable,
            entries: Vec<JsonEntry>,
        }
        let entries = entries.into_iter().map(JsonEntry::from).collect();
        let (image, path) = (a.image.image.to_string_lossy().into_owned(), JsonPath::of(path.bytes()));
        printer.object(&Answer { command: "ls", image, partition: volume.partition, path, table: table.into(), entries })?;
    } else if a.long {
        print_long(&entries, printer)?;
    } else {
        for l in &entries {
            printer.line(shown_entry(l.entry, printer))?;
        }
    }
    Ok(crate::DONE)
}

/// A name, with a slash behind a directory's.
fn shown_entry(entry: Entry, printer: &Printer) -> String {
    let name = shown(entry.name);
    if entry.header.is_directory() {
        printer.coloured(Colour::Directory, &format!("{name}/"))
    } else {
        name
    }
}

fn print_long(entries: &[Listed], printer: &mut Printer) -> Result<(), Fault> {
    let widest = |title: &str, value: fn(&Listed) -> u32| title.len().max(entries.iter().map(|l| width(value(l))).max().unwrap_or(0));
    let (sector, size) = (widest("sector", |l| l.entry.header.sector), widest("size", |l| l.entry.header.size));
    let offset = widest("offset", |l| l.offset);
    if !entries.is_empty() {
        let title = format!("{:<9}  {:>sector$}  {:>size$}  {:>offset$}  name", "kind", "sector", "size", "offset");
        printer.line(printer.coloured(Colour::Faint, &title))?;
    }
    for l in entries {
        let h = l.entry.header;
        let name = shown_entry(l.entry, printer);
        printer.line(format_args!("{:<9}  {:>sector$}  {:>size$}  {:>offset$}  {name}", kind(h), h.sector, h.size, l.offset))?;
    }
    Ok(())
}
