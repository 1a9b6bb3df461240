//! `find`.
use crate::arguments::FindArguments;
use crate::fault::Fault;
use crate::image::{open_volume, Image, JsonTable, Partition};
use crate::listing::{kind, JsonEntry, Listed};
use crate::output::{Colour, Printer};
use crate::place::follow;
use crate::text::{counted, rule_name, shown, JsonName, JsonPath};
use serde::Serialize;
use std::os::unix::ffi::OsStrExt;

#[derive(Serialize)]
struct JsonStep {
    #[serde(flatten)]
    name: JsonName,
    table: JsonTable,
    offset: u32,
    headers: u32,
}

#[derive(Serialize)]
struct Answer {
    command: &'static str,
    image: String,
    partition: Partition,
    #[serde(flatten)]
    path: JsonPath,
    rule: u32,
    entry: JsonEntry,
    byte: u64,
    headers: u32,
    steps: Vec<JsonStep>,
}

pub fn find(a: &FindArguments, printer: &mut Printer) -> Result<u8, Fault> {
    let image = Image::open(&a.image.image)?;
    let volume = open_volume(&image, &a.image.image, a.image.offset)?;
    let sought = a.path.as_bytes();
    let rule = a.rule.rule;
    let followed = follow(&volume, sought, rule)?;
    let Some(last) = followed.steps.last() else {
        return Err(Fault::Unfit(format!("{}: the path has no part", shown(sought))));
    };
    let (entry, byte) = (followed.entry, volume.byte_of(followed.entry.header.sector));
    if printer.json() {
        let steps = followed.steps.iter().map(|s| JsonStep {
            name: JsonName::of(s.found.entry.name),
            table: s.table.into(),
            offset: s.found.offset,
            headers: s.found.headers,
        });
        printer.object(&Answer {
            command: "find",
            image: a.image.image.to_string_lossy().into_owned(),
            partition: volume.partition,
            path: JsonPath::of(followed.path.bytes()),
            rule: rule.number(),
            entry: Listed { offset: last.found.offset, entry }.into(),
            byte,
            headers: last.found.headers,
            steps: steps.collect(),
        })?;
        return Ok(crate::DONE);
    }
    let path = match entry.header.is_directory() {
        true => printer.coloured(Colour::Directory, &format!("{}/", followed.path.shown())),
        false => followed.path.shown(),
    };
    printer.line(format_args!("path     {path}"))?;
    printer.line(format_args!("kind     {}", kind(entry.header)))?;
    printer.line(format_args!("sector   {}, byte {byte} of the file", entry.header.sector))?;
    printer.line(format_args!("size     {}", entry.header.size))?;
    printer.line(format_args!("offset   {} in the table at sector {}", last.found.offset, last.table.sector))?;
    let (read, under) = (counted(last.found.headers.into(), "header", "headers"), rule_name(rule));
    if followed.steps.len() == 1 {
        printer.line(format_args!("lookup   {read} read, under {under}"))?;
    } else {
        let all: Vec<String> = followed.steps.iter().map(|s| s.found.headers.to_string()).collect();
        printer.line(format_args!("lookup   {read} read in that table, {} along the path, under {under}", all.join(" + ")))?;
    }
    Ok(crate::DONE)
}
