//! `info`.
use crate::arguments::InfoArguments;
use crate::fault::Fault;
use crate::image::{open_volume, shown_path, Image, JsonTable, Partition, SECTOR};
use crate::output::Printer;
use crate::text::{shown_date, JsonDate};
use serde::Serialize;

#[derive(Serialize)]
struct Answer {
    command: &'static str,
    image: String,
    length: u64,
    partition: Partition,
    sectors: u64,
    root: JsonTable,
    #[serde(flatten)]
    made: JsonDate,
}

pub fn info(a: &InfoArguments, printer: &mut Printer) -> Result<u8, Fault> {
    let path = &a.image.image;
    let image = Image::open(path)?;
    let volume = open_volume(&image, path, a.image.offset)?;
    let (length, sectors) = (image.bytes().len() as u64, volume.window.bytes.len() as u64 / SECTOR);
    let partition = volume.partition;
    if printer.json() {
        printer.object(&Answer {
            command: "info",
            image: path.to_string_lossy().into_owned(),
            length,
            partition,
            sectors,
            root: volume.root.into(),
            made: JsonDate::of(volume.stamp),
        })?;
        return Ok(crate::DONE);
    }
    printer.line(format_args!("image      {}, {length} bytes", shown_path(path)))?;
    let name = partition.name.map_or(String::new(), |name| format!(" ({name})"));
    printer.line(format_args!("partition  from byte {:#x} on{name}, {sectors} sectors", partition.offset))?;
    printer.line(format_args!("root       sector {}, {} bytes", volume.root.sector, volume.root.size))?;
    printer.line(format_args!("date       {}", shown_date(volume.stamp)))?;
    Ok(crate::DONE)
}
