//! `limits`.
use crate::arguments::LimitsArguments;
use crate::fault::Fault;
use crate::image::{open_volume, shown_path, Image, Partition, Volume};
use crate::output::Printer;
use crate::text::{shown, shown_age, shown_date, JsonDate, JsonPath};
use serde::Serialize;
use std::os::unix::ffi::OsStrExt;
use std::time::SystemTime;
use xdvdfs_tables::{Error, Stamp};

/// Ages are strings of digits, as stamps are.
#[derive(Serialize)]
struct Answer {
    command: &'static str,
    image: String,
    partition: Partition,
    #[serde(flatten)]
    path: JsonPath,
    sector: u32,
    byte: u64,
    size: u32,
    #[serde(flatten)]
    made: JsonDate,
    age: String,
    greatest_age: String,
    time: JsonDate,
}

/// The answer is the library's to one call. Beside it the tool works out the byte of the file, and how old the volume is.
pub fn limits(a: &LimitsArguments, printer: &mut Printer) -> Result<u8, Fault> {
    let image = Image::open(&a.image.image)?;
    let volume = open_volume(&image, &a.image.image, a.image.offset)?;
    let time = a.now.map_or_else(by_the_clock, Ok)?;
    let loaded = volume.window.load_limits(a.path.as_bytes(), time, a.max_age);
    let limits = loaded.map_err(|error| Fault::refused(what_is_refused(a, &volume, time, error), error))?;
    let (byte, age) = (volume.byte_of(limits.sector), age_at(time, limits.stamp));
    if printer.json() {
        printer.object(&Answer {
            command: "limits",
            image: a.image.image.to_string_lossy().into_owned(),
            partition: volume.partition,
            path: JsonPath::of(a.path.as_bytes()),
            sector: limits.sector,
            byte,
            size: limits.size,
            made: JsonDate::of(limits.stamp),
            age: age.to_string(),
            greatest_age: greatest_age(a).to_string(),
            time: JsonDate::of(time),
        })?;
        return Ok(crate::DONE);
    }
    printer.line(format_args!("path     {}", shown(a.path.as_bytes())))?;
    printer.line(format_args!("sector   {}, byte {byte} of the file", limits.sector))?;
    printer.line(format_args!("size     {}", limits.size))?;
    printer.line(format_args!("date     {}", shown_date(limits.stamp)))?;
    printer.line(format_args!("age      {}, at most {}", shown_age(age), shown_age(greatest_age(a))))?;
    printer.line(format_args!("now      {}", shown_date(time)))?;
    Ok(crate::DONE)
}

fn by_the_clock() -> Result<Stamp, Fault> {
    let none = || Fault::Unfit("the machine's clock is at a time that no stamp has: --now gives another".to_owned());
    Stamp::from_system_time(SystemTime::now()).ok_or_else(none)
}

/// How old a volume is at a time, in units of 100 ns.
fn age_at(time: Stamp, stamp: Stamp) -> u64 {
    time.0.saturating_sub(stamp.0)
}

/// The greatest age in the same units, of which the command line takes no more than a stamp can count.
fn greatest_age(a: &LimitsArguments) -> u64 {
    a.max_age.as_secs().saturating_mul(10_000_000)
}

/// What a refusal is about: the image, with its date where that is why; or the path.
fn what_is_refused(a: &LimitsArguments, volume: &Volume, time: Stamp, error: Error) -> String {
    let (image, stamp) = (shown_path(&a.image.image), volume.stamp);
    match error {
        Error::NoVolume | Error::NoDate => image,
        Error::ClockBack => format!("{image}, of {stamp}, at {time}"),
        Error::TooOld => {
            let (old, most) = (shown_age(age_at(time, stamp)), shown_age(greatest_age(a)));
            format!("{image}, of {stamp}, is {old} old at {time}, and at most {most} is allowed")
        }
        _ => shown(a.path.as_bytes()),
    }
}
