//! An image file, mapped whole into memory, and the volume in it.
use crate::fault::Fault;
use memmap2::{Mmap, MmapOptions};
use serde::Serialize;
use std::fs::File;
use std::io::{Seek, SeekFrom};
use std::os::unix::fs::FileTypeExt;
use std::path::Path;
use xdvdfs_tables::{read_descriptor, Descriptor, Error, Stamp, Table, Window};

pub const SECTOR: u64 = 2048;
const DESCRIPTOR: u64 = 32 * SECTOR;

/// Where a game partition starts: the image is nothing else, or it is a copy of a whole disc of the first, second or third form.
const PARTITIONS: [Partition; 4] = [
    Partition { offset: 0, name: Some("XISO") },
    Partition { offset: 0x1830_0000, name: Some("XGD1") },
    Partition { offset: 0x0fd9_0000, name: Some("XGD2") },
    Partition { offset: 0x0208_0000, name: Some("XGD3") },
];

/// The byte of the image at which the game partition starts, and the name of the form that has it there.
#[derive(Clone, Copy, Debug, PartialEq, Eq, Serialize)]
pub struct Partition {
    pub offset: u64,
    pub name: Option<&'static str>,
}

/// The bytes of an image file.
pub struct Image {
    map: Option<Mmap>,
}

impl Image {
    pub fn open(path: &Path) -> Result<Image, Fault> {
        let unfit = |words: &dyn std::fmt::Display| Fault::Unfit(format!("{}: {words}", shown_path(path)));
        // asked before the file is opened: to open a pipe is to wait for its writer
        let kind = std::fs::metadata(path).map_err(|e| unfit(&e))?.file_type();
        if kind.is_dir() {
            return Err(unfit(&"is a directory, no image"));
        }
        if !kind.is_file() && !kind.is_block_device() {
            return Err(unfit(&"is neither a file nor a block device, and cannot be mapped"));
        }
        let mut file = File::open(path).map_err(|e| unfit(&e))?;
        let length = file.seek(SeekFrom::End(0)).map_err(|e| unfit(&e))?;
        let length = usize::try_from(length).map_err(|e| unfit(&e))?;
        if length == 0 {
            return Ok(Image { map: None });
        }
        // SAFETY: the map is read only and lives as long as the slices of it. That nobody shortens or changes the file meanwhile cannot be had from the
        // system; README says that this is outside the promise: the program may be ended by a signal, or answer out of both contents.
        #[allow(unsafe_code)]
        let map = unsafe { MmapOptions::new().len(length).map(&file) }.map_err(|e| unfit(&e))?;
        Ok(Image { map: Some(map) })
    }

    pub fn bytes(&self) -> &[u8] {
        self.map.as_deref().unwrap_or(&[])
    }
}

/// A volume: the window from the game partition's start on, whose first sector is 0, its root table and its stamp.
#[derive(Clone, Copy, Debug)]
pub struct Volume<'a> {
    pub window: Window<'a>,
    pub partition: Partition,
    pub root: Table,
    pub stamp: Stamp,
}

impl<'a> Volume<'a> {
    /// The volume at an offset, or else at the first of the known ones that has a descriptor.
    pub fn find(bytes: &'a [u8], offset: Option<u64>) -> Result<Volume<'a>, Error> {
        match offset {
            Some(offset) => {
                let name = PARTITIONS.iter().find(|p| p.offset == offset).and_then(|p| p.name);
                Volume::at(bytes, Partition { offset, name })
            }
            None => {
                let mut refused = Error::NoVolume;
                for partition in PARTITIONS {
                    match Volume::at(bytes, partition) {
                        Ok(volume) => return Ok(volume),
                        Err(e) => refused = e,
                    }
                }
                Err(refused)
            }
        }
    }

    fn at(bytes: &'a [u8], partition: Partition) -> Result<Volume<'a>, Error> {
        let bytes = from(bytes, partition.offset);
        let Descriptor { root, stamp } = read_descriptor(from(bytes, DESCRIPTOR))?;
        Ok(Volume { window: Window { bytes, first: 0 }, partition, root, stamp })
    }

    /// The byte of the image at which a sector starts.
    pub fn byte_of(&self, sector: u32) -> u64 {
        self.partition.offset.saturating_add(u64::from(sector) * SECTOR)
    }
}

/// What of the bytes lies from an offset on.
fn from(bytes: &[u8], offset: u64) -> &[u8] {
    usize::try_from(offset).ok().and_then(|offset| bytes.get(offset..)).unwrap_or(&[])
}

/// The volume of an image, or what is said where there is none.
pub fn open_volume<'a>(image: &'a Image, path: &Path, offset: Option<u64>) -> Result<Volume<'a>, Fault> {
    Volume::find(image.bytes(), offset).map_err(|error| {
        let name = shown_path(path);
        let what = match offset {
            Some(offset) => format!("{name}: at sector 32 from byte {offset:#x} on"),
            None => {
                let tried: Vec<String> = PARTITIONS.iter().map(|p| format!("{:#x}", p.offset)).collect();
                format!("{name}: at sector 32 from each of the bytes {} on", tried.join(", "))
            }
        };
        Fault::refused(what, error)
    })
}

pub fn shown_path(path: &Path) -> String {
    crate::text::shown(std::os::unix::ffi::OsStrExt::as_bytes(path.as_os_str()))
}

/// A table in JSON.
#[derive(Clone, Copy, Debug, Serialize)]
pub struct JsonTable {
    pub sector: u32,
    pub size: u32,
}

impl From<Table> for JsonTable {
    fn from(t: Table) -> JsonTable {
        JsonTable { sector: t.sector, size: t.size }
    }
}
