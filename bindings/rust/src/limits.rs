//! The limits loader, for a rig that is to move only by limits that it has just found, with their date.
use crate::{sys, Error, Stamp, Window};
use std::time::Duration;

/// What the limits loader gives: a file's first sector and its size, and the stamp of its volume, which is never [`Stamp::NO_DATE`].
#[derive(Clone, Copy, Debug, PartialEq, Eq)]
pub struct Limits {
    pub sector: u32,
    pub size: u32,
    pub stamp: Stamp,
}

/// A greatest age as the library takes it, in units of 100 ns. What is dropped here changes no answer: the age that is compared with it, the time less the stamp, is a whole
/// number of units below 2^64. It is at most an age exactly where it is at most the whole units of that age, and it is at most every age of 2^64 - 1 units and more.
fn units_of(age: Duration) -> u64 {
    u64::try_from(age.as_nanos() / 100).unwrap_or(u64::MAX)
}

impl Window<'_> {
    /// Loads a file's limits: finds the file by its path and answers with its sector, its size and the stamp of its volume, where the volume's date allows it at a time and by a
    /// greatest age. The volume descriptor is read at sector 32 of the image, wherever the window starts, and the path is followed from the root directory under
    /// [`Rule::Two`](crate::Rule::Two), as [`Window::find_path`] does it.
    ///
    /// It accepts exactly where both marks of the descriptor stand, the stamp is not 0, the time is not before the stamp, the time less the stamp is at most the greatest age,
    /// and the path finds a file, which is an entry that is no directory. A greatest age of 0 accepts only a time that is the stamp. The time is believed, and whether the window
    /// has the bytes of the file itself is not looked at.
    ///
    /// The refusals, in their order: [`Error::NoVolume`], also where the window starts past sector 32; [`Error::NoDate`], [`Error::ClockBack`], [`Error::TooOld`]; then the
    /// path's, [`Error::BadByteSought`], [`Error::NoDirent`], and part by part [`Error::DirectoryEmpty`], [`Error::DoesNotExist`], [`Error::OutOfBounds`],
    /// [`Error::Truncated`], [`Error::Looped`], [`Error::IsNotDirectory`]; then [`Error::NotAFile`]. A refusal carries its number alone: no offset, no count of headers.
    ///
    /// Sector, size and stamp come together or not at all: where a file stands does not say how old it is, and a date alone says nothing of the file. So the call has no form that
    /// gives one of the three, and none without a time and a greatest age. ([`Window::find_path`] and [`read_descriptor`](crate::read_descriptor) still answer each by itself:
    /// what loads limits calls neither.) [`Stamp::from_system_time`] gives the time of a clock.
    pub fn load_limits(&self, path: &[u8], time: Stamp, greatest_age: Duration) -> Result<Limits, Error> {
        let (mut sector, mut size, mut stamp) = (0, 0, 0);
        let n = unsafe {
            sys::xdvdfs_load_limits(
                self.bytes.as_ptr(),
                self.bytes.len(),
                self.first,
                path.as_ptr(),
                path.len(),
                time.0,
                units_of(greatest_age),
                &mut sector,
                &mut size,
                &mut stamp,
            )
        };
        match n {
            0 => Ok(Limits { sector, size, stamp: Stamp(stamp) }),
            n => Err(Error::loading(n)),
        }
    }
}
