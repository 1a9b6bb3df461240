//! Stands in for blockdev/. It assumes that a read either fills the whole buffer or fails, that it fails exactly where a byte of it is not on the
//! device, and that a device holds bytes from its first sector on and nothing else.
use alloc::vec::Vec;

pub trait BlockDeviceRead {
    type ReadError: core::fmt::Debug;

    fn read(&mut self, offset: u64, buffer: &mut [u8]) -> Result<(), Self::ReadError>;
}

pub trait BlockDeviceWrite {
    type WriteError: core::fmt::Debug;

    fn write(&mut self, offset: u64, buffer: &[u8]) -> Result<(), Self::WriteError>;
    fn len(&mut self) -> Result<u64, Self::WriteError>;
}

/// A byte that was to be read is not in the window.
#[derive(Debug, Copy, Clone, PartialEq, Eq)]
pub struct Cut;

/// A window: bytes, and the number of the sector that they start with.
pub struct Window<'a> {
    pub bytes: &'a [u8],
    pub first: u32,
}

impl BlockDeviceRead for Window<'_> {
    type ReadError = Cut;

    #[inline]
    fn read(&mut self, offset: u64, buffer: &mut [u8]) -> Result<(), Cut> {
        let from = offset.checked_sub(2048 * self.first as u64).ok_or(Cut)?;
        let from = usize::try_from(from).map_err(|_| Cut)?;
        let to = from.checked_add(buffer.len()).ok_or(Cut)?;
        buffer.copy_from_slice(self.bytes.get(from..to).ok_or(Cut)?);
        Ok(())
    }
}

/// A device in memory, which grows with zeros.
#[derive(Default)]
pub struct Memory(pub Vec<u8>);

impl BlockDeviceWrite for Memory {
    type WriteError = core::convert::Infallible;

    fn write(&mut self, offset: u64, buffer: &[u8]) -> Result<(), Self::WriteError> {
        let from = offset as usize;
        let to = from + buffer.len();
        if self.0.len() < to {
            self.0.resize(to, 0);
        }
        self.0[from..to].copy_from_slice(buffer);
        Ok(())
    }

    fn len(&mut self) -> Result<u64, Self::WriteError> {
        Ok(self.0.len() as u64)
    }
}
