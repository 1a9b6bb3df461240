//! Stands in for read/dirent_node.rs. It assumes that fourteen bytes are read first; that where they say no entry nothing else is read; and that
//! the name is read next, from the byte after them.
use maybe_async::maybe_async;

use super::DirectoryEntryReadError;
use crate::blockdev::BlockDeviceRead;
use crate::layout::DirectoryEntryNode;

impl DirectoryEntryNode {
    #[maybe_async]
    pub async fn read_from_disk<BDR: BlockDeviceRead + ?Sized>(
        dev: &mut BDR,
        offset: u64,
    ) -> Result<Option<Self>, DirectoryEntryReadError<BDR::ReadError>> {
        let mut header = [0; 0xe];
        dev.read(offset, &mut header).await.map_err(DirectoryEntryReadError::IOError)?;
        let node = Self::deserialize(&header, offset).map_err(|_| DirectoryEntryReadError::DeserializationFailed)?;
        let Some(mut node) = node else {
            return Ok(None);
        };
        let name = &mut node.name[..node.node.dirent.filename_length as usize];
        dev.read(offset + 0xe, name).await.map_err(DirectoryEntryReadError::IOError)?;
        Ok(Some(node))
    }
}
