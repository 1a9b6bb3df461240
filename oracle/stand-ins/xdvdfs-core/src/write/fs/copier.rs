//! Stands in for write/fs/copier.rs. It assumes that copying a file in changes the image alone.
use super::PathRef;
use crate::blockdev::BlockDeviceWrite;
use maybe_async::maybe_async;

pub trait FilesystemCopier<BDW: BlockDeviceWrite + ?Sized> {
    type Error: core::fmt::Debug;

    #[maybe_async]
    async fn copy_file_in(
        &mut self,
        path: PathRef<'_>,
        to: &mut BDW,
        from_offset: u64,
        to_offset: u64,
        size: u64,
    ) -> Result<u64, Self::Error>;
}
