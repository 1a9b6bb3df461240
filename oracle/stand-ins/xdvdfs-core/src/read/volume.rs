//! Stands in for read/volume.rs. It assumes that the descriptor is the 2,048 bytes of sector 32, and that it is none where a mark differs or a byte of
//! it is not on the device.
use maybe_async::maybe_async;

use crate::blockdev::BlockDeviceRead;
use crate::layout::VolumeDescriptor;

#[maybe_async]
pub async fn read_volume<BDR: BlockDeviceRead + ?Sized>(dev: &mut BDR) -> Option<VolumeDescriptor> {
    let mut sector = [0; 2048];
    dev.read(32 * 2048, &mut sector).await.ok()?;
    VolumeDescriptor::deserialize(&sector).ok().filter(|volume| volume.is_valid())
}
