//! BAR0 of a device, mapped.

use std::io;
use std::num::NonZeroUsize;
use std::os::fd::BorrowedFd;
use std::ptr::NonNull;
use std::sync::atomic::{fence, Ordering};

use nix::sys::mman::{mmap, munmap, MapFlags, ProtFlags};

use crate::drive::nvme::Access;
use crate::drive::DriveError;

/// BAR0: its registers and doorbells, by volatile accesses of 32 bits.
#[derive(Debug)]
pub struct Bar {
    at: NonNull<u8>,
    bytes: u32,
}

// SAFETY: the mapping belongs to this value alone, and any thread may access it.
unsafe impl Send for Bar {}

impl Bar {
    /// Maps `bytes` bytes of a device's file from `offset` on; not 0, and at least 4.
    pub fn map(device: BorrowedFd<'_>, offset: u64, bytes: u32) -> io::Result<Self> {
        let length = NonZeroUsize::new(bytes as usize)
            .filter(|_| bytes >= 4)
            .ok_or(io::ErrorKind::InvalidInput)?;
        let offset = i64::try_from(offset).map_err(|_| io::ErrorKind::InvalidInput)?;
        let protection = ProtFlags::PROT_READ | ProtFlags::PROT_WRITE;
        // SAFETY: the kernel chooses the place, so that nothing else is mapped over.
        let at = unsafe { mmap(None, length, protection, MapFlags::MAP_SHARED, device, offset) }?;
        Ok(Self { at: at.cast(), bytes })
    }

    fn register(&self, offset: u32) -> Result<NonNull<u32>, DriveError> {
        if offset % 4 != 0 || offset > self.bytes - 4 {
            return Err(DriveError::Failed(format!("BAR0 has no dword at {offset:#x}")));
        }
        // SAFETY: the four bytes from `offset` on are in the mapping, which begins at a page.
        Ok(unsafe { self.at.add(offset as usize) }.cast())
    }
}

impl Drop for Bar {
    fn drop(&mut self) {
        // SAFETY: the mapping was made with this place and length, and nobody uses it any more.
        let _ = unsafe { munmap(self.at.cast(), self.bytes as usize) };
    }
}

impl Access for Bar {
    fn bytes(&self) -> u32 {
        self.bytes
    }

    fn read(&mut self, offset: u32) -> Result<u32, DriveError> {
        let at = self.register(offset)?;
        // SAFETY: it is an aligned dword of the mapping. The device may change it at any time, so the access is volatile.
        Ok(u32::from_le(unsafe { at.as_ptr().read_volatile() }))
    }

    fn poll(&mut self, offset: u32) -> Result<Option<u32>, DriveError> {
        self.read(offset).map(Some)
    }

    fn write(&mut self, offset: u32, value: u32) -> Result<(), DriveError> {
        let at = self.register(offset)?;
        fence(Ordering::SeqCst);
        // SAFETY: it is an aligned dword of the mapping.
        unsafe { at.as_ptr().write_volatile(value.to_le()) };
        Ok(())
    }
}

#[cfg(test)]
mod tests {
    use super::*;
    use std::fs::File;
    use std::os::fd::AsFd;
    use std::os::unix::fs::FileExt;

    use nix::sys::memfd::{memfd_create, MemFdCreateFlag};

    /// A file plays the device: no access lies outside of the bytes that were mapped.
    #[test]
    fn what_is_no_dword_of_the_bar_is_refused() {
        let file = File::from(memfd_create(c"bar", MemFdCreateFlag::MFD_CLOEXEC).unwrap());
        file.set_len(0x3000).unwrap();
        let mut bar = Bar::map(file.as_fd(), 0x1000, 0x1000).unwrap();
        for offset in [1, 2, 0xffd, 0xffe, 0x1000, u32::MAX - 3, u32::MAX] {
            let words = format!("BAR0 has no dword at {offset:#x}");
            assert_eq!(bar.read(offset).unwrap_err().to_string(), words);
            assert_eq!(bar.poll(offset).unwrap_err().to_string(), words);
            assert_eq!(bar.write(offset, 7).unwrap_err().to_string(), words);
        }
        bar.write(0, 0x0403_0201).unwrap();
        bar.write(0xffc, 0x0807_0605).unwrap();
        let mut bytes = [0; 0x3000];
        file.read_exact_at(&mut bytes, 0).unwrap();
        assert_eq!(
            (&bytes[0x1000..0x1004], &bytes[0x1ffc..0x2000]),
            (&[1, 2, 3, 4][..], &[5, 6, 7, 8][..])
        );
        assert_eq!(bytes.iter().filter(|byte| **byte != 0).count(), 8);
        assert_eq!(bar.read(0xffc).unwrap(), 0x0807_0605);
    }
}
