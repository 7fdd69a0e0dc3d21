#![allow(unsafe_code)]
//! Linux's side of a namespace: requests of its devices (`linux/nvme_ioctl.h`), and its passthrough commands by io_uring.

use std::fs::File;
use std::io::{self, Seek, SeekFrom};
use std::os::fd::{AsFd, AsRawFd, BorrowedFd, RawFd};
use std::sync::Arc;
use std::time::Duration;

use io_uring::{cqueue, opcode, squeue, types};
use libc::{c_int, c_ulong};
use nix::fcntl::Flock;
use vmm_sys_util::ioctl::{ioctl, ioctl_with_mut_ref};

use super::request::{Data, NamespaceRing, Work, STRUCT_BYTES};
use crate::drive::entry::BLOCK_BYTES;
use crate::drive::nvme::bytes::put;
use crate::drive::nvme::identify::PAGE_BYTES;
use crate::drive::ring::Ring;
use crate::drive::uring::{Lasting, Uring, Vector};
use crate::drive::DriveError;

/// How long a command may take, before the kernel aborts it; after as long again it resets the controller.
pub const COMMAND_WAIT: Duration = Duration::from_secs(10);

/// The number of a request with the type `N`: without an argument, or with a struct of 72 bytes that is read and written.
const fn request(number: u32, has_struct: bool) -> u32 {
    let argument = if has_struct {
        3 << 30 | (STRUCT_BYTES as u32) << 16
    } else {
        0
    };
    argument | (b'N' as u32) << 8 | number
}
const NVME_IOCTL_ID: u32 = request(0x40, false);
const NVME_IOCTL_ADMIN_CMD: u32 = request(0x41, true);
const NVME_URING_CMD_IO_VEC: u32 = request(0x81, true);

/// Opcode of Identify.
const IDENTIFY: u8 = 0x06;

/// A page of data, aligned so that the kernel need not copy it.
#[repr(C, align(4096))]
struct Page([u8; PAGE_BYTES]);

/// `struct nvme_passthru_cmd`.
#[repr(C, align(8))]
struct Passthrough([u8; STRUCT_BYTES]);

fn good(result: c_int) -> io::Result<u32> {
    u32::try_from(result).map_err(|_| io::Error::last_os_error())
}

/// The identifier of the namespace whose character or block device this is.
///
/// # Errors
///
/// It is no device of a namespace.
pub fn namespace_of(device: BorrowedFd<'_>) -> io::Result<u32> {
    // SAFETY: the request has no argument.
    good(unsafe { ioctl(&device, c_ulong::from(NVME_IOCTL_ID)) })
}

/// Identify with this CNS for this namespace, and its status: the page is valid where that is 0. It waits.
///
/// # Errors
///
/// The kernel does not let the command through, or has failed it.
pub fn identify(device: BorrowedFd<'_>, cns: u32, namespace: u32) -> io::Result<(u32, Box<[u8; PAGE_BYTES]>)> {
    let mut page = Box::new(Page([0; PAGE_BYTES]));
    let mut command = Passthrough([0; STRUCT_BYTES]);
    put(&mut command.0, 0, &[IDENTIFY]);
    put(&mut command.0, 4, &namespace.to_le_bytes());
    put(&mut command.0, 24, &(page.0.as_mut_ptr() as usize as u64).to_le_bytes());
    put(&mut command.0, 36, &(PAGE_BYTES as u32).to_le_bytes());
    put(&mut command.0, 40, &cns.to_le_bytes());
    put(&mut command.0, 64, &(COMMAND_WAIT.as_millis() as u32).to_le_bytes());
    // SAFETY: the argument is a struct of the size that the request's number says, which lives until the call returns. It names a page of this size, which
    // the kernel writes and nobody else looks at meanwhile, and no metadata.
    let status = good(unsafe { ioctl_with_mut_ref(&device, c_ulong::from(NVME_IOCTL_ADMIN_CMD), &mut command) })?;
    Ok((status, Box::new(page.0)))
}

/// The devices of a namespace. Nobody else has the block device.
#[derive(Debug)]
pub struct Files {
    /// The generic character device.
    pub generic: File,
    /// The block device, locked.
    pub block: Flock<File>,
}

impl AsRawFd for Files {
    fn as_raw_fd(&self) -> RawFd {
        self.generic.as_raw_fd()
    }
}

impl AsFd for Files {
    fn as_fd(&self) -> BorrowedFd<'_> {
        self.generic.as_fd()
    }
}

/// A ring for one namespace, by entries of 128 bytes and completions of 32, as passthrough commands have them.
pub struct NamespaceUring<M: Lasting> {
    ring: Uring<squeue::Entry128, cqueue::Entry32, Work, Files, M>,
    namespace: u32,
}

impl<M: Lasting> NamespaceUring<M> {
    /// A ring of the kernel for the namespace with this identifier.
    ///
    /// # Errors
    ///
    /// The kernel refuses io_uring, or such a ring.
    pub fn new(files: Files, namespace: u32, memory: Arc<M>) -> Result<Self, DriveError> {
        let instead = "take 'drive file PATH' or 'drive ram SIZE FILE'. It has such rings from Linux 5.19 on";
        let ring = Uring::new(files, memory, instead)?;
        Ok(Self { ring, namespace })
    }
}

/// The entry for a command. What it names in memory is the vector.
fn entry<M: Lasting>(
    work: &Work,
    namespace: u32,
    memory: &M,
    file: types::Fd,
    vector: &mut Vector,
) -> io::Result<squeue::Entry128> {
    let fault = || io::Error::from_raw_os_error(libc::EFAULT);
    match &work.request.data {
        Data::Zeros(bytes) => vector.name_zeros(u64::from(*bytes)),
        data => vector.name(&data.slices(memory).ok_or_else(fault)?),
    }
    let (address, elements) = match vector.count() {
        0 => (0, 0),
        count => (vector.first() as usize as u64, count),
    };
    let wait = COMMAND_WAIT.as_millis() as u32;
    let mut command = [0; 80];
    put(&mut command, 0, &work.request.bytes(namespace, address, elements, wait));
    Ok(opcode::UringCmd80::new(file, NVME_URING_CMD_IO_VEC)
        .cmd(command)
        .build())
}

impl<M: Lasting> Ring for NamespaceUring<M> {
    type Work = Work;

    fn has_room(&self) -> bool {
        self.ring.has_room()
    }

    fn begin(&mut self, work: Work) -> Result<(), (Work, io::Error)> {
        let namespace = self.namespace;
        let entry = |work: &Work, memory: &M, file, vector: &mut Vector, user| {
            entry(work, namespace, memory, file, vector).map(|entry| entry.user_data(user))
        };
        // SAFETY: the entry names the vector alone, which names the memory, pages that the command owns, which are mapped memory apart from it, or the
        // zeros. All but the zeros is given out as volatile slices; the zeros are a Write's, and lie where the kernel lets nobody write.
        unsafe { self.ring.begin(work, entry) }
    }

    fn submit(&mut self) -> io::Result<bool> {
        self.ring.submit()
    }

    fn next(&mut self) -> Option<(Work, io::Result<u32>)> {
        self.ring.next()
    }

    fn wake(&self) -> BorrowedFd<'_> {
        self.ring.wake()
    }

    fn finish(&mut self, most: Duration) -> bool {
        self.ring.finish(most)
    }
}

impl<M: Lasting> NamespaceRing for NamespaceUring<M> {
    fn blocks(&self) -> io::Result<u64> {
        let mut block: &File = &self.ring.file().block;
        Ok(block.seek(SeekFrom::End(0))? / BLOCK_BYTES)
    }
}

#[cfg(test)]
mod tests {
    use super::*;

    /// The numbers that `linux/nvme_ioctl.h` comes to, written out by hand.
    #[test]
    fn numbers_of_requests() {
        assert_eq!(NVME_IOCTL_ID, 0x4e40);
        assert_eq!(NVME_IOCTL_ADMIN_CMD, 0xc048_4e41);
        assert_eq!(NVME_URING_CMD_IO_VEC, 0xc048_4e81);
    }

    #[test]
    fn other_files_are_no_namespaces() {
        let null = File::options()
            .read(true)
            .write(true)
            .open("/dev/null")
            .expect("a file");
        assert_eq!(
            namespace_of(null.as_fd()).expect_err("no namespace").raw_os_error(),
            Some(libc::ENOTTY)
        );
        assert_eq!(
            identify(null.as_fd(), 1, 0).expect_err("no drive").raw_os_error(),
            Some(libc::ENOTTY)
        );
    }
}
