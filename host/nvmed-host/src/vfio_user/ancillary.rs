//! `recvmsg` and `sendmsg` with descriptors, on sockets that do not block.

use std::mem::size_of;
use std::os::fd::{AsFd, AsRawFd, BorrowedFd, FromRawFd, OwnedFd, RawFd};

use nix::errno::Errno;
use nix::sys::socket::{sendmsg, ControlMessage, MsgFlags};
use std::io::IoSlice;

use super::wire::DESCRIPTORS_MAX;

/// What one `recvmsg` gave.
#[derive(Debug)]
pub struct Received {
    /// So many bytes; 0 is the end of the stream.
    pub bytes: usize,
    /// The descriptors that came with them, which are closed when they are dropped. None is left open by an exec.
    pub descriptors: Vec<OwnedFd>,
    /// More descriptors came than were taken; the kernel has closed the others.
    pub lost: bool,
}

/// Bytes of a header of ancillary data and [`DESCRIPTORS_MAX`] descriptors, in units of its alignment.
const CONTROL_WORDS: usize =
    (size_of::<libc::cmsghdr>() + DESCRIPTORS_MAX * size_of::<RawFd>()).div_ceil(size_of::<u64>());

/// Receives what is there, without waiting: EAGAIN where nothing is.
pub fn receive(socket: BorrowedFd<'_>, room: &mut [u8]) -> Result<Received, Errno> {
    let mut control = [0u64; CONTROL_WORDS];
    let mut part = libc::iovec {
        iov_base: room.as_mut_ptr().cast(),
        iov_len: room.len(),
    };
    // SAFETY: zeros are a msghdr with nothing in it.
    let mut header: libc::msghdr = unsafe { std::mem::zeroed() };
    header.msg_iov = &raw mut part;
    header.msg_iovlen = 1;
    header.msg_control = control.as_mut_ptr().cast();
    header.msg_controllen = size_of_val(&control) as _;
    let flags = libc::MSG_DONTWAIT | libc::MSG_CMSG_CLOEXEC;
    // SAFETY: the header names `room` and `control` with their lengths; both are writable and live through the call.
    let result = unsafe { libc::recvmsg(socket.as_raw_fd(), &raw mut header, flags) };
    let bytes = Errno::result(result)? as usize;
    // SAFETY: the kernel has filled the header's control data just now, and nobody took the descriptors in it.
    let descriptors = unsafe { take_descriptors(&header) };
    Ok(Received {
        bytes,
        descriptors,
        lost: header.msg_flags & libc::MSG_CTRUNC != 0,
    })
}

/// The descriptors in the ancillary data of a message that `recvmsg` has filled.
///
/// # Safety
///
/// The header's control data is what a `recvmsg` has put there. This is called once for it: the descriptors have one owner.
unsafe fn take_descriptors(header: &libc::msghdr) -> Vec<OwnedFd> {
    let mut descriptors = Vec::new();
    // SAFETY: the control data lies within the length that the header says.
    let mut next = unsafe { libc::CMSG_FIRSTHDR(header) };
    while !next.is_null() {
        // SAFETY: CMSG_FIRSTHDR and CMSG_NXTHDR give headers within the control data, which is aligned for them.
        let (about, data) = unsafe { (&*next, libc::CMSG_DATA(next)) };
        if about.cmsg_level == libc::SOL_SOCKET && about.cmsg_type == libc::SCM_RIGHTS {
            // SAFETY: it only computes a length.
            let head = unsafe { libc::CMSG_LEN(0) } as usize;
            let count = about.cmsg_len.saturating_sub(head) / size_of::<RawFd>();
            for index in 0..count {
                // SAFETY: the kernel has put `count` descriptors after the header; they may be unaligned.
                let raw = unsafe { data.cast::<RawFd>().add(index).read_unaligned() };
                // SAFETY: the kernel has opened it for this process, and nobody else owns it.
                descriptors.push(unsafe { OwnedFd::from_raw_fd(raw) });
            }
        }
        // SAFETY: `next` is a header of this control data.
        next = unsafe { libc::CMSG_NXTHDR(header, next) };
    }
    descriptors
}

/// Sends bytes, and a descriptor with the first of them, without waiting: EAGAIN where there is no room. Says how many bytes were sent.
pub fn send(socket: BorrowedFd<'_>, bytes: &[u8], descriptor: Option<BorrowedFd<'_>>) -> Result<usize, Errno> {
    let raw: Vec<RawFd> = descriptor.iter().map(|descriptor| descriptor.as_raw_fd()).collect();
    let rights = [ControlMessage::ScmRights(&raw)];
    let control = if raw.is_empty() { &rights[..0] } else { &rights[..] };
    let flags = MsgFlags::MSG_DONTWAIT | MsgFlags::MSG_NOSIGNAL;
    sendmsg::<()>(socket.as_fd().as_raw_fd(), &[IoSlice::new(bytes)], control, flags, None)
}

#[cfg(test)]
mod tests {
    use std::os::unix::net::UnixStream;
    use std::time::{Duration, Instant};

    use super::*;

    /// A pair of sockets that block, but not for ever.
    fn pair() -> (UnixStream, UnixStream) {
        let pair = UnixStream::pair().unwrap();
        for socket in [&pair.0, &pair.1] {
            socket.set_read_timeout(Some(Duration::from_secs(2))).unwrap();
            socket.set_write_timeout(Some(Duration::from_secs(2))).unwrap();
        }
        pair
    }

    /// No call waits, also where the socket itself would.
    #[test]
    fn nothing_waits() {
        let (one, _other) = pair();
        let begin = Instant::now();
        assert_eq!(receive(one.as_fd(), &mut [0; 16]).unwrap_err(), Errno::EAGAIN);
        while send(one.as_fd(), &[0; 4096], None).is_ok() {}
        assert_eq!(send(one.as_fd(), &[0; 4096], None), Err(Errno::EAGAIN));
        assert!(begin.elapsed() < Duration::from_secs(1));
    }

    #[test]
    fn bytes_and_descriptors() {
        let (one, other) = pair();
        assert_eq!(send(one.as_fd(), b"first", None), Ok(5));
        assert_eq!(send(one.as_fd(), b"second", Some(other.as_fd())), Ok(6));
        assert_eq!(send(one.as_fd(), b"third", None), Ok(5));
        let mut room = [0; 100];
        let received = receive(other.as_fd(), &mut room).unwrap();
        assert_eq!(
            (received.bytes, received.descriptors.len(), received.lost),
            (11, 1, false)
        );
        assert_eq!(&room[..11], b"firstsecond");
        let received = receive(other.as_fd(), &mut room).unwrap();
        assert_eq!((received.bytes, received.descriptors.len()), (5, 0));
        drop(one);
        assert_eq!(receive(other.as_fd(), &mut room).map(|received| received.bytes), Ok(0));
        assert_eq!(send(other.as_fd(), b"x", None), Err(Errno::EPIPE));
    }
}
