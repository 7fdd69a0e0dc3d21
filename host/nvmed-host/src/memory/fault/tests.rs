use std::os::fd::{AsFd, OwnedFd};

use nix::sys::memfd::{memfd_create, MemFdCreateFlag};
use nix::sys::wait::{waitpid, WaitStatus};
use nix::unistd::{fork, ftruncate, ForkResult};
use vm_memory::Bytes;

use super::*;
use crate::memory::Window;

fn file(pages: u64) -> OwnedFd {
    let fd = memfd_create(c"nvmed-test", MemFdCreateFlag::MFD_CLOEXEC).unwrap();
    ftruncate(&fd, (pages * PAGE) as i64).unwrap();
    fd
}

/// A memfd that is cut off under its mapping ended the former program, and with it all guests. Here accesses go on, and the piece is marked.
#[test]
fn a_file_that_is_cut_off() {
    let window = Window::reserve(64 * PAGE).unwrap();
    let fd = file(8);
    let other = file(8);
    window.map_file(0, 8 * PAGE, fd.as_fd(), 0).unwrap();
    window.map_file(8 * PAGE, 8 * PAGE, other.as_fd(), 0).unwrap();
    let slice = window.slice(0, 8 * PAGE as usize).unwrap();
    slice.write_slice(&[7; 8 * PAGE as usize], 0).unwrap();
    let before = all();
    ftruncate(&fd, PAGE as i64).unwrap();
    let mut bytes = [1; 4 * PAGE as usize];
    slice.read_slice(&mut bytes, 0).unwrap();
    assert!(bytes[..PAGE as usize].iter().all(|b| *b == 7) && bytes[PAGE as usize..].iter().all(|b| *b == 0));
    assert_eq!(
        (window.faults(0), window.faults(8 * PAGE), window.faults(20 * PAGE)),
        (3, 0, 0)
    );
    assert!(all().wrapping_sub(before) >= 3);
    // what is written there stays in this process, and is no fault any more
    slice.write_obj(9_u64, PAGE as usize).unwrap();
    assert_eq!(
        (slice.read_obj::<u64>(PAGE as usize).unwrap(), window.faults(0)),
        (9, 3)
    );
    // a write faults, too
    slice.write_obj(9_u64, 5 * PAGE as usize).unwrap();
    assert_eq!((window.faults(0), window.faults(PAGE)), (4, 4));
    // other memory, and the count begins anew
    window.map_file(0, 8 * PAGE, other.as_fd(), 0).unwrap();
    assert_eq!(
        (window.faults(0), slice.read_obj::<u64>(PAGE as usize).unwrap()),
        (0, 0)
    );
}

/// However many pages a file has lost: the kernel's room for mappings is not used up by one page after another.
#[test]
fn a_file_that_loses_all() {
    const PAGES: u64 = 200_000;
    let window = Window::reserve(PAGES * PAGE).unwrap();
    let fd = file(PAGES);
    window.map_file(0, PAGES * PAGE, fd.as_fd(), 0).unwrap();
    ftruncate(&fd, 0).unwrap();
    // each second page, so that no two of them could be one mapping
    for page in (0..PAGES).step_by(2) {
        assert_eq!(window.slice(page * PAGE, 8).unwrap().read_obj::<u64>(0).unwrap(), 0);
    }
    assert_eq!(window.faults(0), FAULTS_BY_PAGE + 1);
}

/// Threads that meet the same page.
#[test]
fn many_threads() {
    let window = Window::reserve(64 * PAGE).unwrap();
    let fd = file(32);
    window.map_file(0, 32 * PAGE, fd.as_fd(), 0).unwrap();
    ftruncate(&fd, 0).unwrap();
    std::thread::scope(|scope| {
        for _ in 0..4 {
            scope.spawn(|| {
                for page in 0..32 {
                    assert_eq!(window.slice(page * PAGE, 8).unwrap().read_obj::<u64>(0).unwrap(), 0);
                }
            });
        }
    });
    assert!(window.faults(0) >= 32);
}

/// errno of the code that is interrupted stays as it is.
#[test]
fn errno_is_kept() {
    let window = Window::reserve(PAGE).unwrap();
    let fd = file(1);
    window.map_file(0, PAGE, fd.as_fd(), 0).unwrap();
    ftruncate(&fd, 0).unwrap();
    nix::errno::Errno::EXDEV.set();
    let value = window.slice(0, 8).unwrap().read_obj::<u64>(0).unwrap();
    assert_eq!((nix::errno::Errno::last(), value), (nix::errno::Errno::EXDEV, 0));
}

/// The signal by which a child ends that does this.
fn end_of(act: impl Fn()) -> WaitStatus {
    // SAFETY: the child makes system calls and the act alone, which allocates nothing, and ends without returning.
    match unsafe { fork() }.unwrap() {
        ForkResult::Child => {
            act();
            // SAFETY: it ends the child at once.
            unsafe { libc::_exit(0) }
        }
        ForkResult::Parent { child } => waitpid(child, None).unwrap(),
    }
}

/// An access outside of the window has the default action: it is this program's own fault.
#[test]
fn other_faults_end_the_program() {
    let window = Window::reserve(PAGE).unwrap();
    window.map_zeros(0, PAGE).unwrap();
    let fd = file(1);
    // SAFETY: a new mapping, of this test alone.
    let at = unsafe {
        libc::mmap(
            std::ptr::null_mut(),
            PAGE as usize,
            libc::PROT_READ | libc::PROT_WRITE,
            libc::MAP_SHARED,
            std::os::fd::AsRawFd::as_raw_fd(&fd),
            0,
        )
    };
    assert_ne!(at, libc::MAP_FAILED);
    ftruncate(&fd, 0).unwrap();
    // SAFETY: the mapping is there; that the access fails is what is tried, in a child.
    let access = || unsafe {
        let _ = at.cast::<u8>().read_volatile();
    };
    assert!(matches!(
        end_of(access),
        WaitStatus::Signaled(_, nix::sys::signal::Signal::SIGBUS, _)
    ));
    // a signal that was sent, too
    let sent = || {
        let _ = nix::sys::signal::raise(nix::sys::signal::Signal::SIGBUS);
    };
    assert!(matches!(
        end_of(sent),
        WaitStatus::Signaled(_, nix::sys::signal::Signal::SIGBUS, _)
    ));
    // and a piece that is watched no more
    let old = window.base() as usize;
    drop(window);
    assert!(TABLE
        .iter()
        .all(|entry| entry.end.load(Ordering::Acquire) == 0 || entry.start.load(Ordering::Acquire) != old));
    // SAFETY: as it was mapped.
    unsafe { libc::munmap(at, PAGE as usize) };
}

/// A file system that is full has no page for a hole: mounted in a child, with a name space of its own. Where that may not be done nothing is tried.
#[test]
fn a_file_system_that_is_full() {
    let folder = std::env::temp_dir().join(format!("nvmed-fault-{}", std::process::id()));
    std::fs::create_dir(&folder).unwrap();
    let path = std::ffi::CString::new(folder.to_str().unwrap()).unwrap();
    let name = std::ffi::CString::new(format!("{}/file", folder.display())).unwrap();
    let window = Window::reserve(64 * PAGE).unwrap();
    // SAFETY: the child makes system calls alone, and accesses a mapping of its own which is watched.
    let act = || unsafe {
        let mounted = libc::unshare(libc::CLONE_NEWNS) == 0
            && libc::mount(
                c"none".as_ptr(),
                c"/".as_ptr(),
                std::ptr::null(),
                libc::MS_REC | libc::MS_PRIVATE,
                std::ptr::null(),
            ) == 0
            && libc::mount(
                c"none".as_ptr(),
                path.as_ptr(),
                c"tmpfs".as_ptr(),
                0,
                c"size=16k".as_ptr().cast(),
            ) == 0;
        if !mounted {
            libc::_exit(77);
        }
        let fd = libc::open(name.as_ptr(), libc::O_RDWR | libc::O_CREAT, 0o600);
        libc::ftruncate(fd, 8 * PAGE as i64);
        let pages = std::os::fd::BorrowedFd::borrow_raw(fd);
        if window.map_file(0, 8 * PAGE, pages, 0).is_err() {
            libc::_exit(1);
        }
        for page in 0..8 {
            let Some(slice) = window.slice(page * PAGE, 8) else {
                libc::_exit(2)
            };
            if slice.write_obj(page, 0).is_err() || slice.read_obj::<u64>(0).ok() != Some(page) {
                libc::_exit(3);
            }
        }
        libc::_exit(if window.faults(0) > 0 { 0 } else { 4 });
    };
    let end = end_of(act);
    std::fs::remove_dir(&folder).unwrap();
    match end {
        WaitStatus::Exited(_, 77) => eprintln!("left out: nothing can be mounted here"),
        end => assert!(matches!(end, WaitStatus::Exited(_, 0)), "{end:?}"),
    }
}
