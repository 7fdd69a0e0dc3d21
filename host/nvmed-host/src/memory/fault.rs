//! Accesses of mapped files that fail.
//!
//! A file that somebody else can write may be cut off while it is mapped here; a file system that is full has no page for a hole; memory may be broken.
//! The kernel then ends a program that accesses such a page by SIGBUS. One guest could so end all. The handler here looks whether the address lies in a
//! piece of memory that is watched. If so it puts zeros there, counts the fault for that piece, and the access goes on; whoever owns the piece looks at
//! the count ([`Watch::faults`]) and gives its guest up. Any other SIGBUS has its default action: the program ends.
//!
//! The zeros are memory of this process alone (private): what is written there reaches no file and no other process. The handler uses atomics, `mmap`
//! and, at the end, `sigaction` and `raise`, which are all that it needs and safe in a handler.

use std::io;
use std::ptr;
use std::sync::atomic::{AtomicBool, AtomicU32, AtomicUsize, Ordering};
use std::sync::OnceLock;

use super::PAGE;

/// How many pieces of memory can be watched at a time in this process.
pub const MOST_WATCHED: usize = 256;

/// Faults of one piece that are answered by a page each. The next one gets zeros for the whole piece: the kernel has room for some ten thousand mappings
/// in a process, and a guest shall not use them up before it is given up.
pub const FAULTS_BY_PAGE: u32 = 64;

/// A piece of memory as the handler sees it. It is in use where `end` is not 0.
struct Entry {
    taken: AtomicBool,
    start: AtomicUsize,
    end: AtomicUsize,
    faults: AtomicU32,
}

static TABLE: [Entry; MOST_WATCHED] = [const {
    Entry {
        taken: AtomicBool::new(false),
        start: AtomicUsize::new(0),
        end: AtomicUsize::new(0),
        faults: AtomicU32::new(0),
    }
}; MOST_WATCHED];

/// All faults that were answered by zeros, since the program began.
static ALL: AtomicU32 = AtomicU32::new(0);

static INSTALLED: OnceLock<i32> = OnceLock::new();

/// Faults of all pieces since the program began: where this number is as before no piece has a new one. It may wrap around.
pub fn all() -> u32 {
    ALL.load(Ordering::Acquire)
}

/// A piece of memory that is watched, until this value is dropped.
#[derive(Debug)]
pub struct Watch {
    index: usize,
}

impl Watch {
    /// Watches `bytes` bytes from the address `start` on, whole pages. The memory has to be this caller's to replace: a mapping that stays there as long
    /// as the watch. The handler is installed at the first call.
    ///
    /// Errors: the handler cannot be installed; `OutOfMemory` where [`MOST_WATCHED`] pieces are watched already.
    ///
    /// # Safety
    ///
    /// Until the watch is dropped the addresses belong to the caller, and everybody who accesses them takes the bytes as ones that may change at any
    /// time: at a fault they become zero.
    pub unsafe fn new(start: usize, bytes: usize) -> io::Result<Self> {
        install()?;
        for (index, entry) in TABLE.iter().enumerate() {
            if entry.taken.swap(true, Ordering::AcqRel) {
                continue;
            }
            entry.faults.store(0, Ordering::Relaxed);
            entry.start.store(start, Ordering::Relaxed);
            entry.end.store(start.saturating_add(bytes), Ordering::Release);
            return Ok(Self { index });
        }
        Err(io::ErrorKind::OutOfMemory.into())
    }

    /// Faults of this piece since it is watched, or since [`Watch::forget`].
    pub fn faults(&self) -> u32 {
        TABLE
            .get(self.index)
            .map_or(0, |entry| entry.faults.load(Ordering::Acquire))
    }

    /// Begins to count from 0: the piece has other memory now.
    pub fn forget(&self) {
        if let Some(entry) = TABLE.get(self.index) {
            entry.faults.store(0, Ordering::Release);
        }
    }
}

impl Drop for Watch {
    fn drop(&mut self) {
        if let Some(entry) = TABLE.get(self.index) {
            entry.end.store(0, Ordering::Release);
            entry.taken.store(false, Ordering::Release);
        }
    }
}

/// Installs the handler, once in a process.
fn install() -> io::Result<()> {
    let error = *INSTALLED.get_or_init(|| match set_handler() {
        Ok(()) => 0,
        Err(e) => e.raw_os_error().unwrap_or(libc::EINVAL),
    });
    match error {
        0 => Ok(()),
        e => Err(io::Error::from_raw_os_error(e)),
    }
}

fn set_handler() -> io::Result<()> {
    let handler: extern "C" fn(libc::c_int, *mut libc::siginfo_t, *mut libc::c_void) = on_fault;
    // SAFETY: a sigaction of zeros is a valid value; its members are set below.
    let mut action: libc::sigaction = unsafe { std::mem::zeroed() };
    action.sa_sigaction = handler as usize;
    action.sa_flags = libc::SA_SIGINFO | libc::SA_ONSTACK;
    // SAFETY: `action` lives through the call, its handler is a function with the arguments of SA_SIGINFO that does what is safe in a handler, and null
    // says that the former action is not wanted.
    let result = unsafe { libc::sigaction(libc::SIGBUS, &action, ptr::null_mut()) };
    if result == 0 {
        Ok(())
    } else {
        Err(io::Error::last_os_error())
    }
}

/// The handler of SIGBUS.
extern "C" fn on_fault(signal: libc::c_int, info: *mut libc::siginfo_t, _context: *mut libc::c_void) {
    // SAFETY: the kernel gives a handler with SA_SIGINFO a siginfo_t that lives through the call.
    let (code, address) = unsafe { ((*info).si_code, (*info).si_addr() as usize) };
    // SAFETY: errno is this thread's; it is read here and written back at the end, so that the interrupted code finds its own.
    let errno = unsafe { *libc::__errno_location() };
    // a code above 0 is an access's; others were sent by a process, and have no address
    let answered = code > 0 && answer(address);
    if !answered {
        die(signal, code <= 0);
    }
    // SAFETY: as above.
    unsafe { *libc::__errno_location() = errno };
}

/// Puts zeros at an address, if it is watched.
fn answer(address: usize) -> bool {
    for entry in &TABLE {
        let end = entry.end.load(Ordering::Acquire);
        let start = entry.start.load(Ordering::Relaxed);
        if address < start || address >= end {
            continue;
        }
        let page = PAGE as usize;
        // where the file has larger pages a single one cannot be replaced
        let by_page = entry.faults.load(Ordering::Acquire) < FAULTS_BY_PAGE;
        let put = (by_page && put_zeros(address & !(page - 1), page)) || put_zeros(start, end - start);
        // only now: whoever begins to count from 0 meanwhile has these zeros counted, too
        entry.faults.fetch_add(1, Ordering::AcqRel);
        ALL.fetch_add(1, Ordering::AcqRel);
        return put;
    }
    false
}

fn put_zeros(start: usize, bytes: usize) -> bool {
    // SAFETY: the addresses lie in a piece that is watched, which its owner lets be replaced (`Watch::new`), and mmap is a bare system call.
    let at = unsafe {
        libc::mmap(
            start as *mut libc::c_void,
            bytes,
            libc::PROT_READ | libc::PROT_WRITE,
            libc::MAP_PRIVATE | libc::MAP_ANONYMOUS | libc::MAP_NORESERVE | libc::MAP_FIXED,
            -1,
            0,
        )
    };
    at != libc::MAP_FAILED
}

/// Restores the default action. The access is made again when the handler has returned, and ends the process; a signal that was sent is sent again.
fn die(signal: libc::c_int, sent: bool) {
    // SAFETY: a sigaction of zeros is SIG_DFL without flags, and it lives through the call. Both calls are safe in a handler.
    unsafe {
        let action: libc::sigaction = std::mem::zeroed();
        libc::sigaction(signal, &action, ptr::null_mut());
        if sent {
            libc::raise(signal);
        }
    }
}

#[cfg(test)]
mod tests;
