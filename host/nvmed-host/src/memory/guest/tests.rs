use std::os::fd::{AsRawFd, BorrowedFd};

use nix::fcntl::{fcntl, FcntlArg, SealFlag};
use nix::sys::memfd::{memfd_create, MemFdCreateFlag};
use nix::unistd::ftruncate;
use vm_memory::Bytes;

use super::*;
use crate::machine::HIGH;

const MIB: u64 = 1 << 20;
const HOST: u64 = 2 * MIB;
const BYTES: u64 = 64 * MIB;

fn memfd(bytes: u64) -> OwnedFd {
    let flags = MemFdCreateFlag::MFD_CLOEXEC | MemFdCreateFlag::MFD_ALLOW_SEALING;
    let fd = memfd_create(c"client", flags).unwrap();
    ftruncate(&fd, bytes as i64).unwrap();
    fd
}

fn window() -> Arc<Window> {
    Window::reserve(HOST + BYTES).unwrap()
}

fn part(address: u64, bytes: u64) -> MapRequest {
    MapRequest {
        address,
        bytes,
        offset: address,
        readable: true,
        writable: true,
    }
}

/// All of a machine of 64 MiB.
fn show(memory: &mut GuestMemory, fd: BorrowedFd<'_>) -> Result<(), MapError> {
    memory.map(&part(0, 0xa_0000), fd.try_clone_to_owned().unwrap())?;
    memory.map(&part(MIB, BYTES - MIB), fd.try_clone_to_owned().unwrap())?;
    Ok(())
}

fn read(window: &Window, host: u64) -> u64 {
    window.slice(host, 8).unwrap().read_obj(0).unwrap()
}

fn write_file(fd: BorrowedFd<'_>, offset: u64, value: u64) {
    let other = Window::reserve(BYTES).unwrap();
    other.map_file(0, BYTES, fd, 0).unwrap();
    other.slice(offset, 8).unwrap().write_obj(value, 0).unwrap();
}

#[test]
fn a_guest_whose_file_is_known() {
    let window = window();
    let file = GuestFile::make(BYTES).unwrap();
    let fd = file.as_fd().try_clone_to_owned().unwrap();
    let mut memory = GuestMemory::with_file(window.clone(), Machine::Q35, HOST, file).unwrap();
    assert_eq!(
        (memory.host(), memory.bytes(), memory.is_complete()),
        (HOST, BYTES, false)
    );
    write_file(fd.as_fd(), 4096, 7);
    assert_eq!(read(&window, HOST + 4096), 7);
    // another file, even one that is as long
    let e = memory.map(&part(0, 0xa_0000), memfd(BYTES)).unwrap_err();
    assert!(matches!(e, MapError::Differs(_)) && e.errno() == libc::EINVAL, "{e}");
    let e = memory.map(&part(HIGH, 4096), fd.try_clone().unwrap()).unwrap_err();
    assert!(
        e.to_string()
            .contains("is no part of a machine of type q35 with -m 67108864B"),
        "{e}"
    );
    let words = memory.waits_for().unwrap();
    assert_eq!(
        words,
        "the machine does not show its memory from 0x0 to 0x4000000: it needs a machine of type q35 with -m 67108864B"
    );
    let part = memory.map(&part(0, 0xa_0000), fd.try_clone().unwrap()).unwrap();
    assert_eq!(part.host, HOST);
    assert!(!memory.is_complete());
    show(&mut memory, fd.as_fd()).unwrap();
    assert!(memory.is_complete() && memory.waits_for().is_none());
    // the next connection has to show it anew, and the file stays
    memory.restart().unwrap();
    assert!(!memory.is_complete() && memory.file().is_some());
    assert_eq!(read(&window, HOST + 4096), 7);
    show(&mut memory, fd.as_fd()).unwrap();
    assert!(memory.is_complete());
}

/// The file of a client that comes: it is sealed, and goes with the connection.
#[test]
fn a_guest_that_adopts() {
    let window = window();
    let mut memory = GuestMemory::adopting(window.clone(), Machine::Q35, HOST, BYTES, Trust::Sealed).unwrap();
    assert_eq!((read(&window, HOST), memory.file().is_none()), (0, true));
    for round in 1..3 {
        let fd = memfd(BYTES + MIB);
        write_file(fd.as_fd(), 4096, round);
        assert_eq!(read(&window, HOST + 4096), 0);
        show(&mut memory, fd.as_fd()).unwrap();
        assert!(memory.is_complete());
        assert_eq!(read(&window, HOST + 4096), round);
        assert!(ftruncate(&fd, 0).is_err());
        let e = memory.map(&part(0, 4096), memfd(BYTES)).unwrap_err();
        assert!(e.to_string().contains("is of another file than the guest's"), "{e}");
        memory.restart().unwrap();
        assert_eq!((read(&window, HOST + 4096), memory.file().is_none()), (0, true));
        assert!(!memory.is_complete() && memory.faults() == 0);
    }
}

#[test]
fn what_is_not_adopted() {
    let window = window();
    let mut memory = GuestMemory::adopting(window.clone(), Machine::Q35, HOST, BYTES, Trust::Sealed).unwrap();
    // a part that differs is refused before its file is looked at
    let fd = memfd(BYTES);
    let wrong = MapRequest {
        offset: 4096,
        ..part(0, 0xa_0000)
    };
    assert!(matches!(
        memory.map(&wrong, fd.try_clone().unwrap()),
        Err(MapError::Differs(_))
    ));
    let seals = fcntl(fd.as_raw_fd(), FcntlArg::F_GET_SEALS).unwrap();
    assert_eq!(SealFlag::from_bits_truncate(seals), SealFlag::empty());
    assert!(matches!(
        show(&mut memory, memfd(BYTES - 4096).as_fd()),
        Err(MapError::File(FileError::Short { .. }))
    ));
    let unsealable = memfd_create(c"client", MemFdCreateFlag::MFD_CLOEXEC).unwrap();
    ftruncate(&unsealable, BYTES as i64).unwrap();
    let e = show(&mut memory, unsealable.as_fd()).unwrap_err();
    assert!(matches!(e, MapError::File(FileError::Unsealed(_))) && e.errno() == libc::EINVAL);
    assert!(memory.file().is_none());
    show(&mut memory, fd.as_fd()).unwrap();
    // `trust` takes it
    drop(memory);
    let mut memory = GuestMemory::adopting(window, Machine::Q35, HOST, BYTES, Trust::Any).unwrap();
    show(&mut memory, unsealable.as_fd()).unwrap();
    assert!(memory.is_complete() && memory.faults() == 0);
}

/// A trusted client's file that is cut off: the access goes on with zeros, and the guest is marked until it begins anew.
#[test]
fn a_trusted_file_that_is_cut_off() {
    let window = window();
    let mut memory = GuestMemory::adopting(window.clone(), Machine::Q35, HOST, BYTES, Trust::Any).unwrap();
    let fd = memfd_create(c"client", MemFdCreateFlag::MFD_CLOEXEC).unwrap();
    ftruncate(&fd, BYTES as i64).unwrap();
    show(&mut memory, fd.as_fd()).unwrap();
    ftruncate(&fd, 4096).unwrap();
    assert_eq!((read(&window, HOST + 8192), memory.faults()), (0, 1));
    memory.restart().unwrap();
    assert_eq!(memory.faults(), 0);
}

/// A named file that is cut off is mapped anew for the next connection, and cannot be used while it is short.
#[test]
fn a_named_file_that_is_cut_off() {
    let path = std::env::temp_dir().join(format!("nvmed-guest-{}", std::process::id()));
    let window = window();
    let file = GuestFile::named(&path, BYTES).unwrap();
    let mut memory = GuestMemory::with_file(window.clone(), Machine::Q35, HOST, file).unwrap();
    let other = std::fs::OpenOptions::new().write(true).open(&path).unwrap();
    other.set_len(0).unwrap();
    assert_eq!((read(&window, HOST + 8192), memory.faults()), (0, 1));
    other.set_len(BYTES).unwrap();
    write_file(memory.file().unwrap().as_fd(), 8192, 5);
    assert_eq!(read(&window, HOST + 8192), 0);
    memory.restart().unwrap();
    assert_eq!((read(&window, HOST + 8192), memory.faults()), (5, 0));
    std::fs::remove_file(&path).unwrap();
}

#[test]
fn a_place_that_is_none() {
    let window = window();
    let file = GuestFile::make(BYTES).unwrap();
    assert!(matches!(
        GuestMemory::with_file(window.clone(), Machine::Q35, HOST + MIB, file),
        Err(MemoryError::Outside { .. })
    ));
    let e = GuestMemory::adopting(window, Machine::Q35, 1, BYTES, Trust::Sealed).unwrap_err();
    assert!(matches!(e, MemoryError::NoPages { .. }) && MapError::Memory(e).errno() == libc::ENOMEM);
}

/// As QEMU without a memory backend comes: it shares its memory with nobody.
#[test]
fn a_machine_that_shares_nothing() {
    let mut memory = GuestMemory::adopting(window(), Machine::Q35, HOST, BYTES, Trust::Sealed).unwrap();
    for (address, bytes) in [(0xfffc_0000, 0x4_0000), (0xe_0000, 0x2_0000), (0xc_0000, 0x4_0000)] {
        memory.map_without_file(address, bytes);
        assert!(memory
            .waits_for()
            .unwrap()
            .ends_with("it needs a machine of type q35 with -m 67108864B"));
    }
    memory.map_without_file(MIB, BYTES - MIB);
    let advice = "it comes without a file: give QEMU '-object memory-backend-memfd,id=m,share=on,size=67108864' and '-machine memory-backend=m'";
    assert!(memory.waits_for().unwrap().ends_with(advice));
    memory.restart().unwrap();
    memory.map_without_file(u64::MAX, u64::MAX);
    assert!(!memory.waits_for().unwrap().ends_with(advice));
}
