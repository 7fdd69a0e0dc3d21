use std::os::fd::{AsFd, OwnedFd};

use nix::sys::memfd::{memfd_create, MemFdCreateFlag};
use nix::unistd::ftruncate;
use nvmed::HostMemory;
use vm_memory::Bytes;

use super::*;

const MIB: u64 = 1 << 20;

fn file(bytes: u64) -> OwnedFd {
    let fd = memfd_create(c"nvmed-test", MemFdCreateFlag::MFD_CLOEXEC).unwrap();
    ftruncate(&fd, bytes as i64).unwrap();
    fd
}

fn read(window: &Window, host: u64) -> u64 {
    window.slice(host, 8).unwrap().read_obj(0).unwrap()
}

fn write(window: &Window, host: u64, value: u64) {
    window.slice(host, 8).unwrap().write_obj(value, 0).unwrap();
}

#[test]
fn rows_that_cannot_be() {
    for bytes in [0, 1, 4095, 4097, WINDOW_END + PAGE, u64::MAX] {
        assert!(
            matches!(Window::reserve(bytes), Err(MemoryError::NoRow(b)) if b == bytes),
            "{bytes:#x}"
        );
    }
    let e = Window::reserve(WINDOW_END).unwrap_err();
    assert!(
        e.to_string()
            .starts_with("0x800000000000 bytes of addresses cannot be reserved: "),
        "{e}"
    );
}

#[test]
fn a_row_begins_where_large_pages_do() {
    let window = Window::reserve(5 * MIB).unwrap();
    assert_eq!((window.base() as usize % ROW_ALIGNMENT, window.bytes()), (0, 5 * MIB));
    assert_eq!(
        (HostMemory::base(&window), HostMemory::len(&window)),
        (window.base(), 5 * MIB)
    );
    assert!(window.pieces().is_empty() && window.slice(0, 1).is_none() && !window.has(0, 1));
}

/// A file's bytes are those of whoever has it, from its offset on; zeros are this window's alone.
#[test]
fn files_and_zeros() {
    let window = Window::reserve(MIB).unwrap();
    let fd = file(4 * PAGE);
    window.map_file(8 * PAGE, 2 * PAGE, fd.as_fd(), PAGE).unwrap();
    window.map_zeros(16 * PAGE, PAGE).unwrap();
    let other = Window::reserve(4 * PAGE).unwrap();
    other.map_file(0, 4 * PAGE, fd.as_fd(), 0).unwrap();
    drop(fd);
    write(&window, 8 * PAGE, 77);
    write(&window, 16 * PAGE, 78);
    assert_eq!(
        (read(&other, PAGE), read(&other, 0), read(&window, 9 * PAGE)),
        (77, 0, 0)
    );
    write(&other, 2 * PAGE + 8, 79);
    assert_eq!(read(&window, 9 * PAGE + 8), 79);
    assert_eq!(
        window.pieces(),
        [
            Piece {
                host: 8 * PAGE,
                bytes: 2 * PAGE
            },
            Piece {
                host: 16 * PAGE,
                bytes: PAGE
            }
        ]
    );
    assert!(window.has(8 * PAGE, 2 * PAGE) && !window.has(8 * PAGE, 2 * PAGE + 1) && !window.has(7 * PAGE, PAGE));
}

/// Only what lies whole in one piece is given out, also where two touch, and whatever the numbers are.
#[test]
fn slices_are_of_one_piece() {
    let window = Window::reserve(MIB).unwrap();
    window.map_zeros(4 * PAGE, PAGE).unwrap();
    window.map_zeros(5 * PAGE, 2 * PAGE).unwrap();
    let page = PAGE as usize;
    for (host, len) in [
        (4 * PAGE, page),
        (5 * PAGE, 2 * page),
        (5 * PAGE - 1, 1),
        (7 * PAGE - 1, 1),
        (5 * PAGE + 7, 9),
    ] {
        let slice = window.slice(host, len).unwrap();
        assert_eq!(
            (slice.len(), slice.ptr_guard().as_ptr()),
            (len, window.base().wrapping_add(host as usize).cast_const())
        );
    }
    for (host, len) in [
        (4 * PAGE, page + 1),
        (5 * PAGE - 1, 2),
        (4 * PAGE - 1, 1),
        (4 * PAGE - 1, 2),
        (7 * PAGE, 1),
        (7 * PAGE - 1, 2),
        (0, 1),
        (5 * PAGE, 0),
        (5 * PAGE, usize::MAX),
        (u64::MAX, 1),
        (u64::MAX, usize::MAX),
        (MIB, 1),
    ] {
        assert!(window.slice(host, len).is_none(), "{host:#x} {len:#x}");
    }
}

#[test]
fn pieces_that_are_refused() {
    let window = Window::reserve(MIB).unwrap();
    window.map_zeros(4 * PAGE, 4 * PAGE).unwrap();
    for (host, bytes, message) in [
        (
            0,
            0,
            "a piece of memory is not of whole pages of 4096 bytes: 0x0 at 0x0",
        ),
        (
            1,
            PAGE,
            "a piece of memory is not of whole pages of 4096 bytes: 0x1000 at 0x1",
        ),
        (
            0,
            PAGE + 1,
            "a piece of memory is not of whole pages of 4096 bytes: 0x1001 at 0x0",
        ),
        (MIB, PAGE, "0x1000 bytes at 0x100000 are not in the reserved row"),
        (
            MIB - PAGE,
            2 * PAGE,
            "0x2000 bytes at 0xff000 are not in the reserved row",
        ),
        (
            !(PAGE - 1),
            PAGE,
            "0x1000 bytes at 0xfffffffffffff000 are not in the reserved row",
        ),
        (
            PAGE,
            !(PAGE - 1),
            "0xfffffffffffff000 bytes at 0x1000 are not in the reserved row",
        ),
        (3 * PAGE, 2 * PAGE, "two pieces of memory meet at 0x4000"),
        (7 * PAGE, 2 * PAGE, "two pieces of memory meet at 0x7000"),
        (5 * PAGE, PAGE, "two pieces of memory meet at 0x5000"),
        (0, MIB, "two pieces of memory meet at 0x4000"),
        (4 * PAGE, 3 * PAGE, "two pieces of memory meet at 0x4000"),
    ] {
        assert_eq!(window.map_zeros(host, bytes).unwrap_err().to_string(), message);
    }
    assert_eq!(
        window.pieces(),
        [Piece {
            host: 4 * PAGE,
            bytes: 4 * PAGE
        }]
    );
    window.map_zeros(0, 4 * PAGE).unwrap();
    window.map_zeros(8 * PAGE, PAGE).unwrap();
}

#[test]
fn a_window_has_32_pieces() {
    let window = Window::reserve(MIB).unwrap();
    for i in 0..MOST_PIECES as u64 {
        window.map_zeros(i * PAGE, PAGE).unwrap();
    }
    let e = window.map_zeros(40 * PAGE, PAGE).unwrap_err();
    assert!(matches!(e, MemoryError::TooMany));
    window.map_zeros(31 * PAGE, PAGE).unwrap();
}

/// What a piece has may be replaced, while a slice of it is there.
#[test]
fn other_memory_for_a_piece() {
    let window = Window::reserve(MIB).unwrap();
    let [first, second] = [file(PAGE), file(PAGE)];
    window.map_zeros(0, PAGE).unwrap();
    let slice = window.slice(0, 8).unwrap();
    slice.write_obj(1_u64, 0).unwrap();
    window.map_file(0, PAGE, first.as_fd(), 0).unwrap();
    assert_eq!(slice.read_obj::<u64>(0).unwrap(), 0);
    slice.write_obj(2_u64, 0).unwrap();
    window.map_file(0, PAGE, second.as_fd(), 0).unwrap();
    assert_eq!(slice.read_obj::<u64>(0).unwrap(), 0);
    slice.write_obj(3_u64, 0).unwrap();
    window.map_file(0, PAGE, first.as_fd(), 0).unwrap();
    assert_eq!(slice.read_obj::<u64>(0).unwrap(), 2);
    window.map_zeros(0, PAGE).unwrap();
    assert_eq!((slice.read_obj::<u64>(0).unwrap(), window.pieces().len()), (0, 1));
}

/// A file that cannot be mapped leaves the piece as it was, and no hole.
#[test]
fn a_file_that_cannot_be_mapped() {
    let window = Window::reserve(MIB).unwrap();
    window.map_zeros(0, PAGE).unwrap();
    write(&window, 0, 5);
    let folder = std::fs::File::open("/tmp").unwrap();
    let read_only = std::fs::File::open("/proc/self/exe").unwrap();
    for fd in [folder.as_fd(), read_only.as_fd()] {
        let e = window.map_file(0, PAGE, fd, 0).unwrap_err();
        assert!(
            e.to_string().starts_with("0x1000 bytes of memory cannot be mapped: "),
            "{e}"
        );
        assert!(window.map_file(PAGE, PAGE, fd, 0).is_err());
    }
    for offset in [1, u64::MAX, 1 << 63] {
        assert!(
            window.map_file(0, PAGE, file(PAGE).as_fd(), offset).is_err(),
            "{offset:#x}"
        );
    }
    assert_eq!((read(&window, 0), window.pieces().len()), (5, 1));
    assert!(window.slice(PAGE, 1).is_none());
}

/// Threads access pieces while others come.
#[test]
fn many_threads() {
    let window = Window::reserve(MIB).unwrap();
    let fd = file(PAGE);
    window.map_zeros(0, PAGE).unwrap();
    std::thread::scope(|scope| {
        for thread in 0..3_u64 {
            let window = &window;
            scope.spawn(move || {
                for i in 0..2000 {
                    write(window, 8 * thread, i);
                    let _ = window.slice(PAGE * (i % 32), 8).map(|s| s.read_obj::<u64>(0));
                }
            });
        }
        for i in 1..20 {
            window.map_zeros(i * PAGE, PAGE).unwrap();
            window.map_file(0, PAGE, fd.as_fd(), 0).unwrap();
            window.map_zeros(0, PAGE).unwrap();
        }
    });
    assert_eq!(window.pieces().len(), 20);
}

/// A process that is forked has none of the window's memory, so that none of it is copied.
#[test]
fn a_fork_has_no_piece() {
    let window = Window::reserve(MIB).unwrap();
    window.map_zeros(0, PAGE).unwrap();
    let maps = |id: &str| std::fs::read_to_string(format!("/proc/{id}/smaps")).unwrap();
    let start = format!("{:x}-", window.base() as usize);
    let of = maps("self")
        .split("VmFlags:")
        .map(String::from)
        .find(|part| part.contains(&start));
    let all = maps("self");
    let from = all.find(&start).unwrap();
    let flags = all[from..].lines().find(|line| line.starts_with("VmFlags:")).unwrap();
    assert!(
        of.is_some() && flags.contains(" dc") && flags.contains(" dd"),
        "{flags}"
    );
}
