//! With a real QEMU: `NVMED_QEMU` has its words, such as `qemu-system-x86_64` or `chroot FOLDER qemu-system-x86_64`. So they are left out unless asked for:
//! `NVMED_QEMU=qemu-system-x86_64 cargo test --test qemu -- --ignored`.

#![allow(clippy::unwrap_used, reason = "all of it is a test")]

use std::collections::BTreeSet;
use std::ffi::OsString;
use std::io::{Read, Write};
use std::os::fd::{AsFd, OwnedFd};
use std::os::unix::net::UnixStream;
use std::process::{Command, Stdio};
use std::sync::Arc;
use std::time::{Duration, Instant};

use nix::poll::{poll, PollFd, PollTimeout};
use nvmed_host::machine::{regions, Machine, RamRegion, HIGH, LEGACY_HOLE};
use nvmed_host::memory::{GuestFile, GuestMemory, MapRequest, Window};
use nvmed_host::process::{Listener, Process, STOP_WAIT};
use nvmed_host::vfio_user::{pci_irq, pci_region, Answer, Connection, Device, Irq, Region, Request};

const MIB: u64 = 1 << 20;

fn qemu() -> Vec<OsString> {
    let words = std::env::var("NVMED_QEMU").unwrap();
    words.split_whitespace().map(OsString::from).collect()
}

/// What the monitor of a machine with `bytes` bytes answers.
fn ask(qemu: &[OsString], words: &[String], question: &str) -> String {
    let mut child = Command::new(&qemu[0])
        .args(&qemu[1..])
        .args(words)
        .args(["-S", "-display", "none", "-monitor", "stdio"])
        .stdin(Stdio::piped())
        .stdout(Stdio::piped())
        .spawn()
        .unwrap();
    let mut input = child.stdin.take().unwrap();
    writeln!(input, "{question}\nquit").unwrap();
    let mut text = String::new();
    child.stdout.take().unwrap().read_to_string(&mut text).unwrap();
    child.wait().unwrap();
    text
}

/// The RAM of a machine, from lines of the flat view such as `0000000100000000-000000012fffffff (prio 0, ram): pc.ram @0000000080000000`.
fn ram_of(text: &str) -> BTreeSet<(u64, u64, u64)> {
    text.lines()
        .filter(|line| line.contains(" pc.ram"))
        .map(|line| {
            let hex = |text: &str| u64::from_str_radix(text, 16).unwrap();
            let line = line.trim();
            let (start, end) = (hex(&line[..16]), hex(&line[17..33]));
            let offset = line.split_once('@').map_or(0, |(_, offset)| hex(&offset[..16]));
            (start, end + 1 - start, offset)
        })
        .collect()
}

/// The same for regions: the low one has a hole for VGA and BIOS before the guest's firmware runs.
fn expected(regions: &[RamRegion]) -> BTreeSet<(u64, u64, u64)> {
    let mut parts = BTreeSet::new();
    for r in regions {
        if r.address == 0 {
            parts.insert((0, LEGACY_HOLE.start, 0));
            parts.insert((LEGACY_HOLE.end, r.bytes - LEGACY_HOLE.end, LEGACY_HOLE.end));
        } else {
            parts.insert((r.address, r.bytes, r.offset));
        }
    }
    parts
}

/// Each split, at the boundary, and 8 KiB and 1 MiB on either side: QEMU makes sizes multiples of 8 KiB.
#[test]
#[ignore = "it needs QEMU"]
fn machines_have_their_ram_where_it_is_expected() {
    let qemu = qemu();
    for (machine, boundary) in [(Machine::Q35, 2816 * MIB), (Machine::Pc, 3584 * MIB)] {
        let around = [
            boundary - MIB,
            boundary - 8192,
            boundary,
            boundary + 8192,
            boundary + MIB,
        ];
        for bytes in around.into_iter().chain([64 * MIB, 3072 * MIB, 4096 * MIB, 5120 * MIB]) {
            let words = [
                String::from("-M"),
                machine.to_string(),
                String::from("-m"),
                format!("{bytes}B"),
            ];
            let text = ask(&qemu, &words, "info mtree -f");
            assert_eq!(
                ram_of(&text),
                expected(&regions(machine, bytes)),
                "{machine} {bytes:#x}"
            );
        }
    }
}

/// The connection of a QEMU that was started.
fn accept(process: &mut Process, listener: &Listener) -> OwnedFd {
    let begin = Instant::now();
    loop {
        assert_eq!(process.ended(), None);
        assert!(begin.elapsed() < Duration::from_secs(60));
        match listener.accept().unwrap() {
            Some(socket) => return socket,
            None => std::thread::sleep(Duration::from_millis(5)),
        }
    }
}

/// A QEMU that is started connects, maps the guest's file, and has the machine that it should have, whatever its own words say.
#[test]
#[ignore = "it needs QEMU"]
fn a_qemu_that_is_started() {
    let qemu = qemu();
    for (own, machine) in [
        (&[] as &[&str], Machine::Q35),
        (&[], Machine::Pc),
        (&["-M", "pc", "-m", "64M"], Machine::Pc),
        (&["-machine", "q35,usb=off", "-m", "2G,slots=2,maxmem=8G"], Machine::Q35),
    ] {
        let mut words = qemu.clone();
        words.extend(["-S", "-display", "none"].iter().chain(own).map(OsString::from));
        let memory = GuestFile::make(256 * MIB).unwrap();
        let (mut process, listener) = Process::start(&words, machine, &memory).unwrap();
        let mut socket = UnixStream::from(accept(&mut process, &listener));
        // the first message: VERSION, command 1
        let mut header = [0; 16];
        socket.read_exact(&mut header).unwrap();
        assert_eq!(header[2..4], [1, 0]);
        let maps = std::fs::read_to_string(format!("/proc/{}/maps", process.id())).unwrap();
        let mapped = maps.lines().find(|line| line.contains("memfd:nvmed")).unwrap();
        assert!(mapped.contains(" rw-s "), "{mapped}");
        let (start, end) = mapped.split_once(' ').unwrap().0.split_once('-').unwrap();
        let hex = |text| u64::from_str_radix(text, 16).unwrap();
        assert_eq!(hex(end) - hex(start), 256 * MIB);
        assert_eq!(process.stop(STOP_WAIT).unwrap().to_string(), "ended by signal 15");
    }
}

/// Configuration space of a device for which no firmware has a driver.
fn config() -> [u8; 256] {
    let mut config = [0; 256];
    config[..12].copy_from_slice(&[0x36, 0x1b, 0xf0, 0x0f, 0, 0, 0, 0, 1, 0, 0, 0xff]);
    config
}

/// A device of which nothing is asked but its memory.
fn device() -> Arc<Device> {
    let mut all = vec![Region::none(); pci_region::COUNT];
    all[pci_region::BAR0 as usize] = Region::of(0x4000);
    all[pci_region::CONFIG as usize] = Region::of(256);
    Arc::new(Device::new(all, vec![Irq::NONE; pci_irq::COUNT]).unwrap())
}

/// What was shown: parts that can be read alone, whether the low region came as one part, and what was refused.
#[derive(Debug, Default)]
struct Shown {
    parts: u32,
    read_only: u32,
    refused: Vec<String>,
}

/// Answers a QEMU for a while, and compares what it shows.
fn serve(socket: OwnedFd, memory: &mut GuestMemory, time: Duration) -> Shown {
    let mut connection = Connection::new(socket, device()).unwrap();
    let mut shown = Shown::default();
    let config = config();
    let begin = Instant::now();
    while begin.elapsed() < time {
        let mut fds = [PollFd::new(connection.as_fd(), connection.events())];
        poll(&mut fds, PollTimeout::from(100_u8)).unwrap();
        let found = fds[0].revents().unwrap();
        if connection.ready(found).is_err() {
            break;
        }
        while let Ok(Some((request, ticket))) = connection.next_request() {
            let answer = match request {
                Request::DmaMap(map) => match map.fd {
                    None => {
                        memory.map_without_file(map.address, map.bytes);
                        Answer::Done
                    }
                    Some(fd) => {
                        let (address, bytes, offset) = (map.address, map.bytes, map.offset);
                        let (readable, writable) = (map.readable, map.writable);
                        shown.parts += 1;
                        shown.read_only += u32::from(!writable);
                        match memory.map(
                            &MapRequest {
                                address,
                                bytes,
                                offset,
                                readable,
                                writable,
                            },
                            fd,
                        ) {
                            Ok(_) => Answer::Done,
                            Err(error) => {
                                shown.refused.push(error.to_string());
                                Answer::Refused(nix::errno::Errno::from_raw(error.errno()))
                            }
                        }
                    }
                },
                Request::RegionRead(read) if read.region == pci_region::CONFIG => {
                    Answer::Data(&config[read.offset as usize..][..read.count as usize])
                }
                Request::RegionRead(read) => Answer::Data(&[0; 4096][..read.count as usize]),
                _ => Answer::Done,
            };
            if connection.answer(ticket, answer).is_err() {
                break;
            }
        }
    }
    shown
}

/// All that a machine shows while its firmware runs is as it is expected, for each type, small and with memory above 4 GiB.
#[test]
#[ignore = "it needs QEMU"]
fn what_machines_show_is_taken() {
    let qemu = qemu();
    for (machine, bytes) in [
        (Machine::Q35, 256 * MIB),
        (Machine::Pc, 256 * MIB),
        (Machine::Q35, 2816 * MIB),
        (Machine::Pc, 3584 * MIB),
        (Machine::Q35, 5120 * MIB),
        (Machine::Pc, 5120 * MIB),
    ] {
        let mut words = qemu.clone();
        words.extend(["-display", "none"].map(OsString::from));
        let file = GuestFile::make(bytes).unwrap();
        let window = Window::reserve(bytes).unwrap();
        let (mut process, listener) = Process::start(&words, machine, &file).unwrap();
        let mut memory = GuestMemory::with_file(window, machine, 0, file).unwrap();
        let socket = accept(&mut process, &listener);
        let shown = serve(socket, &mut memory, Duration::from_secs(3));
        assert_eq!(shown.refused, [""; 0], "{machine} {bytes:#x}");
        // the firmware has remapped the hole
        assert!(shown.parts > 6 && shown.read_only > 0, "{shown:?}");
        assert!(memory.is_complete(), "{machine} {bytes:#x}: {:?}", memory.waits_for());
        assert_eq!(process.ended(), None);
    }
}

/// A machine of another type than the configuration says is refused, in words, and its QEMU ends.
#[test]
#[ignore = "it needs QEMU"]
fn a_machine_of_the_wrong_type_is_refused() {
    let qemu = qemu();
    let bytes = 4096 * MIB;
    let mut words = qemu.clone();
    words.extend(["-display", "none", "-M", "pc"].map(OsString::from));
    let file = GuestFile::make(bytes).unwrap();
    let window = Window::reserve(bytes).unwrap();
    let (mut process, listener) = Process::start(&words, Machine::Q35, &file).unwrap();
    let mut memory = GuestMemory::with_file(window, Machine::Q35, 0, file).unwrap();
    let socket = accept(&mut process, &listener);
    let shown = serve(socket, &mut memory, Duration::from_secs(3));
    let high = shown.refused.iter().find(|text| text.contains(&format!("{HIGH:#x}")));
    assert!(high.is_some(), "{shown:?}");
    assert!(!memory.is_complete());
    eprintln!("{:?}, {:?}: {:?}", process.ended(), memory.waits_for(), shown.refused);
}
