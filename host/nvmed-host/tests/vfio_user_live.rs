//! QEMU itself as the client: 10.1 or later, in a root folder of its own. It is left out by default:
//!
//! ```text
//! NVMED_QEMU_ROOT=/some/root cargo test --test vfio_user_live -- --ignored --nocapture
//! ```
#![allow(clippy::unwrap_used, clippy::expect_used, clippy::panic)]

mod client;
mod vfio_user;

use std::io::Write;
use std::os::fd::OwnedFd;
use std::os::unix::net::UnixListener;
use std::path::PathBuf;
use std::process::{Child, Command, Stdio};
use std::time::{Duration, Instant};

use nix::poll::PollTimeout;
use nvmed_host::vfio_user::{Connection, Error};
use vfio_user::*;

/// How long QEMU's firmware runs: it has mapped its memory anew and looked at the device then.
const RUN: Duration = Duration::from_secs(4);

struct Qemu(Child);

impl Drop for Qemu {
    fn drop(&mut self) {
        let _ = self.0.kill();
        let _ = self.0.wait();
    }
}

fn qemu(root: &std::path::Path, socket: &str, machine: &str) -> Qemu {
    let device = format!(r#"{{"driver":"vfio-user-pci","socket":{{"type":"unix","path":"{socket}"}}}}"#);
    let machine = format!("{machine},memory-backend=mem");
    let words = [
        "-accel",
        "tcg",
        "-m",
        "256M",
        "-object",
        "memory-backend-memfd,id=mem,size=256M,share=on",
        "-machine",
    ];
    let child = Command::new("chroot")
        .arg(root)
        .arg("qemu-system-x86_64")
        .args(words)
        .args([
            &machine,
            "-nodefaults",
            "-display",
            "none",
            "-vga",
            "std",
            "-device",
            &device,
        ])
        .args(["-qmp", "stdio"])
        .stdin(Stdio::piped())
        .stdout(Stdio::null())
        .spawn();
    Qemu(child.unwrap())
}

/// Configuration space of a device that no firmware has a driver for, with MSI-X of 9 vectors.
fn fill_config(config: &mut [u8]) {
    let parts: [(usize, &[u8]); 6] = [
        (0, &[0x36, 0x1b, 0xf0, 0x0f]),
        (6, &[0x10]),
        (8, &[1, 0, 0, 0xff]),
        (0x2c, &[0xf4, 0x1a, 0, 0x11]),
        (0x34, &[0x40]),
        (0x40, &[0x11, 0, 8, 0, 0, 0x20, 0, 0, 0, 0x30, 0, 0]),
    ];
    for (at, bytes) in parts {
        config[at..at + bytes.len()].copy_from_slice(bytes);
    }
}

/// Serves QEMU for a while.
fn run(connection: &mut Connection, state: &mut State) {
    let begin = Instant::now();
    while begin.elapsed() < RUN {
        turn(connection, state, PollTimeout::from(100u8)).unwrap();
    }
}

#[test]
#[ignore = "needs QEMU 10.1 or later in NVMED_QEMU_ROOT"]
fn qemu_starts() {
    let root = PathBuf::from(std::env::var_os("NVMED_QEMU_ROOT").expect("NVMED_QEMU_ROOT names a root folder"));
    for machine in ["q35", "pc"] {
        let name = format!("/tmp/vfio-user-{}-{machine}", std::process::id());
        let path = root.join(&name[1..]);
        let listener = UnixListener::bind(&path).unwrap();
        let mut qemu = qemu(&root, &name, machine);
        let device = device();
        let mut state = State::new(&device);
        fill_config(&mut state.regions[7]);
        let mut connection = Connection::new(OwnedFd::from(listener.accept().unwrap().0), device).unwrap();
        std::fs::remove_file(&path).unwrap();
        run(&mut connection, &mut state);
        let resets = state.resets;
        let mut words = qemu.0.stdin.take().unwrap();
        words
            .write_all(br#"{"execute":"qmp_capabilities"}{"execute":"system_reset"}"#)
            .unwrap();
        run(&mut connection, &mut state);
        assert!(
            state.resets > resets && resets > 0,
            "the machine was reset, and its device"
        );
        assert_eq!(qemu.0.try_wait().unwrap(), None, "QEMU goes on");
        println!("{machine}: agreed {:?}", connection.session().agreed());
        state
            .maps
            .iter()
            .for_each(|(address, map)| println!("  {address:#x} {:#x} at {:#x} {:?}", map.0, map.1, map.2));
        println!(
            "  resets {}, interrupts {:?}, refused {:?}",
            state.resets,
            state.irqs,
            connection.session().refusals()
        );
        assert_eq!(connection.session().refusals().0, 0);
        assert_eq!(connection.session().maps(), state.maps.len());
        let low = state.maps.get(&0).expect("memory from 0 on");
        assert!(low.2.is_some() && state.maps.len() > 2 && state.resets > 0);
        drop(qemu);
        let error = loop {
            if let Err(error) = turn(&mut connection, &mut state, PollTimeout::from(100u8)) {
                break error;
            }
        };
        assert_eq!(error, Error::Closed);
    }
}
