//! Without VFIO: the paths lie under a folder of the test, the kernel is that of this file, and the device's file is memory, in which a thread plays the
//! controller. Each step can be made to fail.

mod bench;

use std::ffi::CStr;
use std::fs::{self, File};
use std::io;
use std::os::fd::OwnedFd;
use std::os::unix::fs::{symlink, FileExt};
use std::path::PathBuf;
use std::sync::atomic::{AtomicBool, AtomicU32, Ordering};
use std::sync::{Mutex, MutexGuard};
use std::thread::JoinHandle;
use std::time::{Duration, Instant};

use nix::fcntl::{fcntl, FcntlArg, OFlag};
use nix::sys::memfd::{memfd_create, MemFdCreateFlag};

use self::bench::*;
use super::kernel::*;
use super::*;
use crate::drive::nvme::access::property;
use crate::drive::nvme::fake::{Fake, TestMemory};
use crate::drive::nvme::Access;
use crate::drive::{Budget, Drive, LaneRings, Progress};
use crate::memory::Piece;

const ADDRESS: &str = "0000:01:00.0";
const CONFIG_AT: u64 = 0x8000;
const BAR_AT: u64 = 0x1_0000;
const BAR_BYTES: u32 = 0x4000;
const FROM: u64 = 0x1_0000;
const MEMORY: u64 = 1 << 20;
const NEEDS: Needs = Needs {
    admin: FROM,
    blocks: 4096,
    lanes: 1,
    interrupts: false,
};
const BUDGET: Budget = Budget {
    commands: 64,
    bytes: 1 << 20,
};
const LANE: LaneRings = LaneRings {
    submission: 0x8_0000,
    completion: 0x8_2000,
    entries: 65,
};

#[test]
fn a_good_device_is_opened_used_and_closed() {
    for node in [false, true] {
        let bench = Bench::new(|_| {});
        let bench = if node { bench.with_node() } else { bench };
        let player = bench.play();
        let mut drive = bench.open().unwrap();
        assert!(
            drive
                .describe()
                .starts_with("0000:01:00.0: A fake controller, serial SN 1"),
            "{}",
            drive.describe()
        );
        let base = bench.memory.base() as u64;
        let map = |iova, bytes| DmaMap {
            address: base + iova,
            iova,
            bytes,
        };
        {
            let state = bench.state();
            assert_eq!(state.maps, [map(FROM, 0x4_0000), map(0x8_0000, 0x8_0000)]);
            assert_eq!(
                (
                    state.violations,
                    state.asked.contains(&"bind"),
                    state.asked.contains(&"container")
                ),
                (0, node, !node)
            );
            let indexes: Vec<u32> = state.events.iter().map(|e| e.0).collect();
            assert_eq!(indexes, [IRQ_MSIX, IRQ_ERROR, IRQ_REQUEST]);
        }
        assert_eq!(bench.command(), 0x407);
        drive.create_lanes(&[LANE]).unwrap();
        for _ in 0..20 {
            assert_eq!(drive.work(BUDGET).unwrap(), Progress::default());
            drive.check().unwrap();
            std::thread::sleep(Duration::from_micros(200));
        }
        drive.ring_submission(0, 5).unwrap();
        assert_eq!(bench.bar(0x1008), 5);
        drive.ring_completion(0, 5).unwrap();
        assert_eq!(bench.bar(0x100c), 5);
        assert!(drive.ring_submission(1, 0).is_err());
        // interrupts
        let mut polled = [nix::poll::PollFd::new(
            drive.wake().unwrap(),
            nix::poll::PollFlags::POLLIN,
        )];
        assert_eq!(nix::poll::poll(&mut polled, 0u8).unwrap(), 0);
        bench.signal(IRQ_MSIX);
        assert_eq!(nix::poll::poll(&mut polled, 0u8).unwrap(), 1);
        drive.woken();
        let mut polled = [nix::poll::PollFd::new(
            drive.wake().unwrap(),
            nix::poll::PollFlags::POLLIN,
        )];
        assert_eq!(nix::poll::poll(&mut polled, 0u8).unwrap(), 0);
        drive.close().unwrap();
        assert_eq!(bench.command(), 0x403);
        let fake = player.end();
        assert_eq!((fake.shutdowns, fake.deleted, fake.completion[1].flags), (1, 2, 3));
        assert_eq!(bench.state().events.iter().filter(|e| e.1.is_none()).count(), 3);
        assert_eq!(Arc::strong_count(&bench.file), 1);
    }
}

#[test]
fn a_reset_is_polled() {
    let bench = Bench::new(|_| {});
    let player = bench.play();
    let mut drive = bench.open().unwrap();
    drive.create_lanes(&[LANE]).unwrap();
    drive.recover().unwrap().reset().unwrap();
    assert!(drive.wake().is_none() && drive.recover().unwrap().is_recovering());
    let begin = Instant::now();
    while drive.recover().unwrap().is_recovering() {
        drive.work(BUDGET).unwrap();
        drive.check().unwrap();
        assert!(begin.elapsed() < Duration::from_secs(20));
        std::thread::sleep(Duration::from_micros(100));
    }
    assert!(drive.wake().is_some());
    assert_eq!(drive.recover().unwrap().oldest(0), None);
    drive.recover().unwrap().abort(0).unwrap();
    drive.close().unwrap();
    assert_eq!(player.end().enables, 2);
}

#[test]
fn without_message_interrupts_it_is_polled() {
    for change in [
        (|s: &mut State| s.msix = 0) as fn(&mut State),
        |s| s.fail = Some(("set irq", libc::EINVAL)),
        |s| {
            s.fail = Some(("irq", libc::EINVAL));
        },
    ] {
        let bench = Bench::new(change);
        let player = bench.play();
        let mut drive = bench.open().unwrap();
        assert!(drive.wake().is_none() && drive.describe().ends_with(", polled"));
        drive.create_lanes(&[LANE]).unwrap();
        drive.close().unwrap();
        assert_eq!(player.end().completion[1].flags, 1);
    }
}

#[test]
fn a_device_that_fails_or_is_wanted_back_ends_the_drive() {
    for (index, part) in [
        (IRQ_ERROR, "an error of 0000:01:00.0 that it cannot correct"),
        (IRQ_REQUEST, "wants 0000:01:00.0 back"),
    ] {
        let bench = Bench::new(|_| {});
        let player = bench.play();
        let mut drive = bench.open().unwrap();
        drive.check().unwrap();
        bench.signal(index);
        assert!(drive.check().unwrap_err().to_string().contains(part));
        drive.close().unwrap();
        player.end();
    }
    // the controller is gone when it is closed
    let bench = Bench::new(|_| {});
    let player = bench.play();
    let drive = bench.open().unwrap();
    player.end();
    bench
        .file
        .write_all_at(&[0xff; 4], BAR_AT + u64::from(property::CSTS))
        .unwrap();
    assert!(drive.close().unwrap_err().to_string().contains("is gone"));
    assert_eq!(bench.command(), 0x403);
}

fn refused(bench: &Bench, part: &str) {
    let said = bench.open().err().unwrap().to_string();
    assert!(said.contains(part), "{said:?} has no {part:?}");
    assert_eq!(Arc::strong_count(&bench.file), 1, "{part}");
    assert!(bench.command() == 7 || bench.command() & 4 == 0, "{part}"); // as it was, or without bus mastering
}

#[test]
fn paths_are_checked() {
    let at = |name: &str| {
        let bench = Bench::new(|_| {});
        fs::remove_file(bench.root.join(name)).unwrap();
        bench
    };
    let device = format!("sys/bus/pci/devices/{ADDRESS}");
    let link = |name: &str, target: &str| {
        let bench = at(&format!("{device}/{name}"));
        symlink(target, device_folder(&bench.root).join(name)).unwrap();
        bench
    };
    refused(
        &at("dev/vfio/vfio"),
        "dev/vfio/vfio: No such file or directory (os error 2) (is the module vfio-pci loaded",
    );
    refused(
        &at("dev/vfio/7"),
        "dev/vfio/7, the group of 0000:01:00.0: No such file or directory",
    );
    refused(
        &at(&format!("{device}/driver")),
        "0000:01:00.0 has no driver: bind it to vfio-pci",
    );
    refused(
        &link("driver", "../nvme"),
        "0000:01:00.0 has the driver nvme: bind it to vfio-pci",
    );
    refused(&at(&format!("{device}/iommu_group")), "is in no group of an I/O MMU");
    refused(&link("iommu_group", ".."), "is in no group of an I/O MMU");
    let bench = Bench::new(|_| {});
    for address in [
        "0000:02:00.0",
        "",
        "/",
        "../0000:01:00",
        "0000:01:00.0/driver",
        "0000:01..00.0",
    ] {
        let said = VfioDrive::reaches_under(bench.kernel(), &bench.root, address)
            .unwrap_err()
            .to_string();
        assert!(said.contains("there is no PCI device"), "{said}");
    }
    assert!(VfioDrive::reaches("ffff:ff:1f.7").is_err());
    assert!(VfioDrive::open("ffff:ff:1f.7", bench.memory.clone(), NEEDS).is_err());
}

#[test]
fn each_step_is_checked() {
    let steps = [
        ("version", "does not answer as VFIO: Inappropriate ioctl"),
        ("extension", "has no I/O MMU of type 1 version 2"),
        ("status", "does not answer as a group of VFIO"),
        ("container", "group 7 cannot be put into a container"),
        ("iommu", "the I/O MMU cannot be set up"),
        ("info", "the I/O MMU does not say what it can do"),
        ("device", "the group does not give 0000:01:00.0"),
        ("device info", "the device does not answer as VFIO"),
        ("reset", "0000:01:00.0 cannot be reset"),
        ("region", "the device does not say where its configuration space is"),
        (
            "map",
            "0x40000 bytes cannot be mapped for the device at 0x10000: Inappropriate ioctl",
        ),
    ];
    for (step, part) in steps {
        refused(&Bench::new(|s| s.fail = Some((step, libc::ENOTTY))), part);
    }
    let bad = |part: &str, change: fn(&mut State)| refused(&Bench::new(change), part);
    bad("is the limit of locked memory, ulimit -l, large enough?", |s| {
        s.fail = Some(("map", libc::ENOMEM))
    });
    bad("does not say what it can do: Invalid argument", |s| {
        (s.fail, s.passes) = (Some(("info", libc::EINVAL)), 1)
    });
    bad("does not say where its BAR0 is", |s| {
        (s.fail, s.passes) = (Some(("region", libc::EINVAL)), 1)
    });
    bad("has version 1 of VFIO, not 0", |s| s.version = 1);
    bad("has no I/O MMU of type 1 version 2", |s| s.extension = false);
    bad("group 7 has devices that are not bound to vfio-pci", |s| s.viable = 0);
    bad("is no PCI device", |s| s.device_flags = 4);
    bad("is no PCI device", |s| s.regions = 7);
    bad("BAR0 cannot be mapped", |s| s.bar_flags = 3);
    bad("BAR0 cannot be read and written", |s| s.bar_flags = 5);
    bad("BAR0 cannot be read and written", |s| s.bar_flags = 6);
    bad("the device's configuration space has 63 bytes only", |s| {
        s.config_bytes = 63
    });
    bad("the device's BAR0 has 4095 bytes", |s| s.bar_bytes = 4095);
    bad("the device's BAR0 has 0 bytes", |s| s.bar_bytes = 0);
    bad("the device's BAR0 has 4294967296 bytes", |s| s.bar_bytes = 1 << 32);
    bad("cannot translate all of 0x80000 and 0x80000 bytes", |s| {
        s.ranges = vec![(0, 0x4_ffff), (0x8_0001, u64::MAX)]
    });
    bad("cannot translate all of 0x10000 and 0x40000 bytes", |s| {
        s.ranges = vec![(0x1_1000, u64::MAX)]
    });
    bad("cannot translate all of 0x10000 and 0x40000 bytes", |s| {
        s.ranges = vec![(0, 0x4_fffe), (0x8_0000, u64::MAX)]
    });
    let bench = Bench::new(|_| {});
    bench.file.write_all_at(&[2, 6, 1], CONFIG_AT + 9).unwrap();
    refused(&bench, "is no NVMe controller: its class is 0x010602");
    // where the device cannot be reset by itself nothing is asked of it; and registers of which none answers
    let bench = Bench::new(|s| s.device_flags = DEVICE_PCI);
    bench.file.write_all_at(&[0xff; 8], BAR_AT).unwrap();
    refused(&bench, "there is no controller");
    assert!(!bench.state().asked.contains(&"reset"));
    // a command register that does not do what it is told: a file that is appended to plays it
    for (command, part) in [
        (0x400u16, "is 0x0400 after 0x0402 was written"),
        (0x406, "is 0x0406 after 0x0402 was written"),
    ] {
        let bench = Bench::new(|_| {});
        bench.file.write_all_at(&command.to_le_bytes(), CONFIG_AT + 4).unwrap();
        use std::os::fd::AsRawFd;
        fcntl(bench.file.as_raw_fd(), FcntlArg::F_SETFL(OFlag::O_APPEND)).unwrap();
        let said = bench.open().err().unwrap().to_string();
        assert!(said.contains(part), "{said}");
    }
}

#[test]
fn where_iommufd_cannot_be_used_the_group_is() {
    for step in ["node", "bind", "space", "attach", "ranges"] {
        let bench = Bench::new(|s| s.fail = Some((step, libc::ENOTTY))).with_node();
        assert_eq!(bench.reaches().len(), 2);
        assert!(bench.state().asked.contains(&"container"));
        assert_eq!(Arc::strong_count(&bench.file), 1);
    }
    refused(
        &Bench::new(|s| s.fail = Some(("map into", libc::EINVAL))).with_node(),
        "cannot be mapped for the device at 0x10000",
    );
    // without a node, without /dev/iommu
    for missing in ["dev/vfio/devices/vfio3", "dev/iommu"] {
        let bench = Bench::new(|_| {}).with_node();
        fs::remove_file(bench.root.join(missing)).unwrap();
        bench.reaches();
        assert!(!bench.state().asked.contains(&"bind"));
    }
}

#[test]
fn ranges_are_checked() {
    let all = [Reach {
        from: 0,
        to: ADDRESS_END,
    }];
    let two = [
        Reach {
            from: 0,
            to: 0xfee0_0000,
        },
        Reach {
            from: 0xfef0_0000,
            to: ADDRESS_END,
        },
    ];
    assert_eq!(Bench::new(|_| {}).reaches(), two);
    assert_eq!(Bench::new(|_| {}).with_node().reaches(), two);
    assert_eq!(Bench::new(|s| s.ranges.clear()).reaches(), all);
    assert_eq!(
        Bench::new(|s| s.ranges = vec![(0x5000, 0x4000), (1, 2)]).reaches(),
        [Reach { from: 1, to: 3 }]
    );
    assert_eq!(
        Bench::new(|s| s.ranges = vec![(0, 1), (ADDRESS_END, u64::MAX)]).reaches(),
        [Reach { from: 0, to: 2 }]
    );
    let ranges = [(0u64, 0xfffu64), (0x2000, u64::MAX)];
    let with = |info: Vec<u8>, argsz: Option<u32>| Bench::new(|s| (s.info, s.argsz) = (Some(info), argsz)).reaches();
    // more ranges than there are bytes; a list of capabilities without end; another kind; places and sizes that cannot be
    assert_eq!(
        with(info_of(&ranges, u32::MAX, CAPABILITY_RANGES, 0, 24), None).len(),
        2
    );
    assert_eq!(
        with(info_of(&ranges, 2, CAPABILITY_RANGES, 24, 24), None).len(),
        MOST_RANGES
    );
    assert_eq!(with(info_of(&ranges, 2, 3, 0, 24), None), all);
    for at in [60, 71, 72, u32::MAX] {
        assert_eq!(with(info_of(&ranges, 2, CAPABILITY_RANGES, 0, at), None), all);
    }
    for argsz in [0, 4, 65_537, u32::MAX] {
        assert_eq!(with(info_of(&ranges, 2, CAPABILITY_RANGES, 0, 24), Some(argsz)), all);
    }
}

/// Random answers about an I/O MMU.
#[test]
fn random_ranges() {
    let mut random = 0x1357_9bdf_0246_8aceu64;
    let mut next = move || {
        random ^= random << 13;
        random ^= random >> 7;
        random ^= random << 17;
        random
    };
    let good = info_of(&[(0, 0xfff), (0x2000, u64::MAX)], 2, CAPABILITY_RANGES, 0, 24);
    let bench = Bench::new(|_| {});
    for _ in 0..2000 {
        let mut info = good.clone();
        for _ in 0..next() % 5 {
            let at = (next() % info.len() as u64) as usize;
            info[at] = next() as u8;
        }
        bench.state().info = Some(info);
        for reach in bench.reaches() {
            assert!(reach.from < reach.to && reach.to <= ADDRESS_END);
        }
    }
}

/// The requests as the kernel has them: each one refuses a descriptor that isn't VFIO's.
#[test]
fn the_real_kernel_refuses_other_files() {
    let file = File::open("/dev/null").unwrap();
    let fd = file.as_fd();
    let map = DmaMap {
        address: 0,
        iova: 0,
        bytes: 0,
    };
    assert!(Linux.api_version(fd).is_err() && Linux.has_extension(fd, TYPE1V2).is_err());
    assert!(Linux.set_iommu(fd, TYPE1V2).is_err() && Linux.group_flags(fd).is_err());
    assert!(Linux.set_container(fd, fd).is_err() && Linux.device(fd, c"0000:00:00.0").is_err());
    assert!(Linux.iommu_info(fd, &mut [0; 24]).is_err() && Linux.iommu_info(fd, &mut []).is_err());
    assert!(Linux.bind(fd, fd).is_err() && Linux.new_space(fd).is_err() && Linux.attach(fd, 1).is_err());
    assert!(Linux.space_ranges(fd, 1).is_err() && Linux.device_info(fd).is_err());
    assert!(Linux.region_info(fd, 0).is_err() && Linux.irq_info(fd, 0).is_err());
    assert!(Linux.set_irq(fd, 0, Some(fd)).is_err() && Linux.set_irq(fd, 0, None).is_err() && Linux.reset(fd).is_err());
    // SAFETY: /dev/null maps nothing.
    unsafe { assert!(Linux.map(fd, &map).is_err() && Linux.map_into(fd, 1, &map).is_err()) };
    assert!(Linux.open(Path::new("/nonexistent")).is_err());
    assert!(Bar::map(fd, 0, 0).is_err() && Bar::map(fd, u64::MAX, 4096).is_err());
}
