//! Pages of Identify are written out by hand from the NVMe specifications, and what sysfs has as Linux has it.

use std::os::unix::fs::symlink;

use super::*;
use crate::drive::nvme::bytes::put;
use crate::drive::testing::{Folder, Random};

/// A folder that has of sysfs what is looked at: the generic device 240:3 of the namespace whose block device is 259:7.
fn sysfs(folder: &Folder, name: &str, kind: &str, most_kib: &str, most_pieces: &str) -> PathBuf {
    let root = folder.file("sys");
    let generic = root.join("devices/pci/nvme").join(name);
    let class = root.join("class").join(kind);
    let block = root.join("class/block/nvme0n1");
    for it in [&generic, &class, &block.join("queue"), &root.join("dev/char")] {
        fs::create_dir_all(it).expect("a folder");
    }
    symlink(&generic, root.join("dev/char/240:3")).expect("a link");
    symlink(&class, generic.join("subsystem")).expect("a link");
    fs::write(block.join("dev"), "259:7\n").expect("a file");
    fs::write(block.join("queue/max_hw_sectors_kb"), format!("{most_kib}\n")).expect("a file");
    fs::write(block.join("queue/max_segments"), format!("{most_pieces}\n")).expect("a file");
    fs::write(block.join("queue/zoned"), "none\n").expect("a file");
    root
}

#[test]
fn the_block_device_is_that_of_the_namespace() {
    let folder = Folder::new();
    let root = sysfs(&folder, "ng0n1", "nvme-generic", "128", "33");
    let found = BlockDevice::beside(&root, makedev(240, 3)).expect("a block device");
    let expected = BlockDevice {
        name: "nvme0n1".to_owned(),
        device: makedev(259, 7),
        most_kib: 128,
        most_pieces: 33,
        zones: "none".to_owned(),
    };
    assert_eq!(found, expected);
    assert_eq!(found.fits(), Ok(()));
    let said = BlockDevice::beside(&root, makedev(240, 4)).expect_err("there is none");
    assert_eq!(said, "is no generic NVMe device such as /dev/ng0n1");
    for (name, kind) in [("nvme0", "nvme"), ("ng0n1", "nvme"), ("null", "nvme-generic")] {
        let folder = Folder::new();
        let root = sysfs(&folder, name, kind, "128", "33");
        let said = BlockDevice::beside(&root, makedev(240, 3)).expect_err("another device");
        assert_eq!(said, "is no generic NVMe device such as /dev/ng0n1", "{name} {kind}");
    }
    fs::write(root.join("class/block/nvme0n1/queue/zoned"), "host-managed\n").expect("a file");
    let said = BlockDevice::beside(&root, makedev(240, 3)).and_then(|it| it.fits());
    let words = "is a namespace with zones (host-managed), where blocks are written in order";
    assert_eq!(said.expect_err("zones"), words);
    fs::write(root.join("class/block/nvme0n1/dev"), "259\n").expect("a file");
    let said = BlockDevice::beside(&root, makedev(240, 3)).expect_err("no number");
    assert_eq!(said, "the kernel gives its block device the number 259");
    fs::remove_file(root.join("class/block/nvme0n1/dev")).expect("a file");
    let said = BlockDevice::beside(&root, makedev(240, 3)).expect_err("no number");
    assert!(said.contains("nvme0n1/dev: cannot be read"), "{said}");
}

#[test]
fn a_kernel_that_hands_over_too_little_is_refused() {
    for (kib, pieces, words) in [
        (
            "127",
            "33",
            "the kernel hands it at most 127 KiB at once, and 128 are needed",
        ),
        (
            "128",
            "32",
            "the kernel hands it at most 32 pieces of memory at once, and 33 are needed",
        ),
        ("2048", "0", "the kernel hands it at most 0 pieces"),
        ("-1", "127", "queue/max_hw_sectors_kb: has no number: -1"),
        ("128", "", "queue/max_segments: has no number: "),
    ] {
        let folder = Folder::new();
        let root = sysfs(&folder, "ng0n1", "nvme-generic", kib, pieces);
        let found = BlockDevice::beside(&root, makedev(240, 3));
        let said = found.and_then(|it| it.fits()).expect_err("too little");
        assert!(said.contains(words), "{said}");
    }
}

#[test]
fn other_files_are_refused() {
    let folder = Folder::new();
    let file = folder.file("file");
    fs::write(&file, [0; 4096]).expect("a file");
    let refused = |path: &Path| Opened::at(path, 1).expect_err("no drive").to_string();
    let said = refused(&folder.file("none"));
    assert!(said.contains("none: cannot be looked at: "), "{said}");
    for path in [file.as_path(), Path::new("/")] {
        assert!(refused(path).ends_with(": is no character device such as /dev/ng0n1"));
    }
    let said = refused(Path::new("/dev/null"));
    assert_eq!(said, "/dev/null: is no generic NVMe device such as /dev/ng0n1");
    // a device that sysfs says is one, and that has no block device beside it
    let about = fs::metadata("/dev/null").expect("a device");
    let root = sysfs(&folder, "ng0n1", "nvme-generic", "128", "33");
    let link = root.join(format!("dev/char/{}:{}", major(about.rdev()), minor(about.rdev())));
    fs::rename(root.join("dev/char/240:3"), link).expect("a link");
    let said = open(Path::new("/dev/null"), &root).expect_err("no drive");
    assert!(
        said.starts_with("its block device /dev/nvme0n1 cannot be looked at: ") || said.contains("nvme0n1"),
        "{said}"
    );
}

/// The pages of a drive that is as it has to be, by CNS.
fn pages() -> [[u8; PAGE_BYTES]; 3] {
    let mut controller = [0; PAGE_BYTES];
    put(&mut controller, 4, b"number              ");
    put(&mut controller, 24, b"A drive                                 ");
    put(&mut controller, 64, b"1.0     ");
    controller[77] = 5;
    put(&mut controller, 80, &0x0002_0100u32.to_le_bytes());
    put(&mut controller, 512, &[0x66, 0x44]);
    controller[516] = 1;
    controller[520] = 0x0d;
    let mut namespace = [0; PAGE_BYTES];
    put(&mut namespace, 0, &4096u64.to_le_bytes());
    namespace[33] = 9;
    namespace[128 + 2] = 9;
    [namespace, controller, [0; PAGE_BYTES]]
}

fn looked(
    pages: &[[u8; PAGE_BYTES]; 3],
    change: impl Fn(u32) -> Option<io::Result<u32>>,
) -> Result<(Found, Abilities), String> {
    look(7, 4096, |cns, namespace| {
        assert_eq!(namespace, if cns == 0 { 7 } else { 0 });
        let page = match cns {
            0 | 1 => pages[cns as usize],
            6 => pages[2],
            _ => panic!("CNS {cns}"),
        };
        let status = change(cns).unwrap_or(Ok(0))?;
        Ok((status, Box::new(page)))
    })
}

#[test]
fn a_drive_is_asked_of_itself() {
    let (found, abilities) = looked(&pages(), |_| None).expect("a drive");
    let words =
        "A drive, serial number, firmware 1.0, NVMe 2.1, 4096 blocks, Compare, Dataset Management, Write Zeroes";
    assert_eq!(found.to_string(), words);
    assert!(abilities.compare && abilities.deallocates_zeroes && abilities.dataset.is_some());
    assert_eq!(abilities.write_zeroes, Some(65_536));
    // limits that a drive before NVMe 2.0 refuses, or the kernel
    for refused in [Ok(0x4002), Err(libc::EACCES)] {
        let refused = || refused.map_err(io::Error::from_raw_os_error);
        let (_, abilities) = looked(&pages(), |cns| (cns == 6).then(refused)).expect("a drive");
        assert_eq!(abilities.write_zeroes, Some(256));
    }
}

#[test]
fn a_drive_that_is_not_as_it_has_to_be_is_refused() {
    type Change = fn(&mut [[u8; PAGE_BYTES]; 3]);
    let changes: [(&str, Change); 8] = [
        ("the controller transfers at most 64 KiB", |p| p[1][77] = 4),
        ("the controller has no namespace", |p| p[1][516] = 0),
        ("the controller is no I/O controller", |p| p[1][111] = 2),
        ("namespace 7 has 4095 blocks, and the extents end at block 4096", |p| {
            p[0][..2].copy_from_slice(&[0xff, 0x0f])
        }),
        ("namespace 7 has blocks of 2^12 bytes, not 512", |p| p[0][130] = 12),
        ("namespace 7 has 8 bytes of metadata a block", |p| p[0][128] = 8),
        ("namespace 7 is write protected", |p| p[0][99] = 1),
        ("namespace 7 says that it has", |p| p[0][..8].fill(0xff)),
    ];
    for (words, change) in changes {
        let mut pages = pages();
        change(&mut pages);
        let said = looked(&pages, |_| None).expect_err("refused");
        assert!(said.contains(words), "{said}");
    }
    for (cns, name) in [(0, "Identify Namespace"), (1, "Identify Controller")] {
        let said = looked(&pages(), |it| (it == cns).then_some(Ok(0x400b))).expect_err("refused");
        assert_eq!(said, format!("the drive refuses {name} with status 0x400b"));
        let denied = || Err(io::Error::from_raw_os_error(libc::EACCES));
        let said = looked(&pages(), |it| (it == cns).then(denied)).expect_err("refused");
        let end = "before Linux 6.2 that needs the right CAP_SYS_ADMIN";
        assert!(
            said.starts_with(&format!("the kernel refuses {name}: ")) && said.ends_with(end),
            "{said}"
        );
    }
}

/// Whatever the drive says of itself: it is refused, or is as the rest of the program takes it.
#[test]
fn random_pages() {
    let mut random = Random::new(17);
    let mut taken = 0;
    for _ in 0..5000 {
        let mut pages = pages();
        for page in &mut pages {
            for _ in 0..random.below(8) {
                let place = match random.below(4) {
                    0 => random.below(4096),
                    _ => [0, 1, 3, 4, 8, 33, 26, 77, 99, 128, 130, 520][random.below(12) as usize],
                };
                page[place as usize] = random.next() as u8;
            }
        }
        let status = random.next() as u32 & 0x1_ffff;
        let refused = |cns| (cns == random_cns(status)).then_some(Ok(status));
        if let Ok((found, abilities)) = looked(&pages, refused) {
            taken += 1;
            assert!(found.namespace.blocks >= 4096 && found.namespace.blocks.checked_mul(512).is_some());
            assert!(abilities
                .write_zeroes
                .is_none_or(|blocks| (1..=65_536).contains(&blocks)));
            assert!(abilities.piece() >= 512 && abilities.piece() % 512 == 0);
            assert!(abilities
                .dataset
                .is_none_or(|limits| limits.ranges > 0 && limits.blocks > 0));
        }
    }
    assert!((500..4500).contains(&taken), "{taken} were taken");
}

/// The page that is refused, or none of them.
fn random_cns(status: u32) -> u32 {
    [1, 6, 6, 7][status as usize % 4]
}
