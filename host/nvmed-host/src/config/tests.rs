use std::fs;
use std::io::Write;
use std::os::unix::ffi::OsStrExt;

use super::*;

mod any_bytes;
mod control;
mod limits;

const GOOD: &str = r#"# two guests
drive ram 1M /var/tmp/disk   # 2,048 blocks
lanes 2
spin 250
guest 0 memory 512M
extent 0 1000 64
extent 0 0x500 0x20
share 0 40
version 0 1.2
descriptors 0 4096
listen 0 /run/guest0.sock
trust 0
machine 0 pc
interrupts 0 pin

guest 1 memory 0x2000
extent 1 1064 216
start 1 qemu-system-x86_64 -append "a # \"b\" \\" ""
start 1 -m 512"#;

const G0: &str = "guest 0 memory 4K\n";

fn rest(text: &str) -> String {
    format!("drive ram 4K\n{G0}{text}")
}

fn parse(text: &str) -> Result<Config, ConfigError> {
    Config::parse(text.as_bytes())
}

fn good(text: &str) -> Config {
    parse(text).unwrap_or_else(|e| panic!("{text:?}: {e}"))
}

/// A text is refused, with the message.
fn refused(text: &str, message: &str) {
    match parse(text) {
        Ok(_) => panic!("it is taken: {text:?}"),
        Err(e) => assert_eq!(e.to_string(), message, "{text:?}"),
    }
}

/// After a guest of 4 KiB in line 1, a line is refused.
fn refused_of_guest(text: &str, message: &str) {
    refused(&format!("{G0}{text}\n"), message);
}

#[test]
fn all_kinds_of_lines() {
    let c = good(GOOD);
    assert_eq!(
        (c.lanes, c.spin, c.drive_line, c.guests.len()),
        (2, Duration::from_micros(250), 2, 2)
    );
    assert_eq!(
        c.drive,
        DriveConfig::Ram {
            bytes: 1 << 20,
            image: Some("/var/tmp/disk".into())
        }
    );
    let [first, second] = c.guests.as_slice() else {
        panic!("two guests")
    };
    assert_eq!(
        first.extents,
        [
            ExtentConfig {
                base: 1000,
                blocks: 64,
                line: 6
            },
            ExtentConfig {
                base: 0x500,
                blocks: 0x20,
                line: 7
            }
        ]
    );
    assert_eq!(
        (first.memory, first.share, first.version, first.descriptors),
        (512 << 20, Some(40), 0x1_0200, 4096)
    );
    assert_eq!(first.connection, Connection::Listen("/run/guest0.sock".into()));
    assert_eq!((first.machine, first.trust, first.blocks()), (Machine::Pc, true, 96));
    assert_eq!(
        (first.interrupts, first.doorbells),
        (Interrupts::Pin, Doorbells::Messages)
    );
    assert_eq!(
        first.lines,
        GuestLines {
            guest: 5,
            share: 8,
            connection: 11,
            user: 11
        }
    );
    assert_eq!((second.memory, second.share, second.file.as_ref()), (8192, None, None));
    assert_eq!(
        (second.version, second.descriptors, second.trust),
        (0x1_0200, 1024, false)
    );
    assert_eq!(
        (second.machine, second.interrupts),
        (Machine::Q35, Interrupts::Messages)
    );
    assert_eq!(second.doorbells, Doorbells::Page);
    let words = ["qemu-system-x86_64", "-append", "a # \"b\" \\", "", "-m", "512"];
    assert_eq!(second.connection, Connection::Start(words.map(OsString::from).to_vec()));
    assert_eq!(
        second.lines,
        GuestLines {
            guest: 16,
            share: 16,
            connection: 18,
            user: 18
        }
    );
    assert_eq!(c.blocks(), 0x520);
    assert_eq!(c.shares(), [40, 24]);
    assert_eq!(
        [999, 1000, 1063, 1064, 1279, 0x500, 0x51f, 0x520].map(|b| c.owner(b)),
        [None, Some(0), Some(0), Some(1), Some(1), Some(0), Some(0), None]
    );
}

#[test]
fn other_drives() {
    let c = good(
        "drive qemu /run/d.sock /dev/shm/m\nguest 0 memory 1G /dev/shm/g0\nextent 0 281474976710655 1\nlisten 0 a\n",
    );
    assert_eq!(
        c.drive,
        DriveConfig::Qemu {
            socket: "/run/d.sock".into(),
            memory: "/dev/shm/m".into()
        }
    );
    assert_eq!((c.lanes, c.spin, c.blocks()), (1, Duration::from_micros(100), 1 << 48));
    assert_eq!(
        (c.guests[0].memory, c.guests[0].file.clone()),
        (1 << 30, Some("/dev/shm/g0".into()))
    );
    let c = good("drive vfio 0000:aB:1f.7\nguest 0 memory 4K f\nextent 0 0 1\nlisten 0 a#c\n");
    assert_eq!(
        c.drive,
        DriveConfig::Vfio {
            address: "0000:aB:1f.7".into()
        }
    );
    assert_eq!(c.guests[0].connection, Connection::Listen("a".into()));
}

/// Digits of both cases, bytes beyond ASCII, each version, and limits that are just met.
#[test]
fn what_is_just_good() {
    for (name, value) in [
        ("1.0", 0x1_0000),
        ("1.1", 0x1_0100),
        ("1.2", 0x1_0200),
        ("1.2.1", 0x1_0201),
        ("1.3", 0x1_0300),
        ("1.4", 0x1_0400),
        ("2.0", 0x2_0000),
    ] {
        let c = good(&rest(&format!("extent 0 0 1\nlisten 0 a\nversion 0 {name}\n")));
        assert_eq!(c.guests[0].version, value);
    }
    let c = good("drive vfio 0000:01:00.0\nguest 0 memory 4K f\nextent 0 0xabCDeF 0xA\nlisten 0 /run/\u{e4}\n");
    assert_eq!(
        (c.guests[0].extents[0].base, c.guests[0].extents[0].blocks),
        (0xab_cdef, 10)
    );
    assert_eq!(c.guests[0].connection, Connection::Listen("/run/\u{e4}".into()));
    let bytes = b"drive ram 4K\nguest 0 memory 4K \xff\nextent 0 0 1\nlisten 0 a\n";
    let c = Config::parse(bytes).unwrap();
    assert_eq!(c.guests[0].file.as_ref().unwrap().as_os_str().as_bytes(), b"\xff");
    let c = good(&rest(
        "extent 0 0 1\nextent 0 2 1\nlisten 0 a\nshare 0 2\ndescriptors 0 1\ndoorbells 0 page\ninterrupts 0 messages\n",
    ));
    assert_eq!((c.guests[0].share, c.guests[0].descriptors), (Some(2), 1));
    assert_eq!((c.guests[0].doorbells, c.shares()), (Doorbells::Page, vec![2]));
    let c = good(&rest("extent 0 0 1\nlisten 0 a\ndoorbells 0 messages\nmachine 0 q35\n"));
    assert_eq!(
        (c.guests[0].doorbells, c.guests[0].machine),
        (Doorbells::Messages, Machine::Q35)
    );
    let c = good("drive ram 4K\nguest 0 memory 8K\nextent 0 0 1\nstart 0 a \"\"\nstart 0 \"\"\n");
    assert_eq!(
        c.guests[0].connection,
        Connection::Start(vec!["a".into(), "".into(), "".into()])
    );
}

#[test]
fn lines_and_words() {
    refused("", "line 1: the configuration ends without a line 'drive'");
    refused(
        "# nothing\n\n\n",
        "line 3: the configuration ends without a line 'drive'",
    );
    refused("frob 1\n", "line 1: unknown word: frob");
    refused("\n  Guest 0 memory 4K", "line 2: unknown word: Guest");
    refused("guest 0\tmemory 4K\n", "line 1: byte 8 is a control character, 0x09");
    refused("guest 0 \x7f\n", "line 1: byte 9 is a control character, 0x7f");
    refused("drive ram 4K\r\n", "line 1: byte 13 is a control character, 0x0d");
    refused("lanes 2\nlanes\0 2\n", "line 2: byte 6 is a control character, 0x00");
    refused("listen 0 \"abc\n", "line 1: the quote of word 3 is not closed");
    refused(
        "listen 0 \"abc\"d\n",
        "line 1: something follows the quote that closes word 3",
    );
    refused("listen 0 ab\"c\"\n", "line 1: a quote stands in the middle of word 3");
    refused(
        "listen 0 \"a\\nc\"\n",
        "line 1: after a backslash there is no quote or backslash in word 3",
    );
    refused(
        "listen 0 \"a\\",
        "line 1: after a backslash there is no quote or backslash in word 3",
    );
    refused("guest 0 memory\n", "line 1: 'guest' has too few words");
    refused("guest 0 memory 4K 5 6\n", "line 1: 'guest' has too many words");
    refused("drive ram 4K a b\n", "line 1: 'drive' has too many words");
    refused("frob\u{9b}31m\u{85}\n", "line 1: unknown word: frob\u{fffd}31m\u{fffd}");
    for kind in [
        "extent 0 1",
        "share 0",
        "descriptors 0",
        "version 0",
        "listen 0",
        "start 0",
        "drive ram",
        "drive file",
        "drive nvme",
        "lanes",
        "spin",
        "trust",
    ]
    .into_iter()
    .chain(["machine 0", "doorbells 0", "interrupts 0"])
    {
        let e = parse(kind).unwrap_err().to_string();
        assert!(e.contains("' has too few words"), "{kind}: {e}");
    }
    for kind in [
        "extent 0 1 1 1",
        "share 0 1 1",
        "descriptors 0 1 1",
        "version 0 1.2 1",
        "listen 0 a b",
        "lanes 1 1",
        "spin 1 1",
    ]
    .into_iter()
    .chain([
        "trust 0 0",
        "machine 0 pc 0",
        "doorbells 0 page 1",
        "interrupts 0 pin 1",
    ]) {
        let e = parse(kind).unwrap_err().to_string();
        assert!(e.contains("' has too many words"), "{kind}: {e}");
    }
}

#[test]
fn lengths() {
    refused(&" ".repeat(MOST_LINE + 1), "line 1: it is longer than 4096 bytes");
    refused(
        &" ".repeat(MOST_LINE),
        "line 1: the configuration ends without a line 'drive'",
    );
    refused(
        &"\n".repeat(MOST_BYTES + 1),
        "line 1: the configuration is longer than 262144 bytes",
    );
    refused(
        &"\n".repeat(MOST_BYTES),
        "line 262144: the configuration ends without a line 'drive'",
    );
    refused(&"a ".repeat(300), "line 1: it has more than 256 words");
    assert!(parse(&"a ".repeat(256))
        .unwrap_err()
        .to_string()
        .contains("unknown word: a"));
    refused(
        &"a".repeat(MOST_LINE),
        &format!("line 1: unknown word: {}", "a".repeat(40)),
    );
}

#[test]
fn guests() {
    refused(
        "drive ram 4K\n",
        "line 1: the configuration ends without a line 'guest'",
    );
    refused(
        "guest 1 memory 4K\n",
        "line 1: guests are numbered from 0 in order: this one should be 0",
    );
    refused(&format!("{G0}{G0}"), "line 2: guest 0 stands in line 1 already");
    refused(
        "guest 16 memory 4K\n",
        "line 1: the guest's number is 16, not in 0 to 15",
    );
    for word in ["-1", "x", "", "0x", "+1", "1_0", "0b1", "4294967296x"] {
        let text = format!("guest \"{word}\" memory 4K\n");
        refused(
            &text,
            &format!("line 1: the guest's number is no number below 2^64: {word}"),
        );
    }
    refused(
        "guest 4294967296 memory 4K\n",
        "line 1: the guest's number is 4294967296, not in 0 to 15",
    );
    refused("guest 0 Memory 4K\n", "line 1: 'memory' is expected, not 'Memory'");
    for word in ["0", "4097", "6144", "5K", "0K"] {
        let message = format!("line 1: the guest's memory is {word}, no multiple of 4096 from 4096 on");
        refused(&format!("guest 0 memory {word}\n"), &message);
    }
    for word in [
        "0X1000",
        "4k",
        "4KB",
        "M",
        "18446744073709551616",
        "4T",
        "0xM",
        "K4",
        "4 K",
    ] {
        let message = format!("line 1: the guest's memory is no size, such as 512M: {word}");
        refused(&format!("guest 0 memory \"{word}\"\n"), &message);
    }
    for word in ["18446744073709551615G", "65537G", "70368744177665"] {
        let message = format!("line 1: the guest's memory is {word}, more than 70368744177664 bytes");
        refused(&format!("guest 0 memory {word}\n"), &message);
    }
    refused(
        "guest 0 memory 65536G\nguest 1 memory 4K\n",
        "line 2: the guests' memories are more than 70368744177664 bytes together",
    );
    refused_of_guest("listen 1 a", "line 2: guest 1 has no line 'guest' before this one");
    refused("share 0 1\n", "line 1: guest 0 has no line 'guest' before this one");
    for kind in [
        "extent 1 0 1",
        "descriptors 1 1",
        "version 1 1.2",
        "machine 1 pc",
        "trust 1",
        "doorbells 1 page",
        "interrupts 1 pin",
        "start 1 a",
    ] {
        refused_of_guest(kind, "line 2: guest 1 has no line 'guest' before this one");
    }
    let many: String = (0..17).map(|i| format!("guest {i} memory 4K\n")).collect();
    refused(&many, "line 17: the guest's number is 16, not in 0 to 15");
}

#[test]
fn what_a_guest_needs() {
    refused(&rest("listen 0 a\n"), "line 2: guest 0 has no line 'extent'");
    refused(
        &rest("extent 0 0 1\n"),
        "line 2: guest 0 has no line 'listen' or 'start'",
    );
    refused(
        &format!("drive qemu s m\n{G0}extent 0 0 1\nlisten 0 a\n"),
        "line 2: guest 0 needs a file of memory, which the drive's QEMU maps, too",
    );
    refused(
        "drive qemu s m\nguest 0 memory 4K a\nextent 0 0 1\nlisten 0 a\nguest 1 memory 4K\nextent 1 1 1\nlisten 1 b\n",
        "line 5: guest 1 needs a file of memory, which the drive's QEMU maps, too",
    );
    refused(
        &format!("drive vfio 0000:01:00.0\n{G0}extent 0 0 1\nlisten 0 a\n"),
        "line 2: guest 0 needs a file of memory, which the drive is given before a client comes",
    );
    good("drive vfio 0000:01:00.0\nguest 0 memory 8K\nextent 0 0 1\nstart 0 a\n");
    refused(
        &rest("extent 0 0 1\nstart 0 a\n"),
        "line 4: QEMU needs a memory of guest 0 that is a multiple of 8192 bytes",
    );
}

#[test]
fn files() {
    refused(
        "guest 0 memory 4K \"\"\n",
        "line 1: the guest's memory has an empty path",
    );
    let taken = "has a file that stands in a former line already";
    refused(
        "guest 0 memory 4K m\nguest 1 memory 4K m\n",
        &format!("line 2: the guest's memory {taken}"),
    );
    refused(
        "drive qemu s m\nguest 0 memory 4K m\n",
        &format!("line 2: the guest's memory {taken}"),
    );
    refused(
        "drive ram 4K m\nguest 0 memory 4K m\n",
        &format!("line 2: the guest's memory {taken}"),
    );
    refused(
        "guest 0 memory 4K m\ndrive qemu s m\n",
        &format!("line 2: the drive's memory {taken}"),
    );
    refused(
        "guest 0 memory 4K m\ndrive ram 4K m\n",
        &format!("line 2: the drive {taken}"),
    );
    refused(
        "drive file m\nguest 0 memory 4K m\n",
        &format!("line 2: the guest's memory {taken}"),
    );
    refused(
        "guest 0 memory 4K m\ndrive file m\n",
        &format!("line 2: the drive {taken}"),
    );
    refused(
        "guest 0 memory 4K m\ndrive nvme m\n",
        &format!("line 2: the drive {taken}"),
    );
    for (form, what, most) in [
        ("drive ram 4K PATH", "the drive", MOST_PATH),
        ("drive file PATH", "the drive", MOST_PATH),
        ("drive nvme PATH", "the drive", MOST_PATH),
        ("guest 0 memory 4K PATH", "the guest's memory", MOST_PATH),
        ("drive qemu a PATH", "the drive's memory", MOST_PATH),
        ("drive qemu PATH a", "the socket", MOST_SOCKET),
    ] {
        let text = form.replace("PATH", &"p".repeat(most + 1));
        refused(&text, &format!("line 1: {what} has a path of more than {most} bytes"));
        let e = parse(&form.replace("PATH", &"p".repeat(most))).unwrap_err().to_string();
        assert!(e.contains("ends without a line"), "{e}");
    }
    let long = "p".repeat(MOST_SOCKET);
    good(&rest(&format!("extent 0 0 1\nlisten 0 {long}\n")));
    refused(
        &rest(&format!("listen 0 {long}p\n")),
        "line 3: the socket has a path of more than 107 bytes",
    );
}

#[test]
fn extents() {
    refused_of_guest(
        "extent 0 0 0",
        "line 2: the count of blocks is 0, not in 1 to 281474976710656",
    );
    refused_of_guest(
        "extent 0 281474976710656 1",
        "line 2: the first block is 281474976710656, not in 0 to 281474976710655",
    );
    refused_of_guest(
        "extent 0 281474976710655 2",
        "line 2: the count of blocks is 2, not in 1 to 1",
    );
    refused_of_guest(
        "extent 0 5 18446744073709551615",
        "line 2: the count of blocks is 18446744073709551615, not in 1 to 281474976710651",
    );
    let beyond = "line 2: the first block is no number below 2^64:";
    refused_of_guest(
        "extent 0 18446744073709551616 1",
        &format!("{beyond} 18446744073709551616"),
    );
    refused_of_guest(
        "extent 0 0x10000000000000000 1",
        &format!("{beyond} 0x10000000000000000"),
    );
    for second in ["19 1", "1 10", "10 1", "0 100", "12 2"] {
        let text = format!("{G0}extent 0 10 10\nextent 0 {second}\n");
        refused(&text, "line 3: its blocks meet those of guest 0 in line 2");
    }
    refused(
        &format!("{G0}guest 1 memory 4K\nextent 0 10 10\nextent 1 0 100\n"),
        "line 4: its blocks meet those of guest 0 in line 3",
    );
    good(&format!(
        "drive ram 1M\n{G0}extent 0 10 10\nextent 0 20 10\nextent 0 9 1\nlisten 0 a\n"
    ));
    let nine: String = (0..9).map(|i| format!("extent 0 {i} 1\n")).collect();
    refused_of_guest(&nine, "line 10: the guest has 8 extents already");
    let mut many = String::from("drive ram 1M\n");
    for guest in 0..9 {
        many += &format!("guest {guest} memory 4K\nlisten {guest} s{guest}\n");
        for extent in 0..8 {
            many += &format!("extent {guest} {} 1\n", guest * 8 + extent);
        }
        if guest == 7 {
            good(&many);
        }
    }
    refused(&many, "line 84: the guests have 64 extents already");
    refused(
        &format!("drive ram 4K\n{G0}extent 0 7 2\nlisten 0 a\n"),
        "line 3: the extent of guest 0 ends beyond the drive's 8 blocks",
    );
    good(&format!("drive ram 4K\n{G0}extent 0 7 1\nlisten 0 a\n"));
    refused(
        &format!("{G0}extent 0 7 1\nlisten 0 a\ndrive ram 4K\nextent 0 8 1\n"),
        "line 5: the extent of guest 0 ends beyond the drive's 8 blocks",
    );
}

/// A guest of 2^32 blocks, which the mediator refuses, ended the former program with memory freed twice.
#[test]
fn a_guest_has_less_than_2_to_the_32_blocks() {
    let of = |text: &str| format!("drive vfio 0000:01:00.0\nguest 0 memory 4K f\nlisten 0 a\n{text}");
    let message = "the guest has more than 4294967295 blocks in all";
    refused(&of("extent 0 0 4294967296\n"), &format!("line 4: {message}"));
    assert_eq!(
        good(&of("extent 0 0 4294967295\n")).guests[0].blocks(),
        u64::from(u32::MAX)
    );
    refused(
        &of("extent 0 0 4294967295\nextent 0 4294967296 1\n"),
        &format!("line 5: {message}"),
    );
    good(&of("extent 0 0 4294967294\nextent 0 4294967296 1\n"));
    refused(&of("extent 0 0 281474976710656\n"), &format!("line 4: {message}"));
}

/// The former program made the file of 2,200 GiB before it saw that an extent did not fit.
#[test]
fn a_large_drive_is_refused_before_it_is_made() {
    let path = std::env::temp_dir().join(format!("nvmed-config-{}", std::process::id()));
    let text = format!(
        "drive ram 2200G {}\n{G0}extent 0 4613734400 1\nlisten 0 a\n",
        path.display()
    );
    refused(
        &text,
        "line 3: the extent of guest 0 ends beyond the drive's 4613734400 blocks",
    );
    assert!(!path.exists());
}

#[test]
fn a_guests_other_lines() {
    refused_of_guest("share 0 0", "line 2: the share of tags is 0, not in 1 to 64");
    refused_of_guest("share 0 65", "line 2: the share of tags is 65, not in 1 to 64");
    refused_of_guest("share 0 1\nshare 0 1", "line 3: the guest's share is in line 2 already");
    refused(
        &rest("extent 0 0 1\nextent 0 2 1\nlisten 0 a\nshare 0 1\n"),
        "line 6: the share of guest 0 is less than the 2 tags that a command of it may need",
    );
    let shares = |a, b| {
        format!(
            "{}share 0 {a}\nguest 1 memory 4K\nextent 1 1 1\nlisten 1 b\n{b}",
            rest("extent 0 0 1\nlisten 0 a\n")
        )
    };
    refused(
        &shares(64, ""),
        "line 6: the guests up to 1 have shares of 65 tags, and a lane has 64",
    );
    refused(
        &shares(63, "share 1 2\n"),
        "line 9: the guests up to 1 have shares of 65 tags, and a lane has 64",
    );
    assert_eq!(good(&shares(63, "")).shares(), [63, 1]);
    assert_eq!(good(&shares(40, "share 1 24\n")).shares(), [40, 24]);
    refused_of_guest(
        "descriptors 0 0",
        "line 2: the count of descriptors is 0, not in 1 to 4096",
    );
    refused_of_guest(
        "descriptors 0 4097",
        "line 2: the count of descriptors is 4097, not in 1 to 4096",
    );
    let former = "in a former line already";
    refused_of_guest(
        "descriptors 0 1024\ndescriptors 0 2",
        &format!("line 3: the guest's count of descriptors stands {former}"),
    );
    refused_of_guest(
        "version 0 2.1",
        "line 2: the version is none of 1.0, 1.1, 1.2, 1.2.1, 1.3, 1.4 and 2.0: 2.1",
    );
    refused_of_guest(
        "version 0 1.2\nversion 0 1.2",
        &format!("line 3: the guest's version stands {former}"),
    );
    refused_of_guest(
        "machine 0 microvm",
        "line 2: the machine is neither q35 nor pc: microvm",
    );
    refused_of_guest(
        "machine 0 pc\nmachine 0 pc",
        &format!("line 3: the guest's machine stands {former}"),
    );
    refused_of_guest("trust 0\ntrust 0", &format!("line 3: the guest is trusted {former}"));
    refused_of_guest(
        "doorbells 0 pages",
        "line 2: the kind of doorbells is neither page nor messages: pages",
    );
    refused_of_guest(
        "doorbells 0 page\ndoorbells 0 page",
        &format!("line 3: how the guest rings its doorbells stands {former}"),
    );
    refused_of_guest(
        "interrupts 0 none",
        "line 2: the kind of interrupts is neither messages nor pin: none",
    );
    refused_of_guest(
        "interrupts 0 pin\ninterrupts 0 pin",
        &format!("line 3: how the guest is interrupted stands {former}"),
    );
    refused(
        &rest("extent 0 0 1\nlisten 0 a\ninterrupts 0 pin\ndoorbells 0 page\n"),
        "line 6: guest 0 rings by a page, which goes with 'interrupts messages' alone: say 'doorbells 0 messages'",
    );
}

#[test]
fn how_a_guest_connects() {
    let former = "stands in a former line already";
    refused_of_guest(
        "listen 0 a\nlisten 0 b",
        &format!("line 3: how the guest connects {former}"),
    );
    refused_of_guest(
        "start 0 a\nlisten 0 b",
        &format!("line 3: how the guest connects {former}"),
    );
    refused_of_guest("listen 0 a\nstart 0 b", "line 3: the guest listens on a socket already");
    refused_of_guest(
        "guest 1 memory 4K\nlisten 0 a\nlisten 1 a",
        "line 4: guest 0 listens on this socket already",
    );
    refused_of_guest("listen 0 \"\"", "line 2: the socket has an empty path");
    refused_of_guest("start 0 \"\" a", "line 2: the program to start has an empty name");
    let words = format!("start 0{}", " a".repeat(128));
    assert!(parse(&format!("{G0}{words}"))
        .unwrap_err()
        .to_string()
        .contains("without a line 'drive'"));
    refused_of_guest(
        &format!("{words} a"),
        "line 2: the guest's program has more than 128 words",
    );
    refused_of_guest(
        &format!("{words}\nstart 0 a"),
        "line 3: the guest's program has more than 128 words",
    );
}

/// Where its QEMU is started the machine's type may stand in its words.
#[test]
fn the_machine_of_a_qemu_that_is_started() {
    let of = |words: &str, more: &str| {
        parse(&format!(
            "drive ram 4K\nguest 0 memory 8K\nextent 0 0 1\nstart 0 qemu {words}\n{more}"
        ))
        .map(|c| c.guests[0].machine)
        .map_err(|e| e.to_string())
    };
    assert_eq!(of("", ""), Ok(Machine::Q35));
    assert_eq!(of("", "machine 0 pc\n"), Ok(Machine::Pc));
    assert_eq!(of("-M pc,usb=on", ""), Ok(Machine::Pc));
    assert_eq!(of("-machine pc-q35-9.2", ""), Ok(Machine::Q35));
    assert_eq!(
        of("-machine usb=on -machine type=pc", "machine 0 pc\n"),
        Ok(Machine::Pc)
    );
    assert_eq!(
        of("-M pc", "machine 0 q35\n"),
        Err(String::from(
            "line 5: the machine of guest 0 is q35, and its QEMU is started as pc"
        ))
    );
    let unknown = "its machine is none of q35 and pc, of which it is known where they have their memory";
    assert_eq!(
        of("-M microvm", ""),
        Err(format!("line 4: guest 0: {unknown}: microvm"))
    );
}

#[test]
fn drives() {
    refused("lanes 0\n", "line 1: the count of lanes is 0, not in 1 to 8");
    refused("lanes 9\n", "line 1: the count of lanes is 9, not in 1 to 8");
    refused("lanes 1\nlanes 1\n", "line 2: the lanes stand in a former line already");
    refused("spin -1\n", "line 1: the spin is no number below 2^64: -1");
    refused("spin 1000001\n", "line 1: the spin is 1000001, not in 0 to 1000000");
    refused("spin 0\nspin 0\n", "line 2: the spin stands in a former line already");
    assert_eq!(good(&rest("spin 0\nextent 0 0 1\nlisten 0 a\n")).spin, Duration::ZERO);
    assert_eq!(
        good(&rest("extent 0 0 1\nlisten 0 a\nspin 1000000\n")).spin,
        Duration::from_secs(1)
    );
    refused(
        "drive ram 4K\ndrive ram 4K\n",
        "line 2: the drive stands in a former line already",
    );
    refused(
        "drive ram 512\n",
        "line 1: the drive is 512, no multiple of 4096 from 4096 on",
    );
    refused(
        "drive ram 65537G\n",
        "line 1: the drive is 65537G, more than 70368744177664 bytes",
    );
    refused("drive ram 4K \"\"\n", "line 1: the drive has an empty path");
    refused("drive file \"\"\n", "line 1: the drive has an empty path");
    let drive = good(&format!("drive file /dev/vg/disk\n{G0}extent 0 7 9000\nlisten 0 a\n")).drive;
    let path = PathBuf::from("/dev/vg/disk");
    assert_eq!(drive, DriveConfig::File { path });
    refused(
        "drive disk 4K\n",
        "line 1: the drive is none of ram, file, nvme, qemu and vfio: disk",
    );
    refused(
        "drive qemu a\n",
        "line 1: 'drive qemu' has a socket and the file of its memory",
    );
    refused("drive file a b\n", "line 1: 'drive file' has one path");
    refused("drive nvme a b\n", "line 1: 'drive nvme' has one path");
    refused("drive nvme \"\"\n", "line 1: the drive has an empty path");
    let drive = good(&format!("drive nvme /dev/ng0n1\n{G0}extent 0 7 9000\nlisten 0 a\n")).drive;
    let path = PathBuf::from("/dev/ng0n1");
    assert_eq!(drive, DriveConfig::Nvme { path });
    refused("drive vfio 0000:01:00.0 a\n", "line 1: 'drive vfio' has one address");
    for address in [
        "01:00.0",
        "0000:01:00.8",
        "0000:01:20.0",
        "0000:01:00,0",
        "0000:g1:00.0",
        "0000:01:00.00",
        "../../../etc",
    ] {
        refused(
            &format!("drive vfio {address}\n"),
            &format!("line 1: the drive's address is not of the form 0000:01:00.0: {address}"),
        );
    }
}

#[test]
fn a_file() {
    let path = std::env::temp_dir().join(format!("nvmed-config-file-{}", std::process::id()));
    let shown = path.display();
    fs::write(&path, GOOD).unwrap();
    assert_eq!(Config::read(&path).unwrap(), good(GOOD));
    fs::OpenOptions::new()
        .append(true)
        .open(&path)
        .unwrap()
        .write_all(b"\nfrob")
        .unwrap();
    assert_eq!(
        Config::read(&path).unwrap_err().to_string(),
        format!("{shown}: line 20: unknown word: frob")
    );
    fs::File::create(&path).unwrap().set_len(MOST_BYTES as u64 + 1).unwrap();
    let e = Config::read(&path).unwrap_err().to_string();
    assert_eq!(
        e,
        format!("{shown}: line 1: the configuration is longer than 262144 bytes")
    );
    fs::remove_file(&path).unwrap();
    let e = Config::read(&path).unwrap_err().to_string();
    assert_eq!(
        e,
        format!("{shown}: cannot open: No such file or directory (os error 2)")
    );
    let e = Config::read(Path::new("/tmp")).unwrap_err().to_string();
    assert_eq!(e, "/tmp: cannot read: Is a directory (os error 21)");
}

/// What a file gives in pieces is put together.
#[test]
fn a_file_in_pieces() {
    let (from, mut to) = std::io::pipe().unwrap();
    let path = format!("/proc/self/fd/{}", std::os::fd::AsRawFd::as_raw_fd(&from));
    let writer = std::thread::spawn(move || {
        for piece in GOOD.as_bytes().chunks(50) {
            to.write_all(piece).unwrap();
            std::thread::sleep(Duration::from_millis(1));
        }
    });
    assert_eq!(Config::read(Path::new(&path)).unwrap(), good(GOOD));
    writer.join().unwrap();
}

#[test]
fn users_of_clients() {
    let c = good("drive ram 1M\nguest 0 memory 4096\nextent 0 0 8\nlisten 0 a\nguest 1 memory 4096\nextent 1 8 8\nuser 1 \"x y\"\nlisten 1 b\n");
    assert_eq!((c.guests[0].user.as_deref(), c.guests[0].lines.user), (None, 4));
    assert_eq!((c.guests[1].user.as_deref(), c.guests[1].lines.user), (Some("x y"), 7));
    let unnamed = "line 2: the user has no name of 1 to 255 bytes in UTF-8";
    refused_of_guest("user 0 \"\"", unnamed);
    refused_of_guest(&format!("user 0 {}", "u".repeat(256)), unnamed);
    let longest = format!("{G0}user 0 {}\nuser 0 x\n", "u".repeat(255));
    refused(
        &longest,
        "line 3: the user of the guest's client stands in a former line already",
    );
    let bytes = [G0.as_bytes(), &b"user 0 \xff\n"[..]].concat();
    assert_eq!(Config::parse(&bytes).unwrap_err().to_string(), unnamed);
    refused(
        "drive ram 1M\nguest 0 memory 8192\nextent 0 0 8\nuser 0 x\nstart 0 q\n",
        "line 4: guest 0 is started here, as this program's user, and has no line 'user'",
    );
}
