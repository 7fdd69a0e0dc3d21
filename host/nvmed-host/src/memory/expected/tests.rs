use super::*;
use crate::machine::HIGH;

const MIB: u64 = 1 << 20;
const GIB: u64 = 1 << 30;
const HOST: u64 = 16 * GIB;
const FILE: Identity = Identity { device: 1, inode: 2 };
const OTHER: Identity = Identity { device: 1, inode: 3 };

fn map(address: u64, bytes: u64, offset: u64) -> MapRequest {
    MapRequest {
        address,
        bytes,
        offset,
        readable: true,
        writable: true,
    }
}

fn of(machine: Machine, bytes: u64) -> Expected {
    Expected::new(machine, bytes, HOST, Some(FILE))
}

fn refused(expected: &Expected, map: MapRequest, file: Identity) -> Difference {
    expected.holds(&map, file).unwrap_err().difference()
}

fn show(expected: &mut Expected, address: u64, bytes: u64, offset: u64) {
    let part = expected.holds(&map(address, bytes, offset), FILE).unwrap();
    expected.note(&part).unwrap();
}

/// What QEMU 7.2's `pc` with 4 GiB announces: the former program took it, and a Read to 4 GiB overwrote another page of the guest.
#[test]
fn a_pc_of_4_gib() {
    let pc = of(Machine::Pc, 4 * GIB);
    let high = map(HIGH, GIB, 0xc000_0000);
    assert_eq!(
        pc.holds(&high, FILE),
        Ok(Part {
            address: HIGH,
            host: HOST + 3 * GIB,
            bytes: GIB
        })
    );
    assert_eq!(
        refused(&pc, map(HIGH, GIB, 0x8000_0000), FILE),
        Difference::Offset { expected: 0xc000_0000 }
    );
    // the same machine where the configuration says q35
    let q35 = of(Machine::Q35, 4 * GIB);
    let e = q35.holds(&high, FILE).unwrap_err();
    assert_eq!(e.difference(), Difference::Offset { expected: 0x8000_0000 });
    assert_eq!(
        e.to_string(),
        "memory of 0x40000000 bytes at 0x100000000 (offset 0xc0000000) should be at the offset 0x80000000, as in a machine of type q35 with \
         -m 4294967296B, whose memory lies at 0x0 to 0x80000000 and 0x100000000 to 0x180000000: give it as much with -m, and the type that the \
         line 'machine' says, without an emulated I/O MMU"
    );
}

/// A q35 of 2,816 MiB, at which the former program was wrong.
#[test]
fn a_q35_of_2816_mib() {
    let expected = of(Machine::Q35, 2816 * MIB);
    assert_eq!(
        expected.holds(&map(HIGH, 768 * MIB, 2 * GIB), FILE).unwrap().host,
        HOST + 2 * GIB
    );
    assert_eq!(refused(&expected, map(MIB, 2815 * MIB, MIB), FILE), Difference::Outside);
}

#[test]
fn parts_of_regions() {
    let expected = of(Machine::Q35, 5 * GIB);
    for (address, bytes, offset) in [
        (0, 0xa_0000, 0),
        (MIB, 2047 * MIB, MIB),
        (0xc_8000, 0x4000, 0xc_8000),
        (2 * GIB - 4096, 4096, 2 * GIB - 4096),
        (HIGH, 3 * GIB, 2 * GIB),
        (HIGH + 3 * GIB - 4096, 4096, 5 * GIB - 4096),
    ] {
        let part = expected.holds(&map(address, bytes, offset), FILE).unwrap();
        assert_eq!(
            part,
            Part {
                address,
                host: HOST + offset,
                bytes
            }
        );
    }
    for (address, bytes) in [
        (2 * GIB, 4096),
        (2 * GIB - 4096, 8192),
        (HIGH - 4096, 4096),
        (HIGH - 4096, 8192),
        (HIGH, 3 * GIB + 4096),
        (HIGH + 3 * GIB, 4096),
        (0, !4095),
        (!4095, 4096),
        (!4095, !4095),
        (0xfeb0_0000, 4096),
    ] {
        assert_eq!(
            refused(&expected, map(address, bytes, address), FILE),
            Difference::Outside,
            "{address:#x}"
        );
    }
    for (address, bytes, offset) in [
        (0, 0, 0),
        (1, 4096, 0),
        (0, 4095, 0),
        (0, 4096, 2),
        (u64::MAX, u64::MAX, u64::MAX),
    ] {
        assert_eq!(
            refused(&expected, map(address, bytes, offset), FILE),
            Difference::NoPages
        );
    }
    let offset = Difference::Offset { expected: 4096 };
    for wrong in [0, 8192, HIGH, !4095] {
        assert_eq!(refused(&expected, map(4096, 4096, wrong), FILE), offset);
    }
}

#[test]
fn files_and_rights() {
    let mut expected = of(Machine::Q35, GIB);
    assert_eq!(refused(&expected, map(0, GIB, 0), OTHER), Difference::OtherFile);
    expected.set_file(None);
    assert!(expected.holds(&map(0, GIB, 0), OTHER).is_ok());
    expected.set_file(Some(OTHER));
    assert_eq!(refused(&expected, map(0, GIB, 0), FILE), Difference::OtherFile);
    for (readable, writable) in [(true, false), (false, true), (false, false)] {
        let whole = MapRequest {
            readable,
            writable,
            ..map(0, GIB, 0)
        };
        assert_eq!(refused(&expected, whole, OTHER), Difference::Rights);
    }
    // the chipset write-protects the BIOS's shadow
    let shadow = |address, bytes| MapRequest {
        writable: false,
        ..map(address, bytes, address)
    };
    assert!(expected.holds(&shadow(0xc_0000, 0x4_0000), OTHER).is_ok());
    assert_eq!(
        refused(&expected, shadow(0xc_0000, 0x4_1000), OTHER),
        Difference::Rights
    );
    assert_eq!(refused(&expected, shadow(0x9_f000, 0x1000), OTHER), Difference::Rights);
    let nothing = MapRequest {
        readable: false,
        ..shadow(0xc_0000, 0x1000)
    };
    assert_eq!(refused(&expected, nothing, OTHER), Difference::Rights);
}

/// A refusal is one line, which says what is there and what to do.
#[test]
fn refusals_have_words() {
    let expected = of(Machine::Q35, GIB);
    for (map, file, words) in [
        (map(0, 5, 0), FILE, "is not of whole pages: is there an emulated I/O MMU? It has to go"),
        (map(0, GIB, 0), OTHER, "is of another file than the guest's: the machine has to have all of its memory from one file, and no other"),
        (MapRequest { writable: false, ..map(0, GIB, 0) }, FILE, "cannot be read and written by the device: it needs a backend with share=on"),
        (
            map(0, GIB + 4096, 0),
            FILE,
            "is no part of a machine of type q35 with -m 1073741824B, whose memory lies at 0x0 to 0x40000000: give it as much with -m, and the type \
             that the line 'machine' says, without an emulated I/O MMU",
        ),
    ] {
        let text = expected.holds(&map, file).unwrap_err().to_string();
        assert!(text.starts_with("memory of 0x") && text.ends_with(words) && !text.contains('\n'), "{text}");
    }
}

/// As QEMU 11.1.3 shows a q35: in parts, without the hole for VGA and BIOS.
#[test]
fn a_machine_is_shown_in_parts() {
    let mut expected = of(Machine::Q35, 5 * GIB);
    assert!(!expected.is_complete());
    assert_eq!(expected.missing(), Some(0..2 * GIB));
    show(&mut expected, 0, 0xa_0000, 0);
    assert_eq!(expected.missing(), Some(MIB..2 * GIB));
    show(&mut expected, HIGH, 3 * GIB, 2 * GIB);
    assert!(!expected.is_complete());
    show(&mut expected, MIB, 2047 * MIB, MIB);
    assert!(expected.is_complete() && expected.missing().is_none());
    // what is shown again, or in parts, changes nothing
    show(&mut expected, 0xc_0000, 0x4_0000, 0xc_0000);
    assert!(expected.is_complete());
    expected.restart();
    assert!(!expected.is_complete());
    assert_eq!(expected.missing(), Some(0..2 * GIB));
}

#[test]
fn what_is_missing() {
    let mut expected = of(Machine::Pc, GIB);
    show(&mut expected, 0, 4096, 0);
    show(&mut expected, 8192, 4096, 8192);
    assert_eq!(expected.missing(), Some(4096..8192));
    show(&mut expected, 4096, 4096, 4096);
    show(&mut expected, 12288, 0xa_0000 - 12288, 12288);
    assert_eq!(expected.missing(), Some(MIB..GIB));
    show(&mut expected, MIB, 1022 * MIB, MIB);
    assert_eq!(expected.missing(), Some(1023 * MIB..GIB));
    show(&mut expected, 1023 * MIB, MIB, 1023 * MIB);
    assert!(expected.is_complete());
}

/// The firmware of a q35 may hide the end of the low region, up to 64 MiB. Of a small machine, and of a pc, it hides nothing that counts.
#[test]
fn what_firmware_hides() {
    let mut expected = of(Machine::Q35, 4 * GIB);
    show(&mut expected, HIGH, 2 * GIB, 2 * GIB);
    show(&mut expected, 0, 0xa_0000, 0);
    show(&mut expected, MIB, 2 * GIB - 65 * MIB - 4096, MIB);
    assert_eq!(expected.missing(), Some(2 * GIB - 64 * MIB - 4096..2 * GIB));
    show(
        &mut expected,
        2 * GIB - 64 * MIB - 4096,
        4096,
        2 * GIB - 64 * MIB - 4096,
    );
    assert!(expected.is_complete());
    let mut expected = of(Machine::Q35, 64 * 1024);
    show(&mut expected, 0, 0x4000, 0);
    assert!(!expected.is_complete());
    show(&mut expected, 0x4000, 0x4000, 0x4000);
    assert!(expected.is_complete());
    let mut expected = of(Machine::Pc, GIB);
    show(&mut expected, 0, 0xa_0000, 0);
    show(&mut expected, MIB, 1022 * MIB, MIB);
    assert!(!expected.is_complete());
}

/// A client that shows each second page makes the program keep a bounded list.
#[test]
fn a_machine_in_too_many_parts() {
    let mut expected = of(Machine::Q35, GIB);
    for i in 0..MOST_PARTS as u64 {
        show(&mut expected, 2 * MIB + 8192 * i, 4096, 2 * MIB + 8192 * i);
    }
    let far = map(512 * MIB, 4096, 512 * MIB);
    let part = expected.holds(&far, FILE).unwrap();
    let e = expected.note(&part).unwrap_err();
    assert_eq!(e.difference(), Difference::TooManyParts);
    assert!(
        e.to_string()
            .ends_with("comes after 1024 other parts: a machine has a few"),
        "{e}"
    );
    // what touches others is joined
    show(&mut expected, 2 * MIB + 4096, 4096, 2 * MIB + 4096);
    show(&mut expected, 512 * MIB, 4096, 512 * MIB);
    show(&mut expected, 0, GIB, 0);
    assert!(expected.is_complete());
}

struct Random(u64);

impl Random {
    fn below(&mut self, most: u64) -> u64 {
        self.0 ^= self.0 << 13;
        self.0 ^= self.0 >> 7;
        self.0 ^= self.0 << 17;
        self.0 % most
    }
}

/// Ranges in any order are as if each page had been noted by itself.
#[test]
fn ranges_against_a_model() {
    let mut random = Random(88_172_645_463_325_252);
    for _ in 0..2000 {
        let mut ranges = Ranges::default();
        let mut model = [false; 40];
        for _ in 0..random.below(12) {
            let start = random.below(39);
            let end = start + 1 + random.below(40 - start);
            assert!(ranges.add(start..end));
            model[start as usize..end as usize].fill(true);
        }
        for at in 0..40_u64 {
            let end = model[at as usize].then(|| (at..40).find(|i| !model[*i as usize]).unwrap_or(40));
            assert_eq!(ranges.end_of(at), end, "{ranges:?} {at}");
            let next = (at + 1..40).find(|i| model[*i as usize] && !model[*i as usize - 1]);
            assert_eq!(ranges.next_after(at), next, "{ranges:?} {at}");
        }
        assert!(ranges.0.windows(2).all(|w| w[0].end < w[1].start));
    }
}

/// Any numbers: what is taken lies in a region, whole, at that region's offset.
#[test]
fn any_numbers() {
    let mut random = Random(0x1234_5678_9abc_def1);
    let mut taken = 0;
    for _ in 0..20_000 {
        let machine = [Machine::Q35, Machine::Pc][random.below(2) as usize];
        let bytes = [GIB, 2816 * MIB, 3584 * MIB, 5 * GIB][random.below(4) as usize];
        let expected = of(machine, bytes);
        let corner = |random: &mut Random| {
            let base = [
                0,
                4096,
                0xa_0000,
                MIB,
                2 * GIB,
                2816 * MIB,
                3 * GIB,
                HIGH,
                5 * GIB,
                u64::MAX,
            ][random.below(10) as usize];
            base.wrapping_add(random.below(5) * 4096).wrapping_sub(8192)
                & !(if random.below(9) == 0 { 0 } else { 4095 })
        };
        let address = corner(&mut random);
        let length = corner(&mut random);
        let offset = if random.below(2) == 0 {
            corner(&mut random)
        } else {
            address
        };
        let request = map(address, length, offset);
        let Ok(part) = expected.holds(&request, FILE) else {
            continue;
        };
        taken += 1;
        let own = machine::regions(machine, bytes);
        let region = own
            .iter()
            .find(|r| r.address <= address && address - r.address < r.bytes)
            .unwrap();
        assert!(address + length <= region.address + region.bytes && length > 0);
        assert_eq!(part.host, HOST + region.offset + (address - region.address));
        assert_eq!(offset, region.offset + (address - region.address));
    }
    assert!(taken > 500, "{taken}");
}
