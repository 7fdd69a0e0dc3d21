use super::*;

const FULL: [u8; CONFIG_BYTES] = [0xff; CONFIG_BYTES];

fn get(space: &ConfigSpace, at: u64, bytes: usize) -> u32 {
    let mut value = [0; 4];
    space.read(at, &mut value[..bytes]);
    u32::from_le_bytes(value)
}

fn all(space: &ConfigSpace) -> [u8; CONFIG_BYTES] {
    let mut bytes = [0; CONFIG_BYTES];
    space.read(0, &mut bytes);
    bytes
}

/// What may be written of each byte, said anew.
fn may_be_written(at: usize) -> u8 {
    match at {
        0x04 => 0x46,
        0x05 => 0x05,
        0x0c | 0x12 | 0x13 | 0x3c => 0xff,
        0x11 => 0xc0,
        0x43 => 0xc0,
        0x54 => 0x03,
        0x68 => 0xff,
        0x69 => 0x78,
        0x70 => 0xcb,
        0x90 => 0x0f,
        _ => 0,
    }
}

#[test]
fn identity() {
    let space = ConfigSpace::new(false);
    assert_eq!(get(&space, 0x00, 4), 0x0010_1b36);
    assert_eq!(get(&space, 0x08, 4), 0x0108_0202);
    assert_eq!(get(&space, 0x0a, 2), 0x0108);
    assert_eq!(get(&space, 0x2c, 4), 0x1100_1af4);
    assert_eq!(get(&space, 0x0e, 1), 0);
    assert_eq!(get(&space, 0x06, 2), 0x10);
    assert_eq!(get(&space, 0x3c, 4), 0);
    assert!(!space.has_intx());
    let space = ConfigSpace::new(true);
    assert_eq!(get(&space, 0x3c, 4), 0x0100);
    assert!(space.has_intx());
}

#[test]
fn outside_all_bits_are_ones_and_nothing_is_written() {
    let mut space = ConfigSpace::new(true);
    assert_eq!(get(&space, 255, 2), 0xff00);
    for at in [256, 4096, u64::MAX - 1, u64::MAX] {
        assert_eq!(get(&space, at, 4), 0xffff_ffff);
        let before = all(&space);
        assert_eq!(space.write(at, &FULL), Changes::default());
        assert_eq!(all(&space), before);
    }
    assert_eq!(space.write(254, &[0xff; 8]), Changes::default());
    space.read(3, &mut []);
}

/// As a driver walks the list: each capability once, inside, without meeting another.
#[test]
fn capabilities() {
    let space = ConfigSpace::new(false);
    let (mut at, mut found, mut end) = (get(&space, 0x34, 1), Vec::new(), 0x40);
    while at != 0 {
        assert!(at >= end && at % 4 == 0);
        let id = get(&space, at.into(), 1);
        end = at
            + match id {
                0x11 => 12,
                0x01 => 8,
                0x10 => 0x3c,
                other => panic!("capability {other:#x}"),
            };
        assert!(end <= 256);
        found.push(id);
        at = get(&space, u64::from(at) + 1, 1);
    }
    assert_eq!(found, [0x11, 0x01, 0x10]);
}

#[test]
fn msix_meets_neither_registers_nor_doorbells_nor_their_page() {
    let space = ConfigSpace::new(false);
    let vectors = get(&space, 0x42, 2) as u64 + 1;
    assert_eq!(vectors, 9);
    let (table, pending) = (get(&space, 0x44, 4), get(&space, 0x48, 4));
    assert_eq!((table & 7, pending & 7), (0, 0));
    let (table, pending) = (u64::from(table), u64::from(pending));
    assert!(table >= DOORBELLS + 0x1000 && table + 16 * vectors <= pending && pending + 8 <= BAR_BYTES);
    assert!(table % 0x1000 == 0 && pending % 0x1000 == 0);
}

/// QEMU sizes each of six BARs and the word after them by all ones.
#[test]
fn sizing() {
    let mut space = ConfigSpace::new(false);
    for i in 0..7 {
        let at = 0x10 + 4 * i;
        space.write(at, &FULL[..4]);
        assert_eq!(get(&space, at, 4), if i == 0 { 0xffff_c000 } else { 0 });
        space.write(at, &[0; 4]);
        assert_eq!(get(&space, at, 4), 0);
    }
    space.write(0x30, &FULL[..4]);
    assert_eq!(get(&space, 0x30, 4), 0); // no expansion ROM
    space.write(0x10, &0xfebf_7fff_u32.to_le_bytes());
    assert_eq!(get(&space, 0x10, 4), 0xfebf_4000);
    space.write(0x13, &[0xab]);
    space.write(0x11, &[0x8f]);
    assert_eq!(get(&space, 0x10, 4), 0xabbf_8000);
}

#[test]
fn each_bit_of_each_byte() {
    for at in 0..CONFIG_BYTES {
        let fresh = ConfigSpace::new(true);
        let mut space = fresh.clone();
        space.write(at as u64, &[!all(&fresh)[at] & 0x7f]); // not the reset
        let changed = all(&space)
            .iter()
            .zip(all(&fresh))
            .map(|(a, b)| a ^ b)
            .collect::<Vec<_>>();
        for (i, &bits) in changed.iter().enumerate() {
            let wanted = if i == at { may_be_written(at) & 0x7f } else { 0 };
            assert_eq!(bits, wanted, "byte {at:#x} written, byte {i:#x} changed");
        }
    }
}

#[test]
fn random_writes_keep_what_is_read_only() {
    let fresh = all(&ConfigSpace::new(true));
    let (mut space, mut x) = (ConfigSpace::new(true), 0x9e37_79b9_7f4a_7c15_u64);
    for _ in 0..20_000 {
        x ^= x << 13;
        x ^= x >> 7;
        x ^= x << 17;
        let bytes = [x.to_le_bytes(), (!x).rotate_left(21).to_le_bytes()].concat();
        let changes = space.write((x >> 20) % 260, &bytes[..(x >> 40) as usize % 17]);
        for (at, (&now, &then)) in all(&space).iter().zip(&fresh).enumerate() {
            assert_eq!((now ^ then) & !may_be_written(at), 0, "byte {at:#x}");
        }
        assert_ne!(all(&space)[0x54] & 3, 1);
        assert_ne!(all(&space)[0x54] & 3, 2);
        assert!(!changes.reset || all(&space) == fresh);
    }
    space.reset();
    assert_eq!(all(&space), fresh);
}

#[test]
fn bus_master_and_memory() {
    let mut space = ConfigSpace::new(false);
    assert!(!space.is_master() && !space.is_memory() && space.is_awake());
    assert_eq!(space.write(4, &[0x02]), Changes::default());
    assert!(space.is_memory() && !space.is_master());
    assert_eq!(
        space.write(4, &[0x06]),
        Changes {
            reset: false,
            master: true,
            interrupts: true
        }
    );
    assert!(space.is_memory() && space.is_master() && space.control().master);
    assert_eq!(space.write(4, &[0x06, 0]), Changes::default());
    assert_eq!(
        space.write(4, &[0x02]),
        Changes {
            reset: false,
            master: true,
            interrupts: true
        }
    );
    assert!(!space.is_master());
}

#[test]
fn sleep_stops_all_accesses_and_keeps_what_was_set_up() {
    let mut space = ConfigSpace::new(true);
    space.write(4, &[0x06]);
    assert_eq!(get(&space, 0x54, 2), 8);
    assert_eq!(
        space.write(0x54, &[3, 0]),
        Changes {
            reset: false,
            master: true,
            interrupts: true
        }
    );
    assert_eq!(get(&space, 0x54, 2), 11);
    assert!(!space.is_awake() && !space.is_memory() && !space.is_master());
    assert!(space.control().intx_off && !space.control().master);
    for strange in [1, 2] {
        assert_eq!(space.write(0x54, &[strange]), Changes::default()); // neither D1 nor D2
        assert!(!space.is_awake());
    }
    space.write(0x54, &[0]);
    assert!(space.is_awake() && space.is_memory() && space.is_master() && !space.control().intx_off);
    for strange in [1, 2] {
        space.write(0x54, &[strange]);
        assert!(space.is_awake());
    }
}

#[test]
fn interrupts() {
    let mut space = ConfigSpace::new(true);
    assert_eq!(space.control(), Control::default());
    assert!(space.write(0x43, &[0x80]).interrupts && space.control().msix && !space.control().msix_masked);
    assert!(space.write(0x42, &[0, 0xc0]).interrupts && space.control().msix && space.control().msix_masked);
    assert!(!space.write(0x42, &[0xff]).interrupts);
    assert!(space.write(0x43, &[0]).interrupts && space.control() == Control::default());
    assert!(space.write(0x05, &[4]).interrupts && space.control().intx_off);
    space.show_interrupt(true);
    assert_eq!(get(&space, 6, 2), 0x18);
    space.show_interrupt(false);
    assert_eq!(get(&space, 6, 2), 0x10);
    let mut without = ConfigSpace::new(false);
    without.show_interrupt(true);
    assert_eq!(get(&without, 6, 2), 0x10);
}

#[test]
fn function_level_reset() {
    let mut space = ConfigSpace::new(true);
    assert_ne!(get(&space, 0x64, 4) & 1 << 28, 0);
    assert!(!space.write(0x68, &[0x3f, 0x58]).reset);
    assert_eq!(get(&space, 0x68, 2), 0x583f);
    space.write(4, &[6]);
    space.write(0x43, &[0x80]);
    let changes = space.write(0x68, &[0x3f, 0xd8]);
    assert_eq!(
        changes,
        Changes {
            reset: true,
            master: true,
            interrupts: true
        }
    );
    assert_eq!(all(&space), all(&ConfigSpace::new(true)));
    assert_eq!(get(&space, 0x69, 1) & 0x80, 0);
    assert!(space.write(0x60, &FULL[..64]).reset);
    assert!(!space.write(0x68, &[0xff]).reset);
}

#[test]
fn registers() {
    let mut r = Registers::new(VERSION_1_3);
    assert_eq!(r.shown(8, 0x20000), 0x10300);
    assert_eq!(r.shown(0x14, 0x46_0001), 0x46_0001);
    assert_eq!(r.shown(0x1c, 1), 1);
    r.note_write(0x14, 0x46_0001);
    assert!(!r.is_shutting());
    r.note_idle(); // idle before a shutdown says nothing
    assert_eq!(r.shown(0x1c, 1), 1);
    r.note_write(0x18, 0x46_4001);
    assert!(!r.is_shutting());
    r.note_write(0x14, 0x46_4001);
    assert!(r.is_shutting());
    assert_eq!(r.shown(0x1c, 1), 5);
    r.note_idle();
    assert!(!r.is_shutting());
    assert_eq!((r.shown(0x1c, 1), r.shown(0x1c, 0xd)), (9, 9));
    r.note_write(0x14, 0x46_4001); // once more: it stays complete
    assert_eq!(r.shown(0x1c, 1), 9);
    r.note_write(0x14, 0x46_0001); // a shutdown ends by a reset alone
    assert_eq!(r.shown(0x1c, 1), 9);
    r.note_write(0x14, 0x46_4000); // EN 0 with SHN still there
    assert_eq!(r.shown(0x1c, 0), 8);
    r.note_write(0x14, 0x46_0000);
    assert_eq!(r.shown(0x1c, 0), 0);
    r.note_write(0x14, 0x8000); // abrupt, of a controller that is not enabled
    assert!(r.is_shutting());
    r.reset();
    assert!(!r.is_shutting());
    assert_eq!(r.shown(0x1c, 0), 0);
}
