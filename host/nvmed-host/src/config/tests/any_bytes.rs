//! Any bytes are a good configuration within its limits, or give one message with a line.

use super::*;

struct Random(u64);

impl Random {
    fn next(&mut self) -> u64 {
        self.0 ^= self.0 << 13;
        self.0 ^= self.0 >> 7;
        self.0 ^= self.0 << 17;
        self.0
    }

    fn below(&mut self, most: usize) -> usize {
        (self.next() % most as u64) as usize
    }
}

/// Lines, most of them good, in any order.
fn example(random: &mut Random) -> Vec<u8> {
    const LINES: [&str; 30] = [
        "drive ram 1M /a\n",
        "drive file /f\n",
        "drive nvme /n\n",
        "drive qemu /s /m\n",
        "drive vfio 0000:01:00.0\n",
        "lanes 2\n",
        "spin 7\n",
        "limit 0 iops 7\n",
        "limit 1 bytes 1M\n",
        "control /c\n",
        "control c\n",
        "extent 0 1000 8\n",
        "extent 0 100 4294967295\n",
        "extent 1 8 0x10\n",
        "extent 2 8 0x10\n",
        "share 0 64\n",
        "share 1 3\n",
        "version 1 1.2\n",
        "machine 0 pc\n",
        "machine 1 q35\n",
        "trust 0\n",
        "doorbells 0 page\n",
        "doorbells 1 messages\n",
        "interrupts 0 pin\n",
        "start 1 qemu -append \"a \\\" # b\"\n",
        "start 1 -M pc\n",
        "descriptors 0 7 # seven\n",
        "listen 0 /b\n",
        "guest 2 memory 5G\n",
        "listen 2 c\n",
    ];
    let mut text = String::from("guest 0 memory 512M /g0\nguest 1 memory 8K");
    text += ["", " /g1", " /g0"][random.below(3)];
    text += "\nextent 0 0 8\nextent 1 32 8\n";
    text += ["", "drive ram 1M\nlisten 0 /r\nstart 1 q\n"][random.below(2)];
    for _ in 0..random.below(8) {
        text += LINES[random.below(LINES.len())];
    }
    text.into_bytes()
}

/// Any bytes are a good configuration within its limits, or give one message with a line.
fn look_at(bytes: &[u8]) -> bool {
    let c = match Config::parse(bytes) {
        Ok(c) => c,
        Err(e) => {
            let text = e.to_string();
            assert!(
                text.starts_with("line ") && text.len() > 8 && !text.contains('\n'),
                "{text:?}"
            );
            return false;
        }
    };
    assert!((1..=MOST_GUESTS).contains(&c.guests.len()) && (1..=MOST_LANES).contains(&c.lanes));
    let all: Vec<_> = c.guests.iter().flat_map(|g| &g.extents).collect();
    assert!(all.len() <= MOST_EXTENTS_IN_ALL && c.spin <= Duration::from_secs(1));
    for (number, g) in c.guests.iter().enumerate() {
        assert!(g.memory > 0 && g.memory % 4096 == 0 && (1..=MOST_EXTENTS).contains(&g.extents.len()));
        assert!(g.blocks() <= MOST_GUEST_BLOCKS && (1..=4096).contains(&g.descriptors));
        assert!(g.interrupts == Interrupts::Messages || g.doorbells == Doorbells::Messages);
        if let Connection::Start(words) = &g.connection {
            assert!((1..=MOST_WORDS_OF_START).contains(&words.len()) && !words[0].is_empty());
        }
        for e in &g.extents {
            assert_eq!((c.owner(e.base), c.owner(e.end() - 1)), (Some(number), Some(number)));
            assert!(e.blocks > 0 && e.end() <= c.blocks());
            let meets = |f: &&&ExtentConfig| e.base < f.end() && f.base < e.end();
            assert_eq!(all.iter().filter(meets).count(), 1);
        }
    }
    let shares = c.shares();
    assert!(shares.iter().sum::<u32>() <= TAGS && shares.len() == c.guests.len());
    assert!(c
        .guests
        .iter()
        .zip(&shares)
        .all(|(g, share)| *share as usize >= g.extents.len()));
    assert!(c.guests.iter().map(|g| g.memory).sum::<u64>() <= MOST_MEMORY && c.blocks() <= MOST_DRIVE_BLOCKS);
    true
}

#[test]
fn any_bytes() {
    let mut random = Random(0x9e37_79b9_7f4a_7c15);
    let mut taken = 0;
    for round in 0..20_000 {
        let mut bytes = example(&mut random);
        for _ in 0..if round % 2 == 0 { 0 } else { random.below(4) } {
            let at = random.below(bytes.len());
            match random.below(4) {
                0 => bytes[at] = random.next() as u8,
                1 => drop(bytes.remove(at)),
                2 => bytes.insert(at, b" \"\\#\n0Kx"[random.below(8)]),
                _ => {
                    let other = random.below(bytes.len());
                    bytes.swap(at, other);
                }
            }
        }
        taken += u32::from(look_at(&bytes));
    }
    assert!(taken > 1000, "{taken} of them are good");
}
