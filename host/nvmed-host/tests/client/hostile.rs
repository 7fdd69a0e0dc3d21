//! A hostile client: mutated sequences of good messages, in any pieces and with any descriptors.

use super::*;

/// xorshift64*
#[derive(Debug)]
pub struct Random(u64);

impl Random {
    /// From a seed, not 0.
    pub fn new(seed: u64) -> Random {
        Random(seed.max(1))
    }

    pub fn next(&mut self) -> u64 {
        self.0 ^= self.0 >> 12;
        self.0 ^= self.0 << 25;
        self.0 ^= self.0 >> 27;
        self.0.wrapping_mul(0x2545_f491_4f6c_dd1d)
    }

    /// A number below `most`; 0 where that is 0.
    pub fn below(&mut self, most: usize) -> usize {
        (self.next() >> 16) as usize % most.max(1)
    }

    pub fn chance(&mut self, of_hundred: usize) -> bool {
        self.below(100) < of_hundred
    }

    pub fn pick<'a, T>(&mut self, of: &'a [T]) -> &'a T {
        &of[self.below(of.len())]
    }
}

/// A message and how many descriptors go with it.
pub type Sent = (Vec<u8>, usize);

/// What a hostile client makes its messages of.
#[derive(Debug)]
pub struct Hostile {
    pub random: Random,
    version: Sent,
    good: Vec<Sent>,
    broken: Vec<Sent>,
}

const VALUES: [u64; 14] = [
    0,
    1,
    2,
    7,
    15,
    16,
    20,
    255,
    4095,
    4096,
    1 << 20,
    (1 << 20) + 32,
    u32::MAX as u64,
    u64::MAX,
];

fn set_size(bytes: &mut [u8]) {
    let size = bytes.len() as u32;
    bytes[4..8].copy_from_slice(&size.to_ne_bytes());
}

impl Hostile {
    /// One whose messages a seed decides.
    pub fn new(seed: u64) -> Hostile {
        let event = DATA_EVENTFD | ACTION_TRIGGER;
        let messages: [(u16, Vec<u8>, usize); 17] = [
            (command::DMA_MAP, map_payload(3, 0, 0, 0x10000), 1),
            (command::DMA_MAP, map_payload(3, 0x10000, 0x10000, 0x1000), 1),
            (command::DMA_MAP, map_payload(1, 0, 0xc0000, 0x20000), 0),
            (command::DMA_UNMAP, unmap_payload(0, 0, 0x10000), 0),
            (command::DMA_UNMAP, unmap_payload(2, 0, 0), 0),
            (command::GET_INFO, info_payload(), 0),
            (command::GET_REGION_INFO, region_info_payload(64, 0), 0),
            (command::GET_IRQ_INFO, irq_info_payload(2), 0),
            (command::SET_IRQS, set_irqs_payload(event, MSIX, 0, 9, &[]), 9),
            (
                command::SET_IRQS,
                set_irqs_payload(DATA_NONE | ACTION_TRIGGER, MSIX, 0, 0, &[]),
                0,
            ),
            (
                command::SET_IRQS,
                set_irqs_payload(DATA_BOOL | ACTION_UNMASK, INTX, 0, 1, &[1]),
                0,
            ),
            (command::REGION_READ, access_payload(CONFIG, 0, 256), 0),
            (command::REGION_READ, access_payload(BAR0, 0x1c, 4), 0),
            (command::REGION_WRITE, write_payload(BAR0, 0x14, &[1, 0, 0x46, 0]), 0),
            (command::REGION_WRITE, write_payload(2, 0, &[7; 5000]), 0),
            (
                command::WRITE_MULTI,
                write_multi_payload(&[(BAR0, 0x1000, &[1; 4]), (BAR0, 0x1004, &[2; 4])]),
                0,
            ),
            (command::RESET, Vec::new(), 0),
        ];
        let mut good = Vec::new();
        for (id, (command, payload, descriptors)) in messages.into_iter().enumerate() {
            good.push((message(id as u16, command, 0, &payload), descriptors));
            good.push((message(id as u16, command, NO_REPLY, &payload), descriptors));
        }
        let broken = broken::refused()
            .into_iter()
            .map(|broken| (broken.bytes, broken.descriptors))
            .collect();
        let version = (message(0, command::VERSION, 0, &qemu_version_payload()), 0);
        Hostile {
            random: Random::new(seed),
            version,
            good,
            broken,
        }
    }

    /// A message that may come after VERSION; now and then VERSION itself.
    fn one(&mut self) -> Sent {
        match self.random.below(100) {
            0 => self.version.clone(),
            1..=20 => self.random.pick(&self.broken).clone(),
            _ => self.random.pick(&self.good).clone(),
        }
    }

    /// Changes a message a little; the size in its header fits most.
    fn mutate(&mut self, (bytes, descriptors): &mut Sent) {
        let random = &mut self.random;
        for _ in 0..random.below(3) {
            let at = random.below(bytes.len());
            match random.below(8) {
                0 => bytes[at] ^= 1 << random.below(8),
                1 => bytes[at] = random.next() as u8,
                2..=4 => {
                    // a whole field
                    let width = *random.pick(&[2, 4, 4, 8]);
                    let at = at / width * width;
                    let value = random.pick(&VALUES).to_ne_bytes();
                    bytes
                        .iter_mut()
                        .skip(at.max(12))
                        .take(width)
                        .zip(value)
                        .for_each(|(to, from)| *to = from);
                }
                5 => {
                    bytes.truncate(at.max(16));
                    set_size(bytes);
                }
                6 => {
                    bytes.extend_from_slice(&[0x5a; 24][..random.below(24)]);
                    set_size(bytes);
                }
                _ => {
                    let most = if random.chance(5) { 20 } else { 4 };
                    *descriptors = random.below(most);
                }
            }
        }
    }

    /// A sequence: nearly all begin with VERSION.
    pub fn sequence(&mut self) -> Vec<Sent> {
        let count = 1 + self.random.below(8);
        let mut sequence: Vec<Sent> = (0..count).map(|_| self.one()).collect();
        if self.random.chance(60) {
            sequence.iter_mut().for_each(|sent| self.mutate(sent));
        }
        if self.random.chance(97) {
            let mut version = self.version.clone();
            if self.random.chance(10) {
                self.mutate(&mut version);
            }
            sequence.insert(0, version);
        }
        sequence
    }

    /// How many bytes of those that are left go with one call.
    pub fn piece(&mut self, left: usize) -> usize {
        if self.random.chance(70) {
            left
        } else {
            1 + self.random.below(left)
        }
    }

    /// Sends a sequence to a server, of which it may read the replies or not; ends where the server has had enough. The descriptors are any.
    pub fn play(&mut self, client: &Client, descriptors: &[OwnedFd]) -> io::Result<()> {
        client.socket.set_nonblocking(true)?;
        for (bytes, mut count) in self.sequence() {
            let mut rest = &bytes[..];
            let mut patience = 1000;
            while !rest.is_empty() && patience > 0 {
                let piece = self.piece(rest.len());
                let fds: Vec<_> = (0..count).map(|_| self.random.pick(descriptors).as_fd()).collect();
                match client.send_some(&rest[..piece], &fds) {
                    Ok(sent) => (rest, count) = (&rest[sent..], 0),
                    Err(error) if error.kind() == io::ErrorKind::WouldBlock => {
                        patience -= 1;
                        std::thread::sleep(Duration::from_micros(200));
                    }
                    Err(_) => return Ok(()),
                }
                if self.random.chance(30) {
                    let _ = client.receive();
                }
            }
        }
        Ok(())
    }
}

/// Descriptors of many kinds, of which none is what a server wants where it comes.
pub fn odd_descriptors() -> io::Result<Vec<OwnedFd>> {
    let (one, other) = UnixStream::pair()?;
    let (read, write) = nix::unistd::pipe()?;
    let epoll = nix::sys::epoll::Epoll::new(nix::sys::epoll::EpollCreateFlags::EPOLL_CLOEXEC)?;
    Ok(vec![
        OwnedFd::from(one),
        OwnedFd::from(other),
        read,
        write,
        OwnedFd::from(File::open("/dev/null")?),
        OwnedFd::from(File::open("/dev/zero")?),
        OwnedFd::from(File::open("/")?),
        OwnedFd::from(Memory::new(0)?.file),
        OwnedFd::from(Memory::new(1 << 20)?.file),
        OwnedFd::from(eventfds(1)?.remove(0)),
        epoll.0,
    ])
}
