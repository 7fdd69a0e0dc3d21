//! A controller in memory for tests: properties, doorbells, admin commands and lanes, each with faults to choose. Its clock goes on by
//! [`FakeAccess::pause`] and by the tests alone.

use std::collections::VecDeque;
use std::sync::{Arc, Mutex, MutexGuard};

use vm_memory::{Bytes, MmapRegion, VolatileMemory, VolatileSlice};

use super::access::property::{ACQ, AQA, ASQ, CAP, CC, CRTO, CSTS, DOORBELLS, INTMS, VS};
use super::bytes::{get16, get32, get64, put};
use super::{Access, DriveMemory};
use crate::drive::DriveError;
use crate::memory::Piece;

/// Memory for tests: host address a is byte a of it, where a piece has it.
pub struct TestMemory {
    region: MmapRegion,
    pub pieces: Vec<Piece>,
}

impl TestMemory {
    /// One piece from `from` up to `to`.
    pub fn new(from: u64, to: u64) -> Arc<Self> {
        Self::with(
            to,
            vec![Piece {
                host: from,
                bytes: to - from,
            }],
        )
    }

    pub fn with(end: u64, pieces: Vec<Piece>) -> Arc<Self> {
        Arc::new(Self {
            region: MmapRegion::new(end as usize).unwrap(),
            pieces,
        })
    }

    pub fn fill(&self, value: u8) {
        let bytes = vec![value; self.region.len()];
        self.region
            .get_slice(0, bytes.len())
            .unwrap()
            .write_slice(&bytes, 0)
            .unwrap();
    }

    pub fn get(&self, host: u64, len: usize) -> Vec<u8> {
        let mut bytes = vec![0; len];
        self.region
            .get_slice(host as usize, len)
            .unwrap()
            .read_slice(&mut bytes, 0)
            .unwrap();
        bytes
    }

    pub fn put(&self, host: u64, bytes: &[u8]) {
        self.region
            .get_slice(host as usize, bytes.len())
            .unwrap()
            .write_slice(bytes, 0)
            .unwrap();
    }
}

// SAFETY: the region stays mapped as long as this value, and the pieces lie in it.
unsafe impl DriveMemory for TestMemory {
    fn slice(&self, host: u64, len: usize) -> Option<VolatileSlice<'_>> {
        let is_in = |p: &&Piece| host >= p.host && host - p.host < p.bytes && len as u64 <= p.bytes - (host - p.host);
        self.pieces.iter().find(is_in)?;
        self.region.get_slice(host as usize, len).ok()
    }

    fn pieces(&self) -> Vec<Piece> {
        self.pieces.clone()
    }

    fn base(&self) -> *mut u8 {
        self.region.as_ptr()
    }
}

#[derive(Clone, Copy, Debug, PartialEq, Eq)]
pub enum Fault {
    None,
    NeverReady,
    NeverDisabled,
    FatalOnEnable,
    GoneOnEnable,
    /// No admin command is answered.
    Silent,
    /// An admin command ends in CFS.
    Fatal,
    /// An admin command ends in all ones.
    Gone,
    /// Completions have the wrong phase tag, name another command, another queue, another head.
    Phase,
    CommandId,
    QueueId,
    Head,
    Refuses(u16),
    NoShutdown,
    /// A shutdown takes so many milliseconds.
    SlowShutdown(u64),
    /// Becoming ready takes so many milliseconds.
    SlowReady(u64),
    /// Accesses fail.
    Access,
}

#[derive(Clone, Copy, Debug, Default)]
pub struct Queue {
    pub address: u64,
    pub slots: u32,
    pub flags: u32,
    pub doorbell: u32,
    at: u32,
    phase: bool,
}

#[derive(Clone)]
pub struct Fake {
    memory: Arc<TestMemory>,
    pub cap: u64,
    pub crto: u32,
    pub vs: u32,
    pub cc: u32,
    pub csts: u32,
    pub aqa: u32,
    pub asq: u64,
    pub acq: u64,
    pub masks: u32,
    pub controller: [u8; 4096],
    pub namespace: [u8; 4096],
    pub limits: [u8; 4096],
    pub log: [u8; 512],
    pub granted: u32,
    pub asked: u32,
    pub event_configuration: Option<u32>,
    pub fault: Fault,
    pub fault_opcode: Option<u8>,
    head: u32,
    tail: u32,
    done: u32,
    phase: bool,
    pub gone: bool,
    pub submission: [Queue; 9],
    pub completion: [Queue; 9],
    pub commands: u32,
    pub deleted: u32,
    pub violations: u32,
    pub shutdowns: u32,
    pub time: u64,
    ready_at: Option<u64>,
    shut_at: Option<u64>,
    event_ids: VecDeque<u16>,
    pub events_asked: u32,
    pub logs_read: Vec<u8>,
    /// I/O commands with this opcode are lost.
    pub mute: Option<u8>,
    /// Lane (from 1), opcode, identifier of each I/O command that was taken, Flushes of a reset among them.
    pub io: Vec<(usize, u8, u16)>,
    pub lost: Vec<(usize, u16)>,
    /// How many commands were lost.
    pub losses: usize,
    pub abort_works: bool,
    pub aborts: u32,
    pub enables: u32,
    /// Polls are answered at the next one.
    pub slow_polls: bool,
    asked_poll: bool,
}

fn text(page: &mut [u8], at: usize, bytes: usize, words: &str) {
    page[at..at + bytes].fill(b' ');
    put(page, at, words.as_bytes());
}

impl Fake {
    pub fn new(memory: Arc<TestMemory>) -> Self {
        let mut controller = [0u8; 4096];
        text(&mut controller, 4, 20, "SN 1");
        text(&mut controller, 24, 40, "A fake controller");
        text(&mut controller, 64, 8, "1.0\x01");
        controller[77] = 5;
        put(&mut controller, 88, &2_000_000u32.to_le_bytes());
        put(&mut controller, 92, &0x100u32.to_le_bytes());
        controller[111] = 1;
        controller[259] = 2;
        controller[512] = 0x66;
        controller[513] = 0x44;
        controller[516] = 1;
        controller[520] = 0x0d;
        controller[525] = 1;
        let mut namespace = [0u8; 4096];
        put(&mut namespace, 0, &4096u64.to_le_bytes());
        namespace[130] = 9;
        Self {
            memory,
            cap: 1 << 37 | 2 << 24 | 1 << 16 | 1023,
            crto: 0,
            vs: 0x1_0400,
            cc: 0,
            csts: 0,
            aqa: 0,
            asq: 0,
            acq: 0,
            masks: 0,
            controller,
            namespace,
            limits: [0; 4096],
            log: [0; 512],
            granted: 63 << 16 | 63,
            asked: 0,
            event_configuration: None,
            fault: Fault::None,
            fault_opcode: None,
            head: 0,
            tail: 0,
            done: 0,
            phase: true,
            gone: false,
            submission: [Queue::default(); 9],
            completion: [Queue::default(); 9],
            commands: 0,
            deleted: 0,
            violations: 0,
            shutdowns: 0,
            time: 0,
            ready_at: None,
            shut_at: None,
            event_ids: VecDeque::new(),
            events_asked: 0,
            logs_read: Vec::new(),
            mute: None,
            io: Vec::new(),
            lost: Vec::new(),
            losses: 0,
            abort_works: true,
            aborts: 0,
            enables: 0,
            slow_polls: false,
            asked_poll: false,
        }
    }

    fn complete(&mut self, entry: &[u8], result: u32, status: u16) {
        let chosen = self.fault_opcode.is_none_or(|opcode| opcode == entry[0]);
        let fault = if chosen { self.fault } else { Fault::None };
        let mut status = status;
        match fault {
            Fault::Silent => return,
            Fault::Fatal => {
                self.csts |= 2;
                return;
            }
            Fault::Gone => {
                self.gone = true;
                return;
            }
            Fault::Refuses(code) => status = code,
            _ => {}
        }
        let mut done = [0u8; 16];
        put(&mut done, 0, &result.to_le_bytes());
        put(
            &mut done,
            8,
            &((self.head + u32::from(fault == Fault::Head)) as u16).to_le_bytes(),
        );
        put(&mut done, 10, &u16::from(fault == Fault::QueueId).to_le_bytes());
        put(
            &mut done,
            12,
            &get16(entry, 2)
                .wrapping_sub(u16::from(fault == Fault::CommandId))
                .to_le_bytes(),
        );
        let phase = self.phase != (fault == Fault::Phase);
        put(&mut done, 14, &(status << 1 | u16::from(phase)).to_le_bytes());
        self.memory.put(self.acq + 16 * u64::from(self.done), &done);
        self.done = (self.done + 1) % ((self.aqa >> 16 & 0xfff) + 1);
        self.phase ^= self.done == 0;
    }

    /// Completes an asynchronous event request, where there is one.
    pub fn raise(&mut self, dword0: u32) -> bool {
        let Some(id) = self.event_ids.pop_front() else {
            return false;
        };
        let mut entry = [0u8; 64];
        entry[0] = 0x0c;
        put(&mut entry, 2, &id.to_le_bytes());
        self.complete(&entry, dword0, 0);
        true
    }

    /// Answers with an identifier of its own choice.
    pub fn stray(&mut self, id: u16) {
        let mut entry = [0u8; 64];
        entry[0] = 0x0c;
        put(&mut entry, 2, &id.to_le_bytes());
        self.complete(&entry, 0, 0);
    }

    fn data(&mut self, place: u64, page: &[u8]) {
        if place % 4096 != 0 || self.memory.slice(place, 4096).is_none() {
            self.violations += 1;
        } else {
            self.memory.put(place, page);
        }
    }

    fn admin(&mut self, entry: &[u8]) {
        let (place, d10, d11) = (get64(entry, 24), get32(entry, 40), get32(entry, 44));
        let (id, mut result, mut status) = ((d10 & 0xffff) as usize, 0, 0);
        let queue = Queue {
            address: place,
            slots: (d10 >> 16) + 1,
            flags: d11,
            phase: true,
            ..Queue::default()
        };
        self.commands += 1;
        match entry[0] {
            0x06 => match (d10, get32(entry, 4)) {
                (0, 1) => self.data(place, &self.namespace.clone()),
                (1, 0) => self.data(place, &self.controller.clone()),
                (6, 0) => self.data(place, &self.limits.clone()),
                _ => status = 0x4002,
            },
            0x02 => {
                self.logs_read.push(id as u8);
                if d10 >> 16 != 127 {
                    self.violations += 1;
                }
                self.data(place, &self.log.clone());
            }
            0x09 if d10 == 7 => (result, self.asked) = (self.granted, d11),
            0x09 if d10 == 0x0b => self.event_configuration = Some(d11),
            0x01 | 0x05 if !(1..=8).contains(&id) || place % 4096 != 0 => status = 0x4101,
            0x05 => self.completion[id] = queue,
            0x01 if self.completion[id].slots == 0 => status = 0x4100,
            0x01 => self.submission[id] = queue,
            0x00 | 0x04 if !(1..=8).contains(&id) => self.violations += 1,
            0x04 if self.submission[id].slots != 0 => status = 0x410c,
            0x04 => (self.completion[id].slots, self.deleted) = (0, self.deleted + 1),
            0x00 => (self.submission[id].slots, self.deleted) = (0, self.deleted + 1),
            0x08 => result = self.abort(d10),
            0x0c => {
                self.events_asked += 1;
                if self.fault_opcode != Some(0x0c) {
                    self.event_ids.push_back(get16(entry, 2));
                    return;
                }
            }
            _ => status = 0x4001,
        }
        self.complete(entry, result, status);
    }

    fn abort(&mut self, d10: u32) -> u32 {
        self.aborts += 1;
        let wanted = ((d10 & 0xffff) as usize, (d10 >> 16) as u16);
        let Some(at) = self.lost.iter().position(|lost| *lost == wanted) else {
            self.violations += 1;
            return 1;
        };
        if !self.abort_works {
            return 1;
        }
        self.lost.remove(at);
        self.post(wanted.0, wanted.1, 0x07);
        0
    }

    /// Posts a completion of an I/O command.
    pub fn post(&mut self, lane: usize, id: u16, status: u16) {
        let head = self.submission[lane].at;
        let queue = &mut self.completion[lane];
        let mut done = [0u8; 16];
        put(&mut done, 8, &(head as u16).to_le_bytes());
        put(&mut done, 10, &(lane as u16).to_le_bytes());
        put(&mut done, 12, &id.to_le_bytes());
        put(&mut done, 14, &(status << 1 | u16::from(queue.phase)).to_le_bytes());
        let place = queue.address + 16 * u64::from(queue.at);
        queue.at = (queue.at + 1) % queue.slots;
        queue.phase ^= queue.at == 0;
        if queue.at == queue.doorbell {
            self.violations += 1; // the ring is full
        }
        self.memory.put(place, &done);
    }

    fn io_turn(&mut self, lane: usize) {
        while self.submission[lane].slots != 0 && self.submission[lane].at != self.submission[lane].doorbell {
            let queue = &mut self.submission[lane];
            let entry = self.memory.get(queue.address + 64 * u64::from(queue.at), 64);
            queue.at = (queue.at + 1) % queue.slots;
            let id = get16(&entry, 2);
            self.io.push((lane, entry[0], id));
            if self.mute == Some(entry[0]) {
                self.lost.push((lane, id));
                self.losses += 1;
            } else {
                self.post(lane, id, 0);
            }
        }
    }

    fn control(&mut self, value: u32) {
        let (was, is) = (self.cc & 1 == 1, value & 1 == 1);
        if !was && is {
            self.enables += 1;
            (self.head, self.tail, self.done, self.phase) = (0, 0, 0, true);
            self.submission = [Queue::default(); 9];
            self.completion = [Queue::default(); 9];
            self.event_ids.clear();
            self.lost.clear();
            match self.fault {
                Fault::FatalOnEnable => self.csts |= 2,
                Fault::GoneOnEnable => self.gone = true,
                Fault::NeverReady => {}
                Fault::SlowReady(wait) => self.ready_at = Some(self.time + wait),
                _ => self.csts |= 1,
            }
        }
        if was && !is && self.fault != Fault::NeverDisabled {
            (self.csts, self.ready_at, self.shut_at) = (0, None, None);
        }
        if was && is && (value ^ self.cc) & !(3 << 14) != 0 {
            self.violations += 1;
        }
        if is && value & 3 << 14 != 0 {
            self.shutdowns += 1;
            self.csts |= 4;
            match self.fault {
                Fault::NoShutdown => {}
                Fault::SlowShutdown(wait) => self.shut_at = Some(self.time + wait),
                _ => self.csts = self.csts & !0xc | 8,
            }
        }
        self.cc = value;
    }

    pub fn read(&mut self, offset: u32) -> u32 {
        if self.ready_at.is_some_and(|at| self.time >= at) {
            (self.csts, self.ready_at) = (self.csts | 1, None);
        }
        if self.shut_at.is_some_and(|at| self.time >= at) {
            (self.csts, self.shut_at) = (self.csts & !0xc | 8, None);
        }
        if self.gone {
            return u32::MAX;
        }
        match offset {
            CAP => self.cap as u32,
            4 => (self.cap >> 32) as u32,
            VS => self.vs,
            CC => self.cc,
            CSTS => self.csts,
            CRTO => self.crto,
            _ => 0,
        }
    }

    fn doorbell(&mut self, offset: u32, value: u32) {
        let stride = 4u32 << (self.cap >> 32 & 15);
        let place = (offset - DOORBELLS) / stride;
        if self.csts & 1 == 0 || (offset - DOORBELLS) % stride != 0 || place >= 18 {
            self.violations += 1;
        } else if place >= 2 && place % 2 == 1 {
            self.completion[place as usize / 2].doorbell = value;
        } else if place >= 2 {
            self.submission[place as usize / 2].doorbell = value;
            if self.csts & 2 == 0 {
                self.io_turn(place as usize / 2);
            }
        } else if place == 1 {
            self.violations += u32::from(value > self.aqa >> 16);
        } else {
            self.tail = value;
            while self.head != self.tail && self.csts & 2 == 0 && !self.gone {
                let entry = self.memory.get(self.asq + 64 * u64::from(self.head), 64);
                self.head = (self.head + 1) % ((self.aqa & 0xfff) + 1);
                self.admin(&entry);
            }
        }
    }

    pub fn write(&mut self, offset: u32, value: u32) {
        if self.gone {
            return;
        }
        let low = |old: u64| old & !0xffff_ffff | u64::from(value);
        let high = |old: u64| old & 0xffff_ffff | u64::from(value) << 32;
        match offset {
            INTMS => self.masks |= value,
            CC => self.control(value),
            AQA => self.aqa = value,
            ASQ => self.asq = low(self.asq),
            o if o == ASQ + 4 => self.asq = high(self.asq),
            ACQ => self.acq = low(self.acq),
            o if o == ACQ + 4 => self.acq = high(self.acq),
            DOORBELLS.. => self.doorbell(offset, value),
            _ => self.violations += 1,
        }
    }
}

/// Accesses of a fake that the test holds, too.
pub struct FakeAccess {
    pub fake: Arc<Mutex<Fake>>,
    pub bytes: u32,
}

impl FakeAccess {
    fn at(&self) -> MutexGuard<'_, Fake> {
        self.fake.lock().unwrap()
    }

    fn good(&self) -> Result<MutexGuard<'_, Fake>, DriveError> {
        let fake = self.at();
        if fake.fault == Fault::Access {
            return Err(DriveError::Failed("an access failed".into()));
        }
        Ok(fake)
    }
}

impl Access for FakeAccess {
    fn bytes(&self) -> u32 {
        self.bytes
    }

    fn read(&mut self, offset: u32) -> Result<u32, DriveError> {
        Ok(self.good()?.read(offset))
    }

    fn poll(&mut self, offset: u32) -> Result<Option<u32>, DriveError> {
        let mut fake = self.good()?;
        if fake.slow_polls && !fake.asked_poll {
            fake.asked_poll = true;
            return Ok(None);
        }
        fake.asked_poll = false;
        Ok(Some(fake.read(offset)))
    }

    fn write(&mut self, offset: u32, value: u32) -> Result<(), DriveError> {
        let mut fake = self.good()?;
        fake.write(offset, value);
        if offset < DOORBELLS {
            fake.asked_poll = false;
        }
        Ok(())
    }

    fn now(&self) -> u64 {
        self.at().time
    }

    fn pause(&mut self) {
        self.at().time += 10;
    }
}
