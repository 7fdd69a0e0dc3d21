//! A server for tests: a device whose regions are memory, over [`Connection`], in a thread.
#![allow(dead_code)]

use std::collections::BTreeMap;
use std::os::fd::{AsFd, AsRawFd, OwnedFd};
use std::sync::Arc;
use std::thread::JoinHandle;
use std::time::Instant;

use nix::errno::Errno;
use nix::poll::{poll, PollFd, PollFlags, PollTimeout};
use nvmed_host::vfio_user::*;

use crate::client::Memory;

/// A device as an NVMe controller's: BAR0 with a page that can be mapped, a large region, configuration space, MSI-X, a pin.
pub fn device() -> Arc<Device> {
    let page = Memory::new(0x4000).unwrap();
    let areas = vec![Area {
        offset: 0x1000,
        bytes: 0x1000,
    }];
    let mapping = Mapping {
        file: Arc::new(OwnedFd::from(page.file)),
        offset: 0,
        areas,
    };
    let mut regions = vec![Region::none(); pci_region::COUNT];
    regions[0] = Region::mapped(0x4000, mapping);
    regions[2] = Region::of(1 << 20);
    regions[7] = Region::of(256);
    let mut irqs = vec![Irq::NONE; pci_irq::COUNT];
    irqs[0] = Irq {
        count: 1,
        eventfd: true,
        maskable: true,
        automasked: true,
        noresize: false,
    };
    irqs[2] = Irq {
        count: 9,
        eventfd: true,
        noresize: true,
        ..Irq::NONE
    };
    Arc::new(Device::new(regions, irqs).unwrap())
}

/// The file of a descriptor.
pub fn identity(fd: impl AsFd) -> u64 {
    nix::sys::stat::fstat(fd.as_fd().as_raw_fd()).unwrap().st_ino
}

/// What a client has done.
#[derive(Debug, Default)]
pub struct State {
    pub regions: Vec<Vec<u8>>,
    /// By address: bytes, offset, the file's number.
    pub maps: BTreeMap<u64, (u64, u64, Option<u64>)>,
    /// By kind and number.
    pub irqs: BTreeMap<(u32, u32), OwnedFd>,
    pub actions: Vec<(IrqAction, u32, u32)>,
    pub resets: u32,
    pub refused: u64,
}

impl State {
    pub fn new(device: &Device) -> State {
        let regions = device
            .regions()
            .iter()
            .map(|region| vec![0; region.bytes as usize])
            .collect();
        State {
            regions,
            ..State::default()
        }
    }

    fn write(&mut self, region: u32, offset: u64, data: &[u8]) {
        let at = offset as usize;
        self.regions[region as usize][at..at + data.len()].copy_from_slice(data);
    }

    /// Carries a request out. Of a write of vector `n`'s number to BAR0 at 0x3000, that vector is signalled.
    pub fn answer(&mut self, connection: &mut Connection, request: Request, ticket: Ticket) -> Result<(), Error> {
        match request {
            Request::DmaMap(map) => {
                self.maps
                    .insert(map.address, (map.bytes, map.offset, map.fd.as_ref().map(identity)));
            }
            Request::DmaUnmap(unmap) if unmap.all => self.maps.clear(),
            Request::DmaUnmap(unmap) => {
                self.maps.remove(&unmap.address);
            }
            Request::RegionRead(RegionRead { region, offset, count }) => {
                let at = offset as usize;
                let data = &self.regions[region as usize][at..at + count as usize];
                return connection.answer(ticket, Answer::Data(data));
            }
            Request::RegionWrite(write) => {
                self.write(write.region, write.offset, &write.data);
                if (write.region, write.offset) == (0, 0x3000) {
                    let Some(eventfd) = self.irqs.get(&(2, u32::from(write.data[0]))) else {
                        return connection.answer(ticket, Answer::Refused(Errno::ENXIO));
                    };
                    assert_eq!(nix::unistd::write(eventfd, &1u64.to_ne_bytes()), Ok(8));
                }
            }
            Request::WriteMulti(writes) => {
                writes
                    .iter()
                    .for_each(|write| self.write(write.region, write.offset, write.data()));
            }
            Request::SetIrqs(irqs) => self.set_irqs(irqs),
            Request::Reset => self.resets += 1,
        }
        connection.answer(ticket, Answer::Done)
    }

    fn set_irqs(&mut self, irqs: SetIrqs) {
        if irqs.disables_all() {
            self.irqs.retain(|(index, _), _| *index != irqs.index);
            return;
        }
        match irqs.data {
            IrqData::Eventfds(eventfds) => {
                (irqs.start..irqs.start + irqs.count).for_each(|number| {
                    self.irqs.remove(&(irqs.index, number));
                });
                for (number, eventfd) in (irqs.start..).zip(eventfds) {
                    self.irqs.insert((irqs.index, number), eventfd);
                }
            }
            IrqData::None | IrqData::Bools(_) => self.actions.push((irqs.action, irqs.index, irqs.start)),
        }
    }
}

/// Polls the connection once, does what is possible, and answers all that was asked.
pub fn turn(connection: &mut Connection, state: &mut State, wait: PollTimeout) -> Result<(), Error> {
    let mut one = [PollFd::new(connection.as_fd(), connection.events())];
    if poll(&mut one, wait).map_err(Error::Socket)? == 0 {
        return connection.check(Instant::now());
    }
    let found = one[0].revents().unwrap_or(PollFlags::empty());
    let ready = connection.ready(found);
    state.refused = connection.session().refusals().0;
    ready?;
    while let Some((request, ticket)) = connection.next_request()? {
        state.answer(connection, request, ticket)?;
    }
    state.refused = connection.session().refusals().0;
    Ok(())
}

/// Serves a client until its connection is over: why, and what it has done.
pub fn serve(socket: OwnedFd, device: Arc<Device>) -> (Error, State) {
    let mut state = State::new(&device);
    let mut connection = match Connection::new(socket, device) {
        Ok(connection) => connection,
        Err(error) => return (error, state),
    };
    loop {
        if let Err(error) = turn(&mut connection, &mut state, PollTimeout::NONE) {
            return (error, state);
        }
    }
}

/// The same in a thread.
pub fn start(socket: OwnedFd, device: Arc<Device>) -> JoinHandle<(Error, State)> {
    std::thread::spawn(move || serve(socket, device))
}
