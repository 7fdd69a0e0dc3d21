//! A controller that is bound to `vfio-pci`. Its I/O MMU lets it access the pieces of the window alone, at the host's addresses.
//!
//! Completions wake the mediator by MSI-X, where the device has it; else it is to be polled. The kernel says by eventfds where the device has failed, and
//! where it is wanted back (a driver is bound to it, or it is pulled out): both end the drive.

mod bar;
mod device;
pub mod kernel;
#[cfg(test)]
mod tests;

use std::os::fd::{AsFd, BorrowedFd};
use std::path::Path;
use std::sync::Arc;

use nix::sys::eventfd::EventFd;

use self::bar::Bar;
use self::device::Device;
pub use self::device::ADDRESS_END;
pub use self::kernel::{Kernel, Linux};
use self::kernel::{IRQ_ERROR, IRQ_MSIX, IRQ_REQUEST};
use super::nvme::{Controller, DriveMemory, Needs, Physical};
use super::{DriveError, Reach};

const CLASS_NVME: u32 = 0x01_0802;

/// A real controller.
pub struct VfioDrive {
    // The device is dropped first: it makes no accesses of the window then.
    device: Device,
    controller: Controller<Bar>,
    address: String,
    wake: Option<EventFd>,
    failed: Option<EventFd>,
    wanted: Option<EventFd>,
    // The device has its pieces.
    _memory: Arc<dyn DriveMemory>,
}

impl VfioDrive {
    /// Opens the controller at `address` (such as `0000:01:00.0`), which is bound to `vfio-pci`. Each piece of the window is mapped for it at the host's
    /// addresses, and has to lie in what [`VfioDrive::reaches`] gives; its memory is locked from then on.
    ///
    /// Errors: where VFIO cannot be used for it, and as of [`Controller::open`]; each says what to do.
    pub fn open(address: &str, memory: Arc<dyn DriveMemory>, needs: Needs) -> Result<Self, DriveError> {
        Self::open_under(Box::new(Linux), Path::new("/"), address, memory, needs)
    }

    /// The same with another kernel, and with `root` instead of `/` before the paths of `/dev` and `/sys`: for tests.
    pub fn open_under(
        kernel: Box<dyn Kernel>,
        root: &Path,
        address: &str,
        memory: Arc<dyn DriveMemory>,
        needs: Needs,
    ) -> Result<Self, DriveError> {
        let mut device = Device::find(kernel, root, address)?;
        let bar = device.start(address)?;
        let class = device.class()?;
        if class != CLASS_NVME {
            return Err(DriveError::Unusable(format!(
                "{address} is no NVMe controller: its class is {class:#08x}"
            )));
        }
        // It gets memory only now that it is known what it is, and bus mastering only after its memory.
        device.map(&*memory)?;
        let wake = device.interrupt(IRQ_MSIX);
        let (failed, wanted) = (device.interrupt(IRQ_ERROR), device.interrupt(IRQ_REQUEST));
        device.set_master(true)?;
        let needs = Needs {
            interrupts: wake.is_some(),
            ..needs
        };
        let mut controller = Controller::new(bar, memory.clone(), needs);
        controller.open()?;
        Ok(Self {
            device,
            controller,
            address: address.to_owned(),
            wake,
            failed,
            wanted,
            _memory: memory,
        })
    }

    /// Host addresses where pieces of the window may lie for that controller, in ascending order. It opens the device for a moment.
    pub fn reaches(address: &str) -> Result<Vec<Reach>, DriveError> {
        Self::reaches_under(Box::new(Linux), Path::new("/"), address)
    }

    /// The same with another kernel and root: for tests.
    pub fn reaches_under(kernel: Box<dyn Kernel>, root: &Path, address: &str) -> Result<Vec<Reach>, DriveError> {
        Device::find(kernel, root, address).map(|device| device.ranges().to_vec())
    }
}

/// Whether an eventfd was signalled since it was asked last.
fn was_signalled(event: Option<&EventFd>) -> bool {
    event.is_some_and(|event| event.read().is_ok())
}

impl Physical for VfioDrive {
    type Access = Bar;

    fn controller(&self) -> &Controller<Bar> {
        &self.controller
    }

    fn controller_mut(&mut self) -> &mut Controller<Bar> {
        &mut self.controller
    }

    fn hear_of_failures(&mut self) -> Result<(), DriveError> {
        let address = &self.address;
        if was_signalled(self.failed.as_ref()) {
            return Err(DriveError::Failed(format!(
                "the kernel reports an error of {address} that it cannot correct"
            )));
        }
        if was_signalled(self.wanted.as_ref()) {
            return Err(DriveError::Failed(format!(
                "the kernel wants {address} back: it is unbound or pulled out"
            )));
        }
        Ok(())
    }

    fn interrupt(&self) -> Option<BorrowedFd<'_>> {
        self.wake.as_ref().map(AsFd::as_fd)
    }

    fn take_interrupt(&mut self) {
        was_signalled(self.wake.as_ref());
    }

    fn place(&self) -> String {
        self.address.clone()
    }

    fn silence(&mut self) -> Result<(), DriveError> {
        let stopped = self.device.set_master(false);
        for (event, index) in [
            (&self.wake, IRQ_MSIX),
            (&self.failed, IRQ_ERROR),
            (&self.wanted, IRQ_REQUEST),
        ] {
            if event.is_some() {
                self.device.no_interrupt(index);
            }
        }
        stopped
    }
}
