//! A PCI device through Linux's VFIO: by iommufd where there is one, else by container and group. Memory is mapped for it at the host's addresses.

use std::ffi::CString;
use std::fs::File;
use std::io;
use std::os::fd::{AsFd, BorrowedFd, OwnedFd};
use std::os::unix::fs::FileExt;
use std::path::{Path, PathBuf};

use nix::sys::eventfd::{EfdFlags, EventFd};

use super::bar::Bar;
use super::kernel::{
    self, DmaMap, Kernel, API_VERSION, CAPABILITY_RANGES, DEVICE_PCI, DEVICE_RESET, GROUP_VIABLE, IOMMU_CAPABILITIES,
    IRQ_EVENTFD, MOST_RANGES, REGION_BAR0, REGION_CONFIG, REGION_MMAP, REGION_READ, REGION_WRITE, TYPE1V2,
};
use crate::drive::nvme::DriveMemory;
use crate::drive::{DriveError, Reach};

/// Host addresses lie below it.
pub const ADDRESS_END: u64 = 1 << 47;

const COMMAND: u64 = 0x04;
const CLASS: u64 = 0x09;
const COMMAND_MEMORY: u16 = 1 << 1;
const COMMAND_MASTER: u16 = 1 << 2;
const COMMAND_SILENT: u16 = 1 << 10;
const PAGE: u64 = 4096;

/// Bytes of `struct vfio_iommu_type1_info`, and the most that are taken with its capabilities.
const INFO_BYTES: usize = 24;
const INFO_MOST: usize = 65_536;

/// How the device's I/O MMU is reached.
#[derive(Debug)]
enum Mapping {
    Group { container: OwnedFd, _group: OwnedFd },
    Space { iommufd: OwnedFd, space: u32 },
}

/// An open device. When it is dropped its accesses of memory are stopped.
pub struct Device {
    kernel: Box<dyn Kernel>,
    // The device is closed before what it belongs to.
    file: Option<File>,
    mapping: Mapping,
    ranges: Vec<Reach>,
    config_at: u64,
}

fn unusable<T>(words: impl Into<String>) -> Result<T, DriveError> {
    Err(DriveError::Unusable(words.into()))
}

fn why<T>(result: io::Result<T>, words: impl FnOnce() -> String) -> Result<T, DriveError> {
    result.map_err(|error| DriveError::Unusable(format!("{}: {error}", words())))
}

/// The last part of what a link names.
fn link_end(path: &Path) -> Option<String> {
    let target = std::fs::read_link(path).ok()?;
    target.file_name()?.to_str().map(str::to_owned)
}

/// Where things lie: `root` is put before /dev and /sys.
struct Paths<'a> {
    root: &'a Path,
    address: &'a str,
}

impl Paths<'_> {
    fn device(&self) -> PathBuf {
        self.root.join("sys/bus/pci/devices").join(self.address)
    }

    fn vfio(&self, name: &str) -> PathBuf {
        self.root.join("dev/vfio").join(name)
    }

    /// The device's own node and that of iommufd, where both are there.
    fn node(&self) -> Option<(PathBuf, PathBuf)> {
        let iommufd = self.root.join("dev/iommu");
        let entries = std::fs::read_dir(self.device().join("vfio-dev")).ok()?;
        let name = entries
            .filter_map(|entry| entry.ok()?.file_name().into_string().ok())
            .find(|name| name.starts_with("vfio"))?;
        let node = self.vfio("devices").join(name);
        (node.exists() && iommufd.exists()).then_some((node, iommufd))
    }
}

/// Whether a text is an address such as 0000:01:00.0.
fn is_address(text: &str) -> bool {
    (7..16).contains(&text.len())
        && text.chars().all(|c| c.is_ascii_hexdigit() || c == ':' || c == '.')
        && !text.contains("..")
}

impl Device {
    /// Opens the device as far as its ranges are known.
    pub fn find(kernel: Box<dyn Kernel>, root: &Path, address: &str) -> Result<Self, DriveError> {
        let paths = Paths { root, address };
        let device = paths.device();
        if !is_address(address) || !device.exists() {
            return unusable(format!("there is no PCI device {address}"));
        }
        match link_end(&device.join("driver")) {
            None => return unusable(format!("{address} has no driver: bind it to vfio-pci")),
            Some(name) if name != "vfio-pci" => {
                return unusable(format!("{address} has the driver {name}: bind it to vfio-pci"));
            }
            Some(_) => {}
        }
        let Some((node, iommufd)) = paths.node() else {
            return Self::by_group(kernel, &paths);
        };
        match by_space(&*kernel, &node, &iommufd) {
            Ok((file, mapping, ranges)) => Ok(Self {
                kernel,
                file: Some(file),
                mapping,
                ranges,
                config_at: 0,
            }),
            Err(why) => {
                tracing::info!("{why}: the group of {address} is used instead");
                Self::by_group(kernel, &paths)
            }
        }
    }

    fn by_group(kernel: Box<dyn Kernel>, paths: &Paths<'_>) -> Result<Self, DriveError> {
        let container = open_container(&*kernel, &paths.vfio("vfio"))?;
        let (group, name) = open_group(&*kernel, paths)?;
        why(kernel.set_container(group.as_fd(), container.as_fd()), || {
            format!("group {name} cannot be put into a container")
        })?;
        why(kernel.set_iommu(container.as_fd(), TYPE1V2), || {
            "the I/O MMU cannot be set up".into()
        })?;
        let ranges = container_ranges(&*kernel, container.as_fd())?;
        let address = CString::new(paths.address).unwrap_or_default();
        let device = why(kernel.device(group.as_fd(), &address), || {
            format!("the group does not give {}", paths.address)
        })?;
        let mapping = Mapping::Group {
            container,
            _group: group,
        };
        Ok(Self {
            kernel,
            file: Some(File::from(device)),
            mapping,
            ranges,
            config_at: 0,
        })
    }

    /// Host addresses that the device can be given, in ascending order.
    pub fn ranges(&self) -> &[Reach] {
        &self.ranges
    }

    fn fd(&self) -> Result<BorrowedFd<'_>, DriveError> {
        self.file
            .as_ref()
            .map(File::as_fd)
            .ok_or_else(|| DriveError::Failed("the device is closed".into()))
    }

    /// Resets the device where it can be reset, switches its memory accesses on, bus mastering and interrupts off, and maps BAR0.
    pub fn start(&mut self, address: &str) -> Result<Bar, DriveError> {
        let about = why(self.kernel.device_info(self.fd()?), || {
            "the device does not answer as VFIO".into()
        })?;
        if about.flags & DEVICE_PCI == 0 || about.regions <= REGION_CONFIG {
            return unusable(format!("{address} is no PCI device"));
        }
        if about.flags & DEVICE_RESET != 0 {
            why(self.kernel.reset(self.fd()?), || format!("{address} cannot be reset"))?;
        }
        let config = self.region(REGION_CONFIG, "configuration space")?;
        if config.size < 64 {
            return unusable(format!(
                "the device's configuration space has {} bytes only",
                config.size
            ));
        }
        self.config_at = config.offset;
        self.write_command(COMMAND_MEMORY | COMMAND_SILENT, COMMAND_MASTER)?;
        let bar = self.region(REGION_BAR0, "BAR0")?;
        if bar.flags & REGION_MMAP == 0 {
            return unusable("the device's BAR0 cannot be mapped");
        }
        let bytes = u32::try_from(bar.size).ok().filter(|bytes| u64::from(*bytes) >= PAGE);
        let Some(bytes) = bytes else {
            return unusable(format!("the device's BAR0 has {} bytes", bar.size));
        };
        why(Bar::map(self.fd()?, bar.offset, bytes), || {
            "the device's BAR0 cannot be mapped".into()
        })
    }

    fn region(&self, index: u32, what: &str) -> Result<kernel::RegionInfo, DriveError> {
        let info = why(self.kernel.region_info(self.fd()?, index), || {
            format!("the device does not say where its {what} is")
        })?;
        if info.flags & (REGION_READ | REGION_WRITE) != REGION_READ | REGION_WRITE {
            return unusable(format!("the device's {what} cannot be read and written"));
        }
        Ok(info)
    }

    fn read_config(&self, offset: u64, bytes: &mut [u8]) -> Result<(), DriveError> {
        let Some(file) = &self.file else {
            return unusable("the device is closed");
        };
        why(file.read_exact_at(bytes, self.config_at.saturating_add(offset)), || {
            format!("configuration space cannot be read at {offset:#x}")
        })
    }

    fn write_command(&self, set: u16, clear: u16) -> Result<(), DriveError> {
        let mut command = [0u8; 2];
        self.read_config(COMMAND, &mut command)?;
        let wanted = (u16::from_le_bytes(command) | set) & !clear;
        if let Some(file) = &self.file {
            why(
                file.write_all_at(&wanted.to_le_bytes(), self.config_at.saturating_add(COMMAND)),
                || "the command register cannot be written".into(),
            )?;
        }
        self.read_config(COMMAND, &mut command)?;
        let is = u16::from_le_bytes(command);
        if (is ^ wanted) & (set | clear) != 0 {
            return unusable(format!(
                "the command register is {is:#06x} after {wanted:#06x} was written"
            ));
        }
        Ok(())
    }

    /// Lets the device access memory, or stops it: the bit of the command register for bus mastering.
    pub fn set_master(&self, on: bool) -> Result<(), DriveError> {
        if on {
            self.write_command(COMMAND_MASTER, 0)
        } else {
            self.write_command(0, COMMAND_MASTER)
        }
    }

    /// The class code: base class, subclass and interface, 24 bits.
    pub fn class(&self) -> Result<u32, DriveError> {
        let mut bytes = [0u8; 4];
        self.read_config(CLASS, bytes.get_mut(..3).unwrap_or_default())?;
        Ok(u32::from_le_bytes(bytes))
    }

    /// Maps each piece of the window for the device, at the host's addresses. The memory is locked from then on.
    pub fn map(&self, memory: &dyn DriveMemory) -> Result<(), DriveError> {
        let base = memory.base() as u64;
        for piece in memory.pieces() {
            let is_in = |r: &&Reach| piece.host >= r.from && piece.host < r.to && piece.bytes <= r.to - piece.host;
            if !self.ranges.iter().any(|r| is_in(&r)) {
                return unusable(format!(
                    "the I/O MMU cannot translate all of {:#x} and {:#x} bytes",
                    piece.host, piece.bytes
                ));
            }
            let map = DmaMap {
                address: base.wrapping_add(piece.host),
                iova: piece.host,
                bytes: piece.bytes,
            };
            // SAFETY: the piece is memory that stays, and that nobody takes for its own, as `DriveMemory` promises. The caller keeps it as long as the device.
            let mapped = unsafe {
                match &self.mapping {
                    Mapping::Group { container, .. } => self.kernel.map(container.as_fd(), &map),
                    Mapping::Space { iommufd, space } => self.kernel.map_into(iommufd.as_fd(), *space, &map),
                }
            };
            mapped.map_err(|error| {
                let hint = if error.raw_os_error() == Some(libc::ENOMEM) {
                    " (is the limit of locked memory, ulimit -l, large enough?)"
                } else {
                    ""
                };
                DriveError::Unusable(format!(
                    "{:#x} bytes cannot be mapped for the device at {:#x}: {error}{hint}",
                    piece.bytes, piece.host
                ))
            })?;
        }
        Ok(())
    }

    /// An eventfd that is signalled by the first interrupt of a kind, where the device has it.
    pub fn interrupt(&self, index: u32) -> Option<EventFd> {
        let info = self.kernel.irq_info(self.fd().ok()?, index).ok()?;
        if info.count == 0 || info.flags & IRQ_EVENTFD == 0 {
            return None;
        }
        let event = EventFd::from_flags(EfdFlags::EFD_CLOEXEC | EfdFlags::EFD_NONBLOCK).ok()?;
        self.kernel.set_irq(self.fd().ok()?, index, Some(event.as_fd())).ok()?;
        Some(event)
    }

    /// Takes the interrupts of a kind away.
    pub fn no_interrupt(&self, index: u32) {
        if let Ok(device) = self.fd() {
            // Closing the device takes them away, too.
            let _ = self.kernel.set_irq(device, index, None);
        }
    }
}

impl Drop for Device {
    fn drop(&mut self) {
        if self.config_at != 0 {
            // The device is closed next, and then has no memory at all.
            let _ = self.set_master(false);
        }
        self.file = None;
    }
}

fn open_container(kernel: &dyn Kernel, path: &Path) -> Result<OwnedFd, DriveError> {
    let at = path.display();
    let container = kernel.open(path).map_err(|error| {
        DriveError::Unusable(format!(
            "cannot open {at}: {error} (is the module vfio-pci loaded, and are you allowed to?)"
        ))
    })?;
    let version = why(kernel.api_version(container.as_fd()), || {
        format!("{at} does not answer as VFIO")
    })?;
    if version != API_VERSION {
        return unusable(format!("{at} has version {version} of VFIO, not {API_VERSION}"));
    }
    if !kernel.has_extension(container.as_fd(), TYPE1V2).unwrap_or(false) {
        return unusable("the kernel has no I/O MMU of type 1 version 2 for VFIO");
    }
    Ok(container)
}

/// The group of the device, and its name.
fn open_group(kernel: &dyn Kernel, paths: &Paths<'_>) -> Result<(OwnedFd, String), DriveError> {
    let address = paths.address;
    let Some(name) = link_end(&paths.device().join("iommu_group")) else {
        return unusable(format!(
            "{address} is in no group of an I/O MMU: is it switched on (intel_iommu=on, or in the firmware)?"
        ));
    };
    let path = paths.vfio(&name);
    let group = why(kernel.open(&path), || {
        format!("cannot open {}, the group of {address}", path.display())
    })?;
    let flags = why(kernel.group_flags(group.as_fd()), || {
        format!("{} does not answer as a group of VFIO", path.display())
    })?;
    if flags & GROUP_VIABLE == 0 {
        return unusable(format!("group {name} has devices that are not bound to vfio-pci"));
    }
    Ok((group, name))
}

/// The device's own node, in an address space of its own.
fn by_space(kernel: &dyn Kernel, node: &Path, iommufd: &Path) -> Result<(File, Mapping, Vec<Reach>), DriveError> {
    let device = why(kernel.open(node), || format!("cannot open {}", node.display()))?;
    let iommufd = why(kernel.open(iommufd), || format!("cannot open {}", iommufd.display()))?;
    why(kernel.bind(device.as_fd(), iommufd.as_fd()), || {
        format!("{} cannot be used by iommufd", node.display())
    })?;
    let space = why(kernel.new_space(iommufd.as_fd()), || {
        "iommufd makes no address space".into()
    })?;
    why(kernel.attach(device.as_fd(), space), || {
        format!("{} cannot be given an address space", node.display())
    })?;
    let ranges = why(kernel.space_ranges(iommufd.as_fd(), space), || {
        "iommufd does not say what it can translate".into()
    })?;
    let ranges = ranges
        .into_iter()
        .filter_map(|(first, last)| reach(first, last))
        .collect();
    Ok((File::from(device), Mapping::Space { iommufd, space }, ranges))
}

/// A range of which `last` is the last address; what lies at 2^47 or more is left out.
fn reach(first: u64, last: u64) -> Option<Reach> {
    (first < ADDRESS_END && last >= first).then(|| Reach {
        from: first,
        to: last.saturating_add(1).min(ADDRESS_END),
    })
}

fn get<const N: usize>(bytes: &[u8], at: usize) -> Option<[u8; N]> {
    bytes.get(at..at.checked_add(N)?)?.try_into().ok()
}

fn number(bytes: &[u8], at: usize) -> Option<u32> {
    get(bytes, at).map(u32::from_ne_bytes)
}

/// Asks for the addresses that the I/O MMU can translate: twice, since the first answer says how long the second is. Without that capability (Linux
/// before 5.4) nothing is known, and all addresses are taken for good: mapping fails where they are not.
fn container_ranges(kernel: &dyn Kernel, container: BorrowedFd<'_>) -> Result<Vec<Reach>, DriveError> {
    let words = || "the I/O MMU does not say what it can do".to_owned();
    let mut head = vec![0u8; INFO_BYTES];
    why(kernel.iommu_info(container, &mut head), words)?;
    let bytes = number(&head, 0).map_or(0, |bytes| bytes as usize);
    let bytes = if (INFO_BYTES..=INFO_MOST).contains(&bytes) {
        bytes
    } else {
        INFO_BYTES
    };
    let mut info = vec![0u8; bytes];
    why(kernel.iommu_info(container, &mut info), words)?;
    let ranges = ranges_of(&info);
    Ok(if ranges.is_empty() {
        vec![Reach {
            from: 0,
            to: ADDRESS_END,
        }]
    } else {
        ranges
    })
}

/// The ranges in `struct vfio_iommu_type1_info` and its capabilities: offsets are those of the kernel, checked all the same.
fn ranges_of(info: &[u8]) -> Vec<Reach> {
    let mut ranges = Vec::new();
    let has = number(info, 4).is_some_and(|flags| flags & IOMMU_CAPABILITIES != 0);
    let mut at = if has { number(info, 16).unwrap_or(0) as usize } else { 0 };
    for _ in 0..MOST_RANGES {
        if at == 0 {
            break;
        }
        let (Some(id), Some(next)) = (
            get(info, at).map(u16::from_ne_bytes),
            number(info, at.saturating_add(4)),
        ) else {
            break;
        };
        if id == CAPABILITY_RANGES {
            take_ranges(info, at, &mut ranges);
        }
        at = next as usize;
    }
    ranges
}

/// `struct vfio_iommu_type1_info_cap_iova_range`: a header of 8 bytes, the count, and ranges of first and last address from 16 on.
fn take_ranges(info: &[u8], at: usize, ranges: &mut Vec<Reach>) {
    let count = number(info, at.saturating_add(8)).unwrap_or(0) as usize;
    for index in 0..count.min(MOST_RANGES) {
        let place = at.saturating_add(16 + 16 * index);
        let (Some(first), Some(last)) = (get(info, place), get(info, place.saturating_add(8))) else {
            return;
        };
        if ranges.len() < MOST_RANGES {
            ranges.extend(reach(u64::from_ne_bytes(first), u64::from_ne_bytes(last)));
        }
    }
}
