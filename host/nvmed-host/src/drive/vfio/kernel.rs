//! Linux's VFIO and iommufd, request by request (`linux/vfio.h`, `linux/iommufd.h`).

use std::ffi::CStr;
use std::fs::OpenOptions;
use std::io;
use std::os::fd::{AsRawFd, BorrowedFd, FromRawFd, OwnedFd};
use std::path::Path;

use libc::{c_int, c_ulong};
use vmm_sys_util::ioctl::{
    ioctl, ioctl_with_mut_ptr, ioctl_with_mut_ref, ioctl_with_ptr, ioctl_with_ref, ioctl_with_val,
};

/// The version of VFIO that is spoken.
pub const API_VERSION: i32 = 0;
/// I/O MMU of type 1, version 2.
pub const TYPE1V2: u32 = 3;
/// All devices of a group are bound to VFIO.
pub const GROUP_VIABLE: u32 = 1;
/// The device can be reset.
pub const DEVICE_RESET: u32 = 1;
/// It is a PCI device.
pub const DEVICE_PCI: u32 = 1 << 1;
/// A region can be read, written, mapped.
pub const REGION_READ: u32 = 1;
/// As above.
pub const REGION_WRITE: u32 = 1 << 1;
/// As above.
pub const REGION_MMAP: u32 = 1 << 2;
/// The index of the region BAR0.
pub const REGION_BAR0: u32 = 0;
/// The index of configuration space.
pub const REGION_CONFIG: u32 = 7;
/// The index of MSI-X interrupts.
pub const IRQ_MSIX: u32 = 2;
/// The index of the interrupt that says that the device has failed.
pub const IRQ_ERROR: u32 = 3;
/// The index of the interrupt that says that the kernel wants the device back.
pub const IRQ_REQUEST: u32 = 4;
/// An interrupt can be signalled by an eventfd.
pub const IRQ_EVENTFD: u32 = 1;
/// The answer about an I/O MMU has capabilities.
pub const IOMMU_CAPABILITIES: u32 = 1 << 1;
/// The capability that has the ranges of addresses.
pub const CAPABILITY_RANGES: u16 = 1;
/// Ranges of an address space that are asked for.
pub const MOST_RANGES: usize = 64;

const IRQ_SET_NONE: u32 = 1;
const IRQ_SET_EVENTFD: u32 = 1 << 2;
const IRQ_SET_TRIGGER: u32 = 1 << 5;
const DMA_READ_WRITE: u32 = 3;
const IOAS_FIXED_READ_WRITE: u32 = 7;

/// Numbers of requests: those of VFIO have the base 100, those of iommufd 80h; both have the type `;`, and no size.
const fn request(number: c_ulong) -> c_ulong {
    0x3b00 | number
}

/// Memory that a device gets.
#[derive(Clone, Copy, Debug, PartialEq, Eq)]
pub struct DmaMap {
    /// Where it lies in this process.
    pub address: u64,
    /// By which address the device has it.
    pub iova: u64,
    /// Its length.
    pub bytes: u64,
}

/// What is said of a device.
#[derive(Clone, Copy, Debug, Default, PartialEq, Eq)]
pub struct DeviceInfo {
    /// [`DEVICE_RESET`], [`DEVICE_PCI`].
    pub flags: u32,
    /// Its regions.
    pub regions: u32,
    /// Its kinds of interrupts.
    pub interrupts: u32,
}

/// What is said of a region.
#[derive(Clone, Copy, Debug, Default, PartialEq, Eq)]
pub struct RegionInfo {
    /// [`REGION_READ`], [`REGION_WRITE`], [`REGION_MMAP`].
    pub flags: u32,
    /// Its length.
    pub size: u64,
    /// Where it is in the device's file.
    pub offset: u64,
}

/// What is said of a kind of interrupts.
#[derive(Clone, Copy, Debug, Default, PartialEq, Eq)]
pub struct IrqInfo {
    /// [`IRQ_EVENTFD`].
    pub flags: u32,
    /// How many there are.
    pub count: u32,
}

/// What is asked of the kernel. Each error is the kernel's.
pub trait Kernel: Send {
    /// Opens a file for reading and writing.
    fn open(&self, path: &Path) -> io::Result<OwnedFd> {
        OpenOptions::new().read(true).write(true).open(path).map(OwnedFd::from)
    }

    /// The version that a container speaks.
    fn api_version(&self, container: BorrowedFd<'_>) -> io::Result<i32>;
    /// Whether a container has an extension.
    fn has_extension(&self, container: BorrowedFd<'_>, extension: u32) -> io::Result<bool>;
    /// The flags of a group.
    fn group_flags(&self, group: BorrowedFd<'_>) -> io::Result<u32>;
    /// Puts a group into a container.
    fn set_container(&self, group: BorrowedFd<'_>, container: BorrowedFd<'_>) -> io::Result<()>;
    /// Sets a container's I/O MMU up.
    fn set_iommu(&self, container: BorrowedFd<'_>, kind: u32) -> io::Result<()>;
    /// What a container's I/O MMU can do: `struct vfio_iommu_type1_info` with its capabilities, as far as they fit. The first dword of `info` becomes
    /// the length that all of it has.
    fn iommu_info(&self, container: BorrowedFd<'_>, info: &mut [u8]) -> io::Result<()>;
    /// Gives a container's devices memory, to read and to write.
    ///
    /// # Safety
    ///
    /// The memory is mapped, and nobody takes it for its own, as long as the container is open.
    unsafe fn map(&self, container: BorrowedFd<'_>, map: &DmaMap) -> io::Result<()>;
    /// The device of a group.
    fn device(&self, group: BorrowedFd<'_>, address: &CStr) -> io::Result<OwnedFd>;

    /// Makes a device that of an iommufd.
    fn bind(&self, device: BorrowedFd<'_>, iommufd: BorrowedFd<'_>) -> io::Result<()>;
    /// Makes an address space.
    fn new_space(&self, iommufd: BorrowedFd<'_>) -> io::Result<u32>;
    /// Gives a device an address space.
    fn attach(&self, device: BorrowedFd<'_>, space: u32) -> io::Result<()>;
    /// The ranges of an address space, first and last address of each: [`MOST_RANGES`] at most.
    fn space_ranges(&self, iommufd: BorrowedFd<'_>, space: u32) -> io::Result<Vec<(u64, u64)>>;
    /// Gives an address space's devices memory, to read and to write.
    ///
    /// # Safety
    ///
    /// The memory is mapped, and nobody takes it for its own, as long as the iommufd is open.
    unsafe fn map_into(&self, iommufd: BorrowedFd<'_>, space: u32, map: &DmaMap) -> io::Result<()>;

    /// What a device is.
    fn device_info(&self, device: BorrowedFd<'_>) -> io::Result<DeviceInfo>;
    /// What a region is.
    fn region_info(&self, device: BorrowedFd<'_>, index: u32) -> io::Result<RegionInfo>;
    /// What a kind of interrupts is.
    fn irq_info(&self, device: BorrowedFd<'_>, index: u32) -> io::Result<IrqInfo>;
    /// Has the first interrupt of a kind signalled by an eventfd, or takes all of them away.
    fn set_irq(&self, device: BorrowedFd<'_>, index: u32, event: Option<BorrowedFd<'_>>) -> io::Result<()>;
    /// Resets a device.
    fn reset(&self, device: BorrowedFd<'_>) -> io::Result<()>;
}

/// The kernel itself.
#[derive(Clone, Copy, Debug, Default)]
pub struct Linux;

#[repr(C)]
#[derive(Default)]
struct GroupStatus {
    argsz: u32,
    flags: u32,
}

#[repr(C)]
#[derive(Default)]
struct Type1Map {
    argsz: u32,
    flags: u32,
    vaddr: u64,
    iova: u64,
    size: u64,
}

#[repr(C)]
#[derive(Default)]
struct RawDeviceInfo {
    argsz: u32,
    flags: u32,
    num_regions: u32,
    num_irqs: u32,
    cap_offset: u32,
    pad: u32,
}

#[repr(C)]
#[derive(Default)]
struct RawRegionInfo {
    argsz: u32,
    flags: u32,
    index: u32,
    cap_offset: u32,
    size: u64,
    offset: u64,
}

#[repr(C)]
#[derive(Default)]
struct RawIrqInfo {
    argsz: u32,
    flags: u32,
    index: u32,
    count: u32,
}

#[repr(C)]
#[derive(Default)]
struct IrqSet {
    argsz: u32,
    flags: u32,
    index: u32,
    start: u32,
    count: u32,
    fd: i32,
}

#[repr(C)]
#[derive(Default)]
struct BindIommufd {
    argsz: u32,
    flags: u32,
    iommufd: i32,
    out_devid: u32,
}

#[repr(C)]
#[derive(Default)]
struct AttachSpace {
    argsz: u32,
    flags: u32,
    pt_id: u32,
}

#[repr(C)]
#[derive(Default)]
struct NewSpace {
    size: u32,
    flags: u32,
    out_ioas_id: u32,
}

#[repr(C)]
#[derive(Clone, Copy, Default)]
struct SpaceRange {
    start: u64,
    last: u64,
}

#[repr(C)]
#[derive(Default)]
struct SpaceRanges {
    size: u32,
    ioas_id: u32,
    num_iovas: u32,
    reserved: u32,
    allowed_iovas: u64,
    out_iova_alignment: u64,
}

#[repr(C)]
#[derive(Default)]
struct SpaceMap {
    size: u32,
    flags: u32,
    ioas_id: u32,
    reserved: u32,
    user_va: u64,
    length: u64,
    iova: u64,
}

fn size<T>() -> u32 {
    // No structure here is longer than 48 bytes.
    std::mem::size_of::<T>() as u32
}

fn good(result: c_int) -> io::Result<c_int> {
    if result < 0 {
        return Err(io::Error::last_os_error());
    }
    Ok(result)
}

impl Kernel for Linux {
    fn api_version(&self, container: BorrowedFd<'_>) -> io::Result<i32> {
        // SAFETY: the request has no argument.
        good(unsafe { ioctl(&container, request(100)) })
    }

    fn has_extension(&self, container: BorrowedFd<'_>, extension: u32) -> io::Result<bool> {
        // SAFETY: the argument is a number.
        good(unsafe { ioctl_with_val(&container, request(101), c_ulong::from(extension)) }).map(|answer| answer == 1)
    }

    fn set_iommu(&self, container: BorrowedFd<'_>, kind: u32) -> io::Result<()> {
        // SAFETY: the argument is a number.
        good(unsafe { ioctl_with_val(&container, request(102), c_ulong::from(kind)) }).map(drop)
    }

    fn group_flags(&self, group: BorrowedFd<'_>) -> io::Result<u32> {
        let mut status = GroupStatus {
            argsz: size::<GroupStatus>(),
            flags: 0,
        };
        // SAFETY: the argument is the structure of this request, with its length.
        good(unsafe { ioctl_with_mut_ref(&group, request(103), &mut status) })?;
        Ok(status.flags)
    }

    fn set_container(&self, group: BorrowedFd<'_>, container: BorrowedFd<'_>) -> io::Result<()> {
        // SAFETY: the argument is a descriptor's number in memory.
        good(unsafe { ioctl_with_ref(&group, request(104), &container.as_raw_fd()) }).map(drop)
    }

    fn device(&self, group: BorrowedFd<'_>, address: &CStr) -> io::Result<OwnedFd> {
        // SAFETY: the argument is a text that ends with a NUL.
        let device = good(unsafe { ioctl_with_ptr(&group, request(106), address.as_ptr()) })?;
        // SAFETY: the kernel gave this descriptor just now, and nothing else has it.
        let device = unsafe { OwnedFd::from_raw_fd(device) };
        // SAFETY: the request has a number as argument.
        good(unsafe { libc::fcntl(device.as_raw_fd(), libc::F_SETFD, libc::FD_CLOEXEC) })?;
        Ok(device)
    }

    fn iommu_info(&self, container: BorrowedFd<'_>, info: &mut [u8]) -> io::Result<()> {
        let length = u32::try_from(info.len()).map_err(|_| io::Error::from(io::ErrorKind::InvalidInput))?;
        let first = info.first_chunk_mut::<4>().ok_or(io::ErrorKind::InvalidInput)?;
        *first = length.to_ne_bytes();
        // SAFETY: the kernel writes at most as many bytes as the first dword says, which is the length of `info`.
        good(unsafe { ioctl_with_mut_ptr(&container, request(112), info.as_mut_ptr()) }).map(drop)
    }

    unsafe fn map(&self, container: BorrowedFd<'_>, map: &DmaMap) -> io::Result<()> {
        let DmaMap {
            address: vaddr,
            iova,
            bytes: size_of_it,
        } = *map;
        let map = Type1Map {
            argsz: size::<Type1Map>(),
            flags: DMA_READ_WRITE,
            vaddr,
            iova,
            size: size_of_it,
        };
        // SAFETY: the argument is the structure of this request, with its length; the memory is as the caller says.
        good(unsafe { ioctl_with_ref(&container, request(113), &map) }).map(drop)
    }

    fn bind(&self, device: BorrowedFd<'_>, iommufd: BorrowedFd<'_>) -> io::Result<()> {
        let mut bind = BindIommufd {
            argsz: size::<BindIommufd>(),
            iommufd: iommufd.as_raw_fd(),
            ..BindIommufd::default()
        };
        // SAFETY: the argument is the structure of this request, with its length.
        good(unsafe { ioctl_with_mut_ref(&device, request(118), &mut bind) }).map(drop)
    }

    fn attach(&self, device: BorrowedFd<'_>, space: u32) -> io::Result<()> {
        let mut attach = AttachSpace {
            argsz: size::<AttachSpace>(),
            flags: 0,
            pt_id: space,
        };
        // SAFETY: the argument is the structure of this request, with its length.
        good(unsafe { ioctl_with_mut_ref(&device, request(119), &mut attach) }).map(drop)
    }

    fn new_space(&self, iommufd: BorrowedFd<'_>) -> io::Result<u32> {
        let mut new = NewSpace {
            size: size::<NewSpace>(),
            ..NewSpace::default()
        };
        // SAFETY: the argument is the structure of this request, with its length.
        good(unsafe { ioctl_with_mut_ref(&iommufd, request(0x81), &mut new) })?;
        Ok(new.out_ioas_id)
    }

    fn space_ranges(&self, iommufd: BorrowedFd<'_>, space: u32) -> io::Result<Vec<(u64, u64)>> {
        let mut ranges = [SpaceRange::default(); MOST_RANGES];
        let mut ask = SpaceRanges {
            size: size::<SpaceRanges>(),
            ioas_id: space,
            num_iovas: MOST_RANGES as u32,
            allowed_iovas: ranges.as_mut_ptr() as u64,
            ..SpaceRanges::default()
        };
        // SAFETY: the argument is the structure of this request, with its length, and names an array of as many ranges as it says.
        let asked = good(unsafe { ioctl_with_mut_ref(&iommufd, request(0x84), &mut ask) });
        match asked {
            Err(why) if why.raw_os_error() != Some(libc::EMSGSIZE) => return Err(why),
            _ => {} // with EMSGSIZE there are more ranges than were asked for
        }
        Ok(ranges
            .iter()
            .take(ask.num_iovas as usize)
            .map(|range| (range.start, range.last))
            .collect())
    }

    // Safety: as the trait says.
    unsafe fn map_into(&self, iommufd: BorrowedFd<'_>, space: u32, map: &DmaMap) -> io::Result<()> {
        let map = SpaceMap {
            size: size::<SpaceMap>(),
            flags: IOAS_FIXED_READ_WRITE,
            ioas_id: space,
            reserved: 0,
            user_va: map.address,
            length: map.bytes,
            iova: map.iova,
        };
        // SAFETY: the argument is the structure of this request, with its length; the memory is as the caller says.
        good(unsafe { ioctl_with_ref(&iommufd, request(0x85), &map) }).map(drop)
    }

    fn device_info(&self, device: BorrowedFd<'_>) -> io::Result<DeviceInfo> {
        let mut info = RawDeviceInfo {
            argsz: size::<RawDeviceInfo>(),
            ..RawDeviceInfo::default()
        };
        // SAFETY: the argument is the structure of this request, with its length.
        good(unsafe { ioctl_with_mut_ref(&device, request(107), &mut info) })?;
        Ok(DeviceInfo {
            flags: info.flags,
            regions: info.num_regions,
            interrupts: info.num_irqs,
        })
    }

    fn region_info(&self, device: BorrowedFd<'_>, index: u32) -> io::Result<RegionInfo> {
        let mut info = RawRegionInfo {
            argsz: size::<RawRegionInfo>(),
            index,
            ..RawRegionInfo::default()
        };
        // SAFETY: the argument is the structure of this request, with its length.
        good(unsafe { ioctl_with_mut_ref(&device, request(108), &mut info) })?;
        Ok(RegionInfo {
            flags: info.flags,
            size: info.size,
            offset: info.offset,
        })
    }

    fn irq_info(&self, device: BorrowedFd<'_>, index: u32) -> io::Result<IrqInfo> {
        let mut info = RawIrqInfo {
            argsz: size::<RawIrqInfo>(),
            index,
            ..RawIrqInfo::default()
        };
        // SAFETY: the argument is the structure of this request, with its length.
        good(unsafe { ioctl_with_mut_ref(&device, request(109), &mut info) })?;
        Ok(IrqInfo {
            flags: info.flags,
            count: info.count,
        })
    }

    fn set_irq(&self, device: BorrowedFd<'_>, index: u32, event: Option<BorrowedFd<'_>>) -> io::Result<()> {
        let set = match event {
            Some(event) => IrqSet {
                argsz: size::<IrqSet>(),
                flags: IRQ_SET_EVENTFD | IRQ_SET_TRIGGER,
                index,
                start: 0,
                count: 1,
                fd: event.as_raw_fd(),
            },
            None => IrqSet {
                argsz: size::<IrqSet>() - 4,
                flags: IRQ_SET_NONE | IRQ_SET_TRIGGER,
                index,
                ..IrqSet::default()
            },
        };
        // SAFETY: the argument is the structure of this request, with its length, and a descriptor's number where it says so.
        good(unsafe { ioctl_with_ref(&device, request(110), &set) }).map(drop)
    }

    fn reset(&self, device: BorrowedFd<'_>) -> io::Result<()> {
        // SAFETY: the request has no argument.
        good(unsafe { ioctl(&device, request(111)) }).map(drop)
    }
}
