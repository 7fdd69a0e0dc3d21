#![forbid(unsafe_code)]
//! What is looked at before a namespace becomes a drive: its devices, who has them, what the kernel hands over at once, and what the drive says of itself.

use std::fs::{self, File, OpenOptions};
use std::io;
use std::os::fd::{AsFd, AsRawFd};
use std::os::unix::fs::{FileTypeExt, MetadataExt};
use std::path::{Path, PathBuf};

use nix::fcntl::{fcntl, FcntlArg, OFlag};
use nix::sys::stat::{major, makedev, minor};

use super::abilities::Abilities;
use super::kernel::{identify, namespace_of, Files};
use crate::drive::entry::BLOCK_BYTES;
use crate::drive::image::{open_alone, open_without_times};
use crate::drive::nvme::bytes::get32;
use crate::drive::nvme::identify::{ControllerPage, Limits, NamespacePage, PAGE_BYTES};
use crate::drive::nvme::Found;
use crate::drive::prp::{MOST_BYTES, MOST_PLACES};
use crate::drive::DriveError;

/// Where the kernel says what it has.
const SYSFS: &str = "/sys";
/// "Controller or Namespace Structure" of Identify: a namespace of the NVM command set, the controller, and its limits for that set.
const CNS_NAMESPACE: u32 = 0;
const CNS_CONTROLLER: u32 = 1;
const CNS_LIMITS: u32 = 6;

/// What the drive knows of the namespace.
#[derive(Debug)]
pub struct About {
    /// Where it is, and what the drive says of itself.
    pub words: String,
    /// Its identifier.
    pub namespace: u32,
    /// Its blocks of 512 bytes: at least 1.
    pub blocks: u64,
    /// What it can do.
    pub abilities: Abilities,
}

/// A namespace that can be a drive.
#[derive(Debug)]
pub struct Opened {
    /// Its devices.
    pub files: Files,
    /// The rest.
    pub about: About,
}

impl Opened {
    /// Opens the namespace whose generic character device is `path`, and looks whether it can be a drive of at least `needed` blocks.
    ///
    /// # Errors
    ///
    /// In words, with what to do where that is known.
    pub fn at(path: &Path, needed: u64) -> Result<Opened, DriveError> {
        let place = |what: String| DriveError::Unusable(format!("{}: {what}", path.display()));
        let files = open(path, Path::new(SYSFS)).map_err(place)?;
        let namespace = namespace_of(files.as_fd())
            .map_err(|error| place(format!("does not answer as an NVMe namespace: {error}")))?;
        let ask = |cns, namespace| identify(files.as_fd(), cns, namespace);
        let (found, abilities) = look(namespace, needed, ask).map_err(place)?;
        let about = About {
            words: format!("{}, namespace {namespace}: {found}", path.display()),
            namespace,
            blocks: found.namespace.blocks,
            abilities,
        };
        Ok(Opened { files, about })
    }
}

/// Opens both devices of a namespace, the block device for this program alone. What somebody has written by its cache is on the drive then: it would come
/// later, over what guests write.
fn open(path: &Path, sysfs: &Path) -> Result<Files, String> {
    let before = fs::metadata(path).map_err(|error| format!("cannot be looked at: {error}"))?;
    if !before.file_type().is_char_device() {
        let hint = match before.file_type().is_block_device() {
            true => "; its generic device is named such as /dev/ng0n1, and 'drive file' takes a block device",
            false => "",
        };
        return Err(format!("is no character device such as /dev/ng0n1{hint}"));
    }
    let block = BlockDevice::beside(sysfs, before.rdev())?;
    block.fits()?;
    let block_path = beside(path, &block.name)?;
    let is_block = |about: &fs::Metadata| about.file_type().is_block_device() && about.rdev() == block.device;
    let about = fs::metadata(&block_path)
        .map_err(|error| format!("its block device {} cannot be looked at: {error}", block_path.display()))?;
    if !is_block(&about) {
        return Err(format!("{} is not its block device", block_path.display()));
    }
    let locked = open_alone(&block_path, about.file_type()).map_err(|error| format!("its block device {error}"))?;
    locked.sync_all().map_err(|error| {
        format!(
            "what {} has in its cache cannot be written: {error}",
            block_path.display()
        )
    })?;
    let generic = open_generic(path).map_err(|error| format!("cannot be opened: {error}"))?;
    let same = |file: &File, is: &dyn Fn(&fs::Metadata) -> bool| file.metadata().is_ok_and(|about| is(&about));
    let is_generic = |about: &fs::Metadata| about.file_type().is_char_device() && about.rdev() == before.rdev();
    if !same(&generic, &is_generic) || !same(&locked, &is_block) {
        return Err(String::from("was replaced while it was opened"));
    }
    let ids = (namespace_of(generic.as_fd()), namespace_of(locked.as_fd()));
    match ids {
        (Ok(id), Ok(other)) if id == other => {}
        (Err(error), _) => return Err(format!("does not answer as an NVMe namespace: {error}")),
        _ => return Err(format!("{} is another namespace", block_path.display())),
    }
    Ok(Files { generic, block: locked })
}

/// Commands on a descriptor that may not wait would fail where they have to.
fn open_generic(path: &Path) -> io::Result<File> {
    let file = open_without_times(OpenOptions::new().read(true).write(true), path, 0)?;
    fcntl(file.as_raw_fd(), FcntlArg::F_SETFL(OFlag::empty()))?;
    Ok(file)
}

/// The path of that name in the folder in which the device is, once links were followed.
fn beside(path: &Path, name: &str) -> Result<PathBuf, String> {
    let place = fs::canonicalize(path).map_err(|error| format!("cannot be looked at: {error}"))?;
    Ok(place.with_file_name(name))
}

/// The block device of a namespace, as sysfs has it.
#[derive(Debug, PartialEq, Eq)]
struct BlockDevice {
    /// Such as `nvme0n1`.
    name: String,
    /// Its number.
    device: u64,
    /// What the kernel hands over with one command at most: KiB, and pieces of memory.
    most_kib: u64,
    most_pieces: u64,
    /// Its model of zones.
    zones: String,
}

impl BlockDevice {
    /// The one whose generic device has this number.
    fn beside(sysfs: &Path, generic: u64) -> Result<BlockDevice, String> {
        let link = sysfs.join(format!("dev/char/{}:{}", major(generic), minor(generic)));
        let none = || String::from("is no generic NVMe device such as /dev/ng0n1");
        let place = fs::canonicalize(&link).map_err(|_| none())?;
        let kind = fs::canonicalize(place.join("subsystem")).map_err(|_| none())?;
        let name = place.file_name().and_then(|name| name.to_str()).ok_or_else(none)?;
        let number = name.strip_prefix("ng").ok_or_else(none)?;
        if kind.file_name() != Some("nvme-generic".as_ref()) {
            return Err(none());
        }
        let name = format!("nvme{number}");
        let block = sysfs.join("class/block").join(&name);
        let device = read(&block.join("dev"))?;
        let device = device
            .split_once(':')
            .and_then(|(major, minor)| Some(makedev(major.parse().ok()?, minor.parse().ok()?)))
            .ok_or_else(|| format!("the kernel gives its block device the number {device}"))?;
        Ok(BlockDevice {
            name,
            device,
            most_kib: read_number(&block.join("queue/max_hw_sectors_kb"))?,
            most_pieces: read_number(&block.join("queue/max_segments"))?,
            zones: read(&block.join("queue/zoned"))?,
        })
    }

    /// Whether it takes a Write at any block, and as much at once as a physical command has.
    fn fits(&self) -> Result<(), String> {
        if self.zones != "none" {
            return Err(format!(
                "is a namespace with zones ({}), where blocks are written in order",
                self.zones
            ));
        }
        let (kib, pieces) = (u64::from(MOST_BYTES) >> 10, MOST_PLACES as u64);
        if self.most_kib < kib {
            let most = self.most_kib;
            return Err(format!(
                "the kernel hands it at most {most} KiB at once, and {kib} are needed"
            ));
        }
        if self.most_pieces < pieces {
            let most = self.most_pieces;
            return Err(format!(
                "the kernel hands it at most {most} pieces of memory at once, and {pieces} are needed"
            ));
        }
        Ok(())
    }
}

fn read(path: &Path) -> Result<String, String> {
    let text = fs::read_to_string(path).map_err(|error| format!("{}: cannot be read: {error}", path.display()))?;
    Ok(text.trim_end().to_owned())
}

fn read_number(path: &Path) -> Result<u64, String> {
    let text = read(path)?;
    text.parse()
        .map_err(|_| format!("{}: has no number: {text}", path.display()))
}

/// Asks the drive by Identify of itself, of the namespace, and of its limits: by CNS and namespace, the status and a page that is valid where that is 0.
fn look(
    namespace: u32,
    needed: u64,
    mut ask: impl FnMut(u32, u32) -> io::Result<(u32, Box<[u8; PAGE_BYTES]>)>,
) -> Result<(Found, Abilities), String> {
    let mut page_of = |name: &str, cns, namespace| match ask(cns, namespace) {
        Ok((0, page)) => Ok(page),
        Ok((status, _)) => Err(format!("the drive refuses {name} with status {status:#x}")),
        Err(error) => Err(format!("the kernel refuses {name}: {error}{}", right(&error))),
    };
    let refused = |error: DriveError| error.to_string();
    let controller = page_of("Identify Controller", CNS_CONTROLLER, 0)?;
    let version = get32(&controller[..], 80);
    let controller = ControllerPage::of(&controller, u64::from(MOST_BYTES)).map_err(refused)?;
    let page = page_of("Identify Namespace", CNS_NAMESPACE, namespace)?;
    let page = NamespacePage::of(&page, namespace, needed).map_err(refused)?;
    if page.blocks.checked_mul(BLOCK_BYTES).is_none() {
        return Err(format!("namespace {namespace} says that it has {} blocks", page.blocks));
    }
    // Drives before NVMe 2.0 refuse it.
    let limits = page_of("the limits of its command set", CNS_LIMITS, 0).ok();
    let limits = limits.map(|limits| Limits::of(&limits));
    let abilities = Abilities::of(&controller, &page, limits.as_ref());
    let found = Found {
        version,
        controller,
        namespace: page,
        limits: limits.unwrap_or_default(),
    };
    Ok((found, abilities))
}

/// What to do where a right lacks.
fn right(error: &io::Error) -> &'static str {
    match error.raw_os_error() {
        Some(libc::EACCES | libc::EPERM) => "; before Linux 6.2 that needs the right CAP_SYS_ADMIN",
        _ => "",
    }
}

#[cfg(test)]
mod tests;
