//! Kernel and device, as the tests play them.

use super::*;

/// What kernel and device do.
pub(super) struct State {
    /// The request that fails, but for the first times.
    pub(super) fail: Option<(&'static str, i32)>,
    pub(super) passes: u32,
    pub(super) asked: Vec<&'static str>,
    pub(super) version: i32,
    pub(super) extension: bool,
    pub(super) viable: u32,
    pub(super) device_flags: u32,
    pub(super) regions: u32,
    pub(super) bar_flags: u32,
    pub(super) bar_bytes: u64,
    pub(super) config_bytes: u64,
    /// Ranges that the I/O MMU translates, first and last address.
    pub(super) ranges: Vec<(u64, u64)>,
    /// What the answer about the I/O MMU has instead, and how long it says that it is.
    pub(super) info: Option<Vec<u8>>,
    pub(super) argsz: Option<u32>,
    pub(super) msix: u32,
    pub(super) events: Vec<(u32, Option<OwnedFd>)>,
    pub(super) maps: Vec<DmaMap>,
    pub(super) violations: u32,
}

pub(super) struct Bench {
    pub(super) root: PathBuf,
    pub(super) memory: Arc<TestMemory>,
    pub(super) file: Arc<File>,
    pub(super) state: Arc<Mutex<State>>,
}

pub(super) struct FakeKernel {
    pub(super) file: Arc<File>,
    pub(super) state: Arc<Mutex<State>>,
}

pub(super) fn device_folder(root: &Path) -> PathBuf {
    root.join("sys/bus/pci/devices").join(ADDRESS)
}

/// `struct vfio_iommu_type1_info` with a capability that has ranges.
pub(super) fn info_of(ranges: &[(u64, u64)], count: u32, id: u16, next: u32, at: u32) -> Vec<u8> {
    let mut info = Vec::new();
    info.extend_from_slice(&0u32.to_ne_bytes());
    info.extend_from_slice(&2u32.to_ne_bytes());
    info.extend_from_slice(&0x1000u64.to_ne_bytes());
    info.extend_from_slice(&at.to_ne_bytes());
    info.extend_from_slice(&[0; 4]);
    info.extend_from_slice(&id.to_ne_bytes());
    info.extend_from_slice(&1u16.to_ne_bytes());
    info.extend_from_slice(&next.to_ne_bytes());
    info.extend_from_slice(&count.to_ne_bytes());
    info.extend_from_slice(&[0; 4]);
    for (first, last) in ranges {
        info.extend_from_slice(&first.to_ne_bytes());
        info.extend_from_slice(&last.to_ne_bytes());
    }
    info
}

impl Bench {
    pub(super) fn new(change: impl FnOnce(&mut State)) -> Self {
        static NUMBER: AtomicU32 = AtomicU32::new(0);
        let number = NUMBER.fetch_add(1, Ordering::Relaxed);
        let root = std::env::temp_dir().join(format!("nvmed-vfio-{}-{number}", std::process::id()));
        fs::create_dir_all(root.join("dev/vfio")).unwrap();
        fs::create_dir_all(device_folder(&root)).unwrap();
        for name in ["vfio", "7"] {
            fs::write(root.join("dev/vfio").join(name), []).unwrap();
        }
        symlink("../../../drivers/vfio-pci", device_folder(&root).join("driver")).unwrap();
        symlink(
            "../../../kernel/iommu_groups/7",
            device_folder(&root).join("iommu_group"),
        )
        .unwrap();
        let pieces = vec![
            Piece {
                host: FROM,
                bytes: 0x4_0000,
            },
            Piece {
                host: 0x8_0000,
                bytes: 0x8_0000,
            },
        ];
        let memory = TestMemory::with(MEMORY, pieces);
        let file = File::from(memfd_create(c"device", MemFdCreateFlag::MFD_CLOEXEC).unwrap());
        file.set_len(BAR_AT + u64::from(BAR_BYTES)).unwrap();
        file.write_all_at(&[0x36, 0x1b, 0x10, 0, 7, 0, 0, 0, 2, 2, 8, 1], CONFIG_AT)
            .unwrap();
        let mut state = State {
            fail: None,
            passes: 0,
            asked: Vec::new(),
            version: API_VERSION,
            extension: true,
            viable: GROUP_VIABLE,
            device_flags: DEVICE_PCI | DEVICE_RESET,
            regions: 9,
            bar_flags: 7,
            bar_bytes: u64::from(BAR_BYTES),
            config_bytes: 256,
            ranges: vec![(0, 0xfedf_ffff), (0xfef0_0000, u64::MAX)],
            info: None,
            argsz: None,
            msix: 9,
            events: Vec::new(),
            maps: Vec::new(),
            violations: 0,
        };
        change(&mut state);
        let bench = Self {
            root,
            memory,
            file: Arc::new(file),
            state: Arc::new(Mutex::new(state)),
        };
        let fake = bench.fake();
        bench.file.write_all_at(&fake.cap.to_le_bytes(), BAR_AT).unwrap();
        bench.file.write_all_at(&fake.vs.to_le_bytes(), BAR_AT + 8).unwrap();
        bench
    }

    /// The controller, with 30 s to become ready, since its thread may have to wait.
    pub(super) fn fake(&self) -> Fake {
        let mut fake = Fake::new(self.memory.clone());
        fake.cap |= 60 << 24;
        fake
    }

    /// The device's own node.
    pub(super) fn with_node(self) -> Self {
        fs::create_dir_all(self.root.join("dev/vfio/devices")).unwrap();
        fs::create_dir_all(device_folder(&self.root).join("vfio-dev/vfio3")).unwrap();
        fs::write(self.root.join("dev/vfio/devices/vfio3"), []).unwrap();
        fs::write(self.root.join("dev/iommu"), []).unwrap();
        self
    }

    pub(super) fn state(&self) -> MutexGuard<'_, State> {
        self.state.lock().unwrap()
    }

    pub(super) fn kernel(&self) -> Box<dyn Kernel> {
        Box::new(FakeKernel {
            file: self.file.clone(),
            state: self.state.clone(),
        })
    }

    pub(super) fn open(&self) -> Result<Box<VfioDrive>, DriveError> {
        VfioDrive::open_under(self.kernel(), &self.root, ADDRESS, self.memory.clone(), NEEDS).map(Box::new)
    }

    pub(super) fn reaches(&self) -> Vec<Reach> {
        VfioDrive::reaches_under(self.kernel(), &self.root, ADDRESS).unwrap()
    }

    pub(super) fn command(&self) -> u16 {
        let mut bytes = [0; 2];
        self.file.read_exact_at(&mut bytes, CONFIG_AT + 4).unwrap();
        u16::from_le_bytes(bytes)
    }

    pub(super) fn bar(&self, offset: u64) -> u32 {
        let mut bytes = [0; 4];
        self.file.read_exact_at(&mut bytes, BAR_AT + offset).unwrap();
        u32::from_le_bytes(bytes)
    }

    pub(super) fn signal(&self, index: u32) {
        let state = self.state();
        let event = state
            .events
            .iter()
            .rev()
            .find(|e| e.0 == index)
            .and_then(|e| e.1.as_ref())
            .unwrap();
        nix::unistd::write(event, &1u64.to_ne_bytes()).unwrap();
    }

    /// Plays the controller until it is stopped, and then gives it back.
    pub(super) fn play(&self) -> Player {
        let stop = Arc::new(AtomicBool::new(false));
        let (mut fake, stopped) = (self.fake(), stop.clone());
        let mut bar = Bar::map(self.file.as_fd(), BAR_AT, BAR_BYTES).unwrap();
        let thread = std::thread::spawn(move || {
            let mut tails = [0u32; 2];
            while !stopped.load(Ordering::Acquire) {
                for at in [
                    property::AQA,
                    property::ASQ,
                    property::ASQ + 4,
                    property::ACQ,
                    property::ACQ + 4,
                ] {
                    fake.write(at, bar.read(at).unwrap());
                }
                let cc = bar.read(property::CC).unwrap();
                if cc != fake.cc {
                    if cc & 1 == 0 {
                        tails = [0; 2];
                        for bell in [0x1000, 0x1008] {
                            bar.write(bell, 0).unwrap();
                        }
                    }
                    fake.write(property::CC, cc);
                }
                for (tail, bell) in tails.iter_mut().zip([0x1000, 0x1008]) {
                    let now = bar.read(bell).unwrap();
                    if now != *tail && fake.csts & 1 == 1 {
                        *tail = now;
                        fake.write(bell, now);
                    }
                }
                bar.write(property::CSTS, fake.csts).unwrap();
                std::thread::sleep(Duration::from_micros(50));
            }
            fake
        });
        Player { stop, thread }
    }
}

impl Drop for Bench {
    fn drop(&mut self) {
        fs::remove_dir_all(&self.root).unwrap();
    }
}

pub(super) struct Player {
    pub(super) stop: Arc<AtomicBool>,
    pub(super) thread: JoinHandle<Fake>,
}

impl Player {
    pub(super) fn end(self) -> Fake {
        self.stop.store(true, Ordering::Release);
        self.thread.join().unwrap()
    }
}

/// Whether a descriptor is of the file that it should be.
pub(super) fn is_of(fd: BorrowedFd<'_>, name: &str) -> bool {
    use std::os::fd::AsRawFd;
    let link = fs::read_link(format!("/proc/self/fd/{}", fd.as_raw_fd())).unwrap();
    link.to_str().unwrap().contains(name)
}

impl FakeKernel {
    fn asked(&self, name: &'static str, is_right: bool) -> io::Result<MutexGuard<'_, State>> {
        let mut state = self.state.lock().unwrap();
        state.asked.push(name);
        state.violations += u32::from(!is_right);
        match state.fail {
            Some((fails, _)) if fails == name && state.passes > 0 => state.passes -= 1,
            Some((fails, errno)) if fails == name => return Err(io::Error::from_raw_os_error(errno)),
            _ => {}
        }
        Ok(state)
    }

    fn note_map(&self, state: &mut State, map: &DmaMap) {
        let mut command = [0; 2];
        self.file.read_exact_at(&mut command, CONFIG_AT + 4).unwrap();
        state.violations += u32::from(command[0] & 4 != 0); // the device makes no accesses yet
        state.maps.push(*map);
    }
}

impl Kernel for FakeKernel {
    fn api_version(&self, container: BorrowedFd<'_>) -> io::Result<i32> {
        self.asked("version", is_of(container, "/dev/vfio/vfio"))
            .map(|s| s.version)
    }

    fn has_extension(&self, container: BorrowedFd<'_>, extension: u32) -> io::Result<bool> {
        self.asked("extension", is_of(container, "/dev/vfio/vfio") && extension == TYPE1V2)
            .map(|s| s.extension)
    }

    fn group_flags(&self, group: BorrowedFd<'_>) -> io::Result<u32> {
        self.asked("status", is_of(group, "/dev/vfio/7")).map(|s| s.viable)
    }

    fn set_container(&self, group: BorrowedFd<'_>, container: BorrowedFd<'_>) -> io::Result<()> {
        self.asked(
            "container",
            is_of(group, "/dev/vfio/7") && is_of(container, "/dev/vfio/vfio"),
        )
        .map(drop)
    }

    fn set_iommu(&self, container: BorrowedFd<'_>, kind: u32) -> io::Result<()> {
        self.asked("iommu", is_of(container, "/dev/vfio/vfio") && kind == TYPE1V2)
            .map(drop)
    }

    fn iommu_info(&self, container: BorrowedFd<'_>, info: &mut [u8]) -> io::Result<()> {
        let state = self.asked("info", is_of(container, "/dev/vfio/vfio"))?;
        let count = state.ranges.len() as u32;
        let mut all = state
            .info
            .clone()
            .unwrap_or_else(|| info_of(&state.ranges, count, CAPABILITY_RANGES, 0, 24));
        let length = state.argsz.unwrap_or(all.len() as u32);
        all[..4].copy_from_slice(&length.to_ne_bytes());
        if info.len() < all.len() {
            all[16..20].fill(0);
        }
        let count = info.len().min(all.len());
        info[..count].copy_from_slice(&all[..count]);
        Ok(())
    }

    // SAFETY: nothing is mapped: what is asked for is noted.
    unsafe fn map(&self, container: BorrowedFd<'_>, map: &DmaMap) -> io::Result<()> {
        let mut state = self.asked("map", is_of(container, "/dev/vfio/vfio"))?;
        self.note_map(&mut state, map);
        Ok(())
    }

    fn device(&self, group: BorrowedFd<'_>, address: &CStr) -> io::Result<OwnedFd> {
        drop(self.asked("device", is_of(group, "/dev/vfio/7") && address.to_str() == Ok(ADDRESS))?);
        self.file.try_clone().map(OwnedFd::from)
    }

    fn bind(&self, device: BorrowedFd<'_>, iommufd: BorrowedFd<'_>) -> io::Result<()> {
        self.asked("bind", is_of(device, "memfd:device") && is_of(iommufd, "/dev/iommu"))
            .map(drop)
    }

    fn new_space(&self, iommufd: BorrowedFd<'_>) -> io::Result<u32> {
        self.asked("space", is_of(iommufd, "/dev/iommu")).map(|_| 5)
    }

    fn attach(&self, device: BorrowedFd<'_>, space: u32) -> io::Result<()> {
        self.asked("attach", is_of(device, "memfd:device") && space == 5)
            .map(drop)
    }

    fn space_ranges(&self, iommufd: BorrowedFd<'_>, space: u32) -> io::Result<Vec<(u64, u64)>> {
        self.asked("ranges", is_of(iommufd, "/dev/iommu") && space == 5)
            .map(|s| s.ranges.clone())
    }

    // SAFETY: as above.
    unsafe fn map_into(&self, iommufd: BorrowedFd<'_>, space: u32, map: &DmaMap) -> io::Result<()> {
        let mut state = self.asked("map into", is_of(iommufd, "/dev/iommu") && space == 5)?;
        self.note_map(&mut state, map);
        Ok(())
    }

    fn device_info(&self, device: BorrowedFd<'_>) -> io::Result<DeviceInfo> {
        let state = self.asked("device info", is_of(device, "memfd:device"))?;
        Ok(DeviceInfo {
            flags: state.device_flags,
            regions: state.regions,
            interrupts: 5,
        })
    }

    fn region_info(&self, device: BorrowedFd<'_>, index: u32) -> io::Result<RegionInfo> {
        let state = self.asked("region", is_of(device, "memfd:device"))?;
        Ok(match index {
            REGION_BAR0 => RegionInfo {
                flags: state.bar_flags,
                size: state.bar_bytes,
                offset: BAR_AT,
            },
            _ => RegionInfo {
                flags: 3,
                size: state.config_bytes,
                offset: CONFIG_AT,
            },
        })
    }

    fn irq_info(&self, device: BorrowedFd<'_>, index: u32) -> io::Result<IrqInfo> {
        let state = self.asked("irq", is_of(device, "memfd:device"))?;
        Ok(IrqInfo {
            flags: IRQ_EVENTFD,
            count: if index == IRQ_MSIX { state.msix } else { 1 },
        })
    }

    fn set_irq(&self, device: BorrowedFd<'_>, index: u32, event: Option<BorrowedFd<'_>>) -> io::Result<()> {
        let mut state = self.asked("set irq", is_of(device, "memfd:device"))?;
        state
            .events
            .push((index, event.map(|event| event.try_clone_to_owned().unwrap())));
        Ok(())
    }

    fn reset(&self, device: BorrowedFd<'_>) -> io::Result<()> {
        self.asked("reset", is_of(device, "memfd:device")).map(drop)
    }

    /// The device's node is its file.
    fn open(&self, path: &Path) -> io::Result<OwnedFd> {
        if path.ends_with("dev/vfio/devices/vfio3") {
            drop(self.asked("node", true)?);
            return self.file.try_clone().map(OwnedFd::from);
        }
        Linux.open(path)
    }
}
