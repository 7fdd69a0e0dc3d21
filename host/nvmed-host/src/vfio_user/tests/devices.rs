//! Tests of devices and of words.

use super::*;

#[test]
fn devices_that_cannot_be() {
    let shared = Arc::new(file());
    let area = |offset, bytes| Area { offset, bytes };
    let of = |bytes, offset, areas: &[Area]| {
        let mapping = Mapping {
            file: Arc::clone(&shared),
            offset,
            areas: areas.to_vec(),
        };
        Device::new(vec![Region::none(), Region::mapped(bytes, mapping)], vec![]).map(|_| ())
    };
    assert_eq!(of(0x4000, 0x1000, &[area(0, 0x1000), area(0x3000, 0x1000)]), Ok(()));
    assert_eq!(of(0x4000, 0, &[]), Ok(()));
    for (bytes, offset, areas) in [
        (0x4000, 0, vec![area(0x3000, 0x2000)]),
        (0x4000, 0, vec![area(0, 0)]),
        (0x4000, 0, vec![area(0, 100)]),
        (0x4000, 0, vec![area(100, 0x1000)]),
        (0x4000, 0, vec![area(u64::MAX - 4095, 0x2000)]),
        (0x4000, 1, vec![area(0, 0x1000)]),
        (0x4000, u64::MAX - 4095, vec![area(0, 0x1000)]),
        (0x4000, 1 << 63, vec![area(0, 0x1000)]),
        (100, 0, vec![]),
        (0x4000, 0, vec![area(0, 0x1000); 65]),
    ] {
        assert_eq!(
            of(bytes, offset, &areas),
            Err(DeviceError::Mapping(1)),
            "{bytes} {offset} {areas:?}"
        );
    }
    let many = Device::new(vec![Region::none(); 65], vec![]);
    assert_eq!(many.map(|_| ()), Err(DeviceError::Count));
    assert_eq!(
        Device::new(vec![], vec![Irq::NONE; 65]).map(|_| ()),
        Err(DeviceError::Count)
    );
    let device = device();
    assert_eq!((device.regions().len(), device.irqs().len()), (9, 5));
}

/// All that can be mapped of a region without areas: the descriptor comes with the first reply.
#[test]
fn a_region_that_is_mapped_whole() {
    let mapping = Mapping {
        file: Arc::new(file()),
        offset: 4096,
        areas: vec![],
    };
    let device = Device::new(vec![Region::mapped(4096, mapping)], vec![]).unwrap();
    let (info, file) = device.region_info(0, 32, true).unwrap();
    assert_eq!(
        (info.flags, info.offset, info.areas.len(), file.is_some()),
        (7, 4096, 0, true)
    );
}

#[test]
fn errors_have_words() {
    for error in [
        Error::Closed,
        Error::Cut,
        Error::Stalled,
        Error::Socket(Errno::EIO),
        FramingError::Size(3).into(),
        FramingError::NoCommand(1).into(),
        FramingError::Descriptors.into(),
        VersionError::Major(7).into(),
        VersionError::Nul.into(),
        VersionError::Json.into(),
        VersionError::Message("x").into(),
        VersionError::Capability("x").into(),
        Error::NoVersion,
        Error::VersionAgain,
        Error::Unread,
        Error::Misanswered,
    ] {
        let words = error.to_string();
        assert!(words.len() > 10 && !words.contains('\n'), "{words}");
    }
    assert_eq!(
        Refusal::invalid("a test").to_string(),
        "a test (EINVAL: Invalid argument)"
    );
    for error in [DeviceError::Count, DeviceError::Mapping(1)] {
        assert!(error.to_string().len() > 10);
    }
    drop(File::from(file()));
    let _ = device().regions()[0]
        .mapping
        .as_ref()
        .map(|mapping| mapping.file.as_fd());
}
