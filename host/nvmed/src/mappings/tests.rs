use super::*;
use vm_memory::{Bytes, GuestAddress};

fn two_machines() -> Mappings {
    let split = [(GuestAddress(0), 0x10000), (GuestAddress(0x10_0000), 0x8000)];
    let first = GuestMemoryMmap::from_ranges(&split).unwrap();
    let second = GuestMemoryMmap::from_ranges(&[(GuestAddress(0), 0x4000)]).unwrap();
    Mappings::new(vec![first, second], 1).unwrap()
}

#[test]
fn regions_lie_where_their_bytes_are() {
    let mappings = two_machines();
    assert_eq!((mappings.guests().len(), mappings.pieces().len()), (2, 4));
    assert_eq!(mappings.regions(2), []);
    let (first, second) = (mappings.regions(0), mappings.regions(1));
    let shape = |r: &Region| (r.address, r.bytes);
    assert_eq!(
        first.iter().map(shape).collect::<Vec<_>>(),
        [(0, 0x10000), (0x10_0000, 0x8000)]
    );
    assert_eq!(second.iter().map(shape).collect::<Vec<_>>(), [(0, 0x4000)]);
    mappings.guests()[0]
        .write_obj(0x1234_5678_u32, GuestAddress(0x10_0010))
        .unwrap();
    let seen: u32 = mappings.slice(first[1].host + 0x10, 4).unwrap().read_obj(0).unwrap();
    assert_eq!(seen, 0x1234_5678);
}

#[test]
fn it_has_the_bytes_of_its_mappings_and_no_others() {
    let mappings = two_machines();
    assert_eq!(mappings.len() % 4096, 0);
    let mut ends = Vec::new();
    for (host, bytes) in mappings.pieces() {
        assert!(host % 4096 == 0 && host + bytes <= mappings.len());
        assert!(mappings.has(host, bytes) && mappings.slice(host, bytes as usize).is_some());
        ends.push(host + bytes);
    }
    assert!(mappings.pieces().contains(&(mappings.area(), AREA_BYTES_PER_LANE)));
    let last = ends.into_iter().max().unwrap();
    assert!(!mappings.has(last - 1, 2) && mappings.slice(last - 1, 2).is_none());
    assert!(!mappings.has(u64::MAX, 2) && !mappings.has(0, u64::MAX));
}

#[test]
fn an_area_that_is_too_large_or_empty_is_an_error() {
    assert!(Mappings::<()>::new(Vec::new(), u32::MAX).is_err());
    assert!(Mappings::<()>::new(Vec::new(), 0).is_err());
}

#[test]
fn a_set_up_has_each_guest_with_its_memory() {
    let mappings = two_machines();
    let set_up = mappings.set_up(77, |guest| vec![Extent::new(10 * guest as u64, 5)]);
    assert_eq!((set_up.host_bytes, set_up.mediator), (mappings.len(), mappings.area()));
    assert_eq!((set_up.disk_blocks, set_up.lanes, set_up.guests.len()), (77, 1, 2));
    for (number, guest) in set_up.guests.iter().enumerate() {
        assert_eq!(guest.regions, mappings.regions(number));
        let extent = Extent {
            base: 10 * number as u64,
            blocks: 5,
        };
        assert_eq!((&guest.extents[..], guest.descriptors), (&[extent][..], 1024));
    }
}
