//! The store: document 01's examples, and what each refusal carries.
use pusmarke::{FileFlag, Refusal, Removed, Store, Width};

/// A range to remove, the capacity, the answer, and what is left.
type Case<'a> = ((u64, u64), usize, Result<Removed, Refusal>, &'a [(u64, u64)]);

fn ranges(store: &Store) -> Vec<(u64, u64)> {
    store.iter().collect()
}

#[test]
fn removes() {
    let cases: [Case; 10] = [
        ((10, 20), 2, Ok(Removed::Whole { index: 0, count: 1 }), &[(30, 40)]),
        ((10, 15), 2, Ok(Removed::Left { index: 0, count: 2 }), &[(15, 20), (30, 40)]),
        ((12, 18), 2, Err(Refusal::StoreFull), &[(10, 20), (30, 40)]),
        ((12, 18), 3, Ok(Removed::Split { index: 0, count: 3 }), &[(10, 12), (18, 20), (30, 40)]),
        ((20, 30), 2, Ok(Removed::None { count: 2 }), &[(10, 20), (30, 40)]),
        ((30, 40), 2, Ok(Removed::Whole { index: 1, count: 1 }), &[(10, 20)]),
        ((31, 40), 2, Ok(Removed::Right { index: 1, count: 2 }), &[(10, 20), (30, 31)]),
        ((31, 39), 3, Ok(Removed::Split { index: 1, count: 3 }), &[(10, 20), (30, 31), (39, 40)]),
        ((5, 25), 2, Err(Refusal::InvalidSegmentBoundary(5, 25)), &[(10, 20), (30, 40)]),
        ((18, 12), 2, Err(Refusal::StartLargerThanEnd(18, 12)), &[(10, 20), (30, 40)]),
    ];
    for (range, capacity, answer, left) in cases {
        let mut list = [10, 20, 30, 40, 0, 0];
        let mut store = Store::with_segments(&mut list[..2 * capacity], 2, Width::Wide).unwrap();
        assert_eq!(store.remove_lost_segment(range), answer);
        assert_eq!((ranges(&store).as_slice(), store.number_of_segments()), (left, left.len()));
    }
}

#[test]
fn inserts() {
    let store_full = Err(Refusal::StoreFull);
    let cases: [(_, usize, Result<(), Refusal>, &[(u64, u64)]); 14] = [
        ((20, 30), 2, Ok(()), &[(10, 40)]),
        ((20, 25), 2, Ok(()), &[(10, 25), (30, 40)]),
        ((25, 30), 2, Ok(()), &[(10, 20), (25, 40)]),
        ((12, 18), 2, Ok(()), &[(10, 20), (30, 40)]),
        ((5, 25), 2, Ok(()), &[(5, 25), (30, 40)]),
        ((0, 50), 2, Ok(()), &[(0, 50)]),
        ((0, 5), 2, store_full, &[(10, 20), (30, 40)]),
        ((21, 29), 2, store_full, &[(10, 20), (30, 40)]),
        ((50, 60), 2, store_full, &[(10, 20), (30, 40)]),
        ((0, 5), 3, Ok(()), &[(0, 5), (10, 20), (30, 40)]),
        ((21, 29), 3, Ok(()), &[(10, 20), (21, 29), (30, 40)]),
        ((50, 60), 3, Ok(()), &[(10, 20), (30, 40), (50, 60)]),
        ((12, 12), 2, Err(Refusal::EmptySegment), &[(10, 20), (30, 40)]),
        ((18, 12), 2, Err(Refusal::StartLargerThanEnd(18, 12)), &[(10, 20), (30, 40)]),
    ];
    for (range, capacity, answer, left) in cases {
        let mut list = [10, 20, 30, 40, 0, 0];
        let mut store = Store::with_segments(&mut list[..2 * capacity], 2, Width::Wide).unwrap();
        assert_eq!(store.insert_lost_segment(range), answer, "{range:?}");
        assert_eq!((ranges(&store).as_slice(), store.number_of_segments()), (left, left.len()));
    }
}

#[test]
fn inserts_only_into_coalesced_lists() {
    let mut list = [10, 20, 20, 30, 0, 0];
    let mut store = Store::with_segments(&mut list, 2, Width::Narrow).unwrap();
    assert_eq!(store.insert_lost_segment((40, 4294967296)), Err(Refusal::LargeFileSegmentNotSupported));
    assert_eq!(store.insert_lost_segment((40, 50)), Err(Refusal::NotCoalesced));
    store.coalesce_lost_segments().unwrap();
    // From here on ranges are only inserted and removed, and none of it is refused with 8.
    for range in [(40, 50), (60, 70), (50, 60), (0, 4294967295)] {
        assert_eq!(store.insert_lost_segment(range), Ok(()));
    }
    assert_eq!(store.remove_lost_segment((10, 20)), Ok(Removed::Split { index: 0, count: 2 }));
    assert_eq!(store.insert_lost_segment((10, 20)), Ok(()));
    assert_eq!(ranges(&store), [(0, 4294967295)]);
}

#[test]
fn adds_and_coalesces() {
    let mut list = [0; 8];
    let mut store = Store::new(&mut list, Width::Narrow).unwrap();
    for range in [(30, 40), (10, 20), (20, 30), (12, 13)] {
        store.add_lost_segment(range).unwrap();
    }
    assert_eq!(store.add_lost_segment((50, 60)), Err(Refusal::StoreFull));
    assert_eq!(store.add_lost_segment((4294967296, 4294967296)), Err(Refusal::EmptySegment));
    assert_eq!(store.remove_lost_segment((4294967296, 4294967296)), Err(Refusal::LargeFileSegmentNotSupported));
    assert_eq!(store.remove_lost_segment((12, 13)), Err(Refusal::NotCoalesced));
    store.coalesce_lost_segments().unwrap();
    assert_eq!(ranges(&store), [(10, 40)]);
    assert!(store.segment_in_store((10, 40)) && !store.segment_in_store((9, 10)));
    assert_eq!((store.capacity(), store.number_of_segments(), store.is_empty()), (Some(4), 1, false));
    assert!(!store.supports_large_file_size());
    store.reset();
    assert!(store.is_empty() && store.iter().len() == 0);
    assert_eq!(list, [0; 8]);
}

#[test]
fn writes_segments() {
    let mut list = [10, 20, 30, 4294967296];
    let store = Store::with_segments(&mut list, 2, Width::Wide).unwrap();
    let mut buf = [0; 32];
    assert_eq!(store.write_segments_to_bytes(&mut buf[..16], FileFlag::Normal), Err(Refusal::LargeSegmentForNormalFileSize));
    assert_eq!(
        store.write_segments_to_bytes(&mut buf[..31], FileFlag::Large),
        Err(Refusal::BufferSizeMissmatch { expected: 32, actual: 31 })
    );
    assert_eq!(store.write_segments_to_bytes(&mut buf, FileFlag::Large), Ok(32));
    assert_eq!(buf[24..], [0, 0, 0, 1, 0, 0, 0, 0]);
}

#[test]
fn refuses_lists() {
    assert_eq!(Store::new(&mut [0; 3], Width::Wide).unwrap_err(), Refusal::BadStore);
    assert_eq!(Store::new(&mut [0; 8194], Width::Wide).unwrap_err(), Refusal::BadStore);
    assert_eq!(Store::with_segments(&mut [0; 4], usize::MAX, Width::Wide).unwrap_err(), Refusal::BadStore);
    assert_eq!(Store::with_segments(&mut [0, 4294967296], 1, Width::Narrow).unwrap_err(), Refusal::BadStore);
    let mut none = Store::new(&mut [], Width::Wide).unwrap();
    assert_eq!(none.add_lost_segment((1, 2)), Err(Refusal::StoreFull));
    assert_eq!(none.insert_lost_segment((1, 2)), Err(Refusal::StoreFull));
    assert_eq!(none.write_segments_to_bytes(&mut [], FileFlag::Normal), Ok(0));
}

#[test]
fn says_why() {
    let refusal = Refusal::StartLargerThanEnd(18, 12);
    let error: &dyn std::error::Error = &refusal;
    assert_eq!(error.to_string(), "segment start 18 is larger than segment end 12");
    assert_eq!(refusal.number(), 3);
}
