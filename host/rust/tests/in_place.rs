//! Putting the store in the place of cfdp-rs's own. The trait and its types are copied here so that the test needs no dependency; in a
//! receiver they come from `cfdp::lost_segments` and `spacepackets::cfdp`, and the `impl` is the same.
use pusmarke::{FileFlag, Refusal, Removed, Segments, Store, Width};

// From here: as cfdp-rs 0.3.0 has it.

#[derive(Debug, PartialEq, Eq)]
pub enum LostSegmentError {
    StoreFull,
    EmptySegment,
    StartLargerThanEnd(u64, u64),
    LargeFileSegmentNotSupported,
    InvalidSegmentBoundary(u64, u64),
}

#[derive(Debug, PartialEq, Eq)]
pub enum LostSegmentWriteError {
    NumberOfSegmentsMismatch { expected: usize, actual: usize },
    BufferSizeMissmatch { expected: usize, actual: usize },
    LargeSegmentForNormalFileSize,
}

#[derive(Debug, PartialEq, Eq, Copy, Clone)]
pub enum LargeFileFlag {
    Normal = 0,
    Large = 1,
}

pub trait LostSegmentStore {
    type Iter<'a>: Iterator<Item = (u64, u64)> + 'a
    where
        Self: 'a;

    fn iter(&self) -> Self::Iter<'_>;
    fn number_of_segments(&self) -> usize;
    fn supports_large_file_size(&self) -> bool;
    fn capacity(&self) -> Option<usize>;
    fn reset(&mut self);
    fn segment_in_store(&self, segment: (u64, u64)) -> bool;
    fn add_lost_segment(&mut self, lost_seg: (u64, u64)) -> Result<(), LostSegmentError>;
    fn remove_lost_segment(&mut self, segment_to_remove: (u64, u64)) -> Result<bool, LostSegmentError>;
    fn coalesce_lost_segments(&mut self) -> Result<(), LostSegmentError>;
    fn is_empty(&self) -> bool {
        self.number_of_segments() == 0
    }
    fn write_segments_to_bytes(&self, buf: &mut [u8], file_flag: LargeFileFlag) -> Result<usize, LostSegmentWriteError>;
}

// From here: what a receiver writes.

/// The trait is cfdp-rs's and the store is Pusmarke's, so the `impl` is for a type of the receiver.
struct Lost<'a>(Store<'a>);

fn error(refusal: Refusal) -> LostSegmentError {
    match refusal {
        Refusal::EmptySegment => LostSegmentError::EmptySegment,
        Refusal::StartLargerThanEnd(start, end) => LostSegmentError::StartLargerThanEnd(start, end),
        Refusal::LargeFileSegmentNotSupported => LostSegmentError::LargeFileSegmentNotSupported,
        Refusal::InvalidSegmentBoundary(start, end) => LostSegmentError::InvalidSegmentBoundary(start, end),
        // StoreFull: no other refusal reaches this.
        _ => LostSegmentError::StoreFull,
    }
}

impl LostSegmentStore for Lost<'_> {
    type Iter<'a>
        = Segments<'a>
    where
        Self: 'a;

    fn iter(&self) -> Segments<'_> {
        self.0.iter()
    }
    fn number_of_segments(&self) -> usize {
        self.0.number_of_segments()
    }
    fn supports_large_file_size(&self) -> bool {
        self.0.supports_large_file_size()
    }
    fn capacity(&self) -> Option<usize> {
        self.0.capacity()
    }
    fn reset(&mut self) {
        self.0.reset()
    }
    fn segment_in_store(&self, segment: (u64, u64)) -> bool {
        self.0.segment_in_store(segment)
    }
    fn add_lost_segment(&mut self, lost_seg: (u64, u64)) -> Result<(), LostSegmentError> {
        self.0.add_lost_segment(lost_seg).map_err(error)
    }
    fn remove_lost_segment(&mut self, segment_to_remove: (u64, u64)) -> Result<bool, LostSegmentError> {
        let mut answer = self.0.remove_lost_segment(segment_to_remove);
        // cfdp-rs adds ranges without coalescing them, and Pusmarke removes from a coalesced list alone.
        if answer == Err(Refusal::NotCoalesced) {
            self.coalesce_lost_segments()?;
            answer = self.0.remove_lost_segment(segment_to_remove);
        }
        answer.map(Removed::is_some).map_err(error)
    }
    fn coalesce_lost_segments(&mut self) -> Result<(), LostSegmentError> {
        self.0.coalesce_lost_segments().map_err(error)
    }
    fn write_segments_to_bytes(&self, buf: &mut [u8], file_flag: LargeFileFlag) -> Result<usize, LostSegmentWriteError> {
        let flag = if file_flag == LargeFileFlag::Large { FileFlag::Large } else { FileFlag::Normal };
        self.0.write_segments_to_bytes(buf, flag).map_err(|refusal| match refusal {
            Refusal::BufferSizeMissmatch { expected, actual } => LostSegmentWriteError::BufferSizeMissmatch { expected, actual },
            _ => LostSegmentWriteError::LargeSegmentForNormalFileSize,
        })
    }
}

// And a receiver that knows the trait alone.

fn receive<S: LostSegmentStore>(store: &mut S) {
    store.add_lost_segment((10, 15)).unwrap();
    store.add_lost_segment((30, 40)).unwrap();
    store.add_lost_segment((15, 20)).unwrap();
    assert_eq!(store.add_lost_segment((7, 7)), Err(LostSegmentError::EmptySegment));
    assert_eq!(store.remove_lost_segment((12, 18)), Ok(true));
    assert_eq!(store.remove_lost_segment((12, 18)), Ok(false));
    assert_eq!(store.remove_lost_segment((5, 11)), Err(LostSegmentError::InvalidSegmentBoundary(5, 11)));
    assert_eq!(store.iter().collect::<Vec<_>>(), [(10, 12), (18, 20), (30, 40)]);
    assert_eq!((store.number_of_segments(), store.capacity(), store.is_empty()), (3, Some(4), false));
    assert!(store.segment_in_store((10, 11)) && store.supports_large_file_size());
    let mut buf = [0; 24];
    assert_eq!(store.write_segments_to_bytes(&mut buf, LargeFileFlag::Normal), Ok(24));
    assert_eq!(buf[8..16], [0, 0, 0, 18, 0, 0, 0, 20]);
    assert_eq!(
        store.write_segments_to_bytes(&mut buf, LargeFileFlag::Large),
        Err(LostSegmentWriteError::BufferSizeMissmatch { expected: 48, actual: 24 })
    );
    store.reset();
    assert!(store.is_empty());
}

#[test]
fn in_place() {
    let mut list = [0; 8];
    receive(&mut Lost(Store::new(&mut list, Width::Wide).unwrap()));
}
