//! The store of lost segments.
use core::slice::ChunksExact;

use crate::{ffi, FileFlag, Refusal};

/// Which numbers a store holds.
#[derive(Clone, Copy, Debug, PartialEq, Eq)]
pub enum Width {
    /// Any 64-bit number.
    Wide,
    /// Numbers up to 4,294,967,295.
    Narrow,
}

impl Width {
    pub(crate) fn mark(self) -> u64 {
        match self {
            Width::Wide => 0,
            Width::Narrow => 1,
        }
    }
}

/// Refuses a list that is no store of so many counted pairs.
pub(crate) fn check(list: &[u64], count: usize, width: Width) -> Result<(), Refusal> {
    let answer = unsafe { ffi::pusmarke_segment_in_store(list.as_ptr(), list.len(), count, width.mark(), 0, 0) };
    answer.accepted().map(|_| ())
}

/// The ranges of a list, (start, end), in order.
#[derive(Clone, Debug)]
pub struct Segments<'a>(ChunksExact<'a, u64>);

impl<'a> Segments<'a> {
    pub(crate) fn of(list: &'a [u64], count: usize) -> Self {
        Segments(list.get(..count.saturating_mul(2)).unwrap_or(&[]).chunks_exact(2))
    }
}

impl Iterator for Segments<'_> {
    type Item = (u64, u64);

    fn next(&mut self) -> Option<(u64, u64)> {
        match self.0.next() {
            Some([start, end]) => Some((*start, *end)),
            _ => None,
        }
    }

    fn size_hint(&self) -> (usize, Option<usize>) {
        self.0.size_hint()
    }
}

impl ExactSizeIterator for Segments<'_> {}

/// What a removal did. A part is the one that leaves; `index` is the range's place, from 0, in the list before, and `count` how many
/// ranges are stored afterwards.
#[derive(Clone, Copy, Debug, PartialEq, Eq)]
pub enum Removed {
    /// No stored range had any of the offsets, and nothing changed.
    None {
        /// How many ranges are stored.
        count: usize,
    },
    /// The whole range left.
    Whole {
        /// The range's place in the list before.
        index: usize,
        /// How many ranges are stored afterwards.
        count: usize,
    },
    /// The left part of the range left, from its start on.
    Left {
        /// The range's place in the list before.
        index: usize,
        /// How many ranges are stored afterwards.
        count: usize,
    },
    /// The right part of the range left, up to its end.
    Right {
        /// The range's place in the list before.
        index: usize,
        /// How many ranges are stored afterwards.
        count: usize,
    },
    /// A part in the middle left: the range became two.
    Split {
        /// The range's place in the list before.
        index: usize,
        /// How many ranges are stored afterwards.
        count: usize,
    },
}

impl Removed {
    /// What a number of the header's `enum pusmarke_removed` stands for, with the index and the count. Refused: another number.
    pub fn of(what: u64, index: usize, count: usize) -> Result<Removed, Refusal> {
        match what {
            0 => Ok(Removed::None { count }),
            1 => Ok(Removed::Whole { index, count }),
            2 => Ok(Removed::Left { index, count }),
            3 => Ok(Removed::Right { index, count }),
            4 => Ok(Removed::Split { index, count }),
            other => Err(Refusal::Unknown(other)),
        }
    }

    /// Whether offsets left: what cfdp-rs's `remove_lost_segment` answers.
    pub fn is_some(self) -> bool {
        !matches!(self, Removed::None { .. })
    }
}

/// A store of lost segments over a flat list of pairs that the caller lends: start and end by turns. The methods are those of
/// cfdp-rs's `LostSegmentStore`, of which removing says more than whether it did, and one more, `insert_lost_segment`, which adds and
/// coalesces in one.
#[derive(Debug)]
pub struct Store<'a> {
    list: &'a mut [u64],
    count: usize,
    width: Width,
}

impl<'a> Store<'a> {
    /// An empty store with room for half as many ranges as the list has numbers. Refused: a list of odd length or of more than
    /// 4,096 pairs.
    pub fn new(list: &'a mut [u64], width: Width) -> Result<Self, Refusal> {
        Store::with_segments(list, 0, width)
    }

    /// The store of the first `count` pairs of a list. Refused also: more pairs than the list has, or a narrow store with a number
    /// above 4,294,967,295.
    pub fn with_segments(list: &'a mut [u64], count: usize, width: Width) -> Result<Self, Refusal> {
        check(list, count, width)?;
        Ok(Store { list, count, width })
    }

    /// The stored ranges in order.
    pub fn iter(&self) -> Segments<'_> {
        Segments::of(self.list, self.count)
    }

    /// How many ranges are stored.
    pub fn number_of_segments(&self) -> usize {
        self.count
    }

    /// Whether no range is stored.
    pub fn is_empty(&self) -> bool {
        self.count == 0
    }

    /// Whether the store takes numbers above 4,294,967,295.
    pub fn supports_large_file_size(&self) -> bool {
        self.width == Width::Wide
    }

    /// How many ranges there is room for.
    pub fn capacity(&self) -> Option<usize> {
        Some(self.list.len() / 2)
    }

    /// Empties the store. Its slots hold (0, 0) then.
    pub fn reset(&mut self) {
        if let Some(counted) = self.list.get_mut(..self.count.saturating_mul(2)) {
            counted.fill(0);
        }
        self.count = 0;
    }

    /// Whether a range lies inside a stored one.
    pub fn segment_in_store(&self, segment: (u64, u64)) -> bool {
        let answer = unsafe {
            ffi::pusmarke_segment_in_store(self.list.as_ptr(), self.list.len(), self.count, self.width.mark(), segment.0, segment.1)
        };
        // A store that `with_segments` accepted is refused by no call, so there is only yes and no.
        answer.refusal == 0 && answer.first == 1
    }

    /// Adds a range behind the stored ones, without looking for overlap. Refused: 2, 3, 4 and 1.
    pub fn add_lost_segment(&mut self, lost_seg: (u64, u64)) -> Result<(), Refusal> {
        let answer = unsafe {
            ffi::pusmarke_add(self.list.as_mut_ptr(), self.list.len(), self.count, self.width.mark(), lost_seg.0, lost_seg.1)
        };
        self.count = answer.accepted()?.first as usize;
        Ok(())
    }

    /// Takes the offsets of a range out of a coalesced list; says which part of which stored range left. Refused: 4, 2, 3, 8, 5
    /// and 1.
    pub fn remove_lost_segment(&mut self, segment_to_remove: (u64, u64)) -> Result<Removed, Refusal> {
        let (start, end) = segment_to_remove;
        let answer =
            unsafe { ffi::pusmarke_remove(self.list.as_mut_ptr(), self.list.len(), self.count, self.width.mark(), start, end) };
        let answer = answer.accepted()?;
        self.count = answer.third as usize;
        Removed::of(answer.first, answer.second as usize, self.count)
    }

    /// Leaves the maximal runs of the stored ranges, ascending; a range with its end at most its start is dropped. Never refused.
    pub fn coalesce_lost_segments(&mut self) -> Result<(), Refusal> {
        let answer = unsafe { ffi::pusmarke_coalesce(self.list.as_mut_ptr(), self.list.len(), self.count, self.width.mark()) };
        self.count = answer.accepted()?.first as usize;
        Ok(())
    }

    /// Puts a range into a coalesced list, which stays coalesced: ranges that it overlaps or touches become one with it. So a full
    /// store takes a range that joins, and a store that ranges are only inserted into and removed from never refuses with 8.
    /// Refused: 2, 3, 4, 8 and 1.
    pub fn insert_lost_segment(&mut self, lost_seg: (u64, u64)) -> Result<(), Refusal> {
        let answer = unsafe {
            ffi::pusmarke_insert(self.list.as_mut_ptr(), self.list.len(), self.count, self.width.mark(), lost_seg.0, lost_seg.1)
        };
        self.count = answer.accepted()?.first as usize;
        Ok(())
    }

    /// Writes the stored ranges as the segment requests of a NAK PDU, and says how many octets these are. Refused: 6 and 7.
    pub fn write_segments_to_bytes(&self, buf: &mut [u8], file_flag: FileFlag) -> Result<usize, Refusal> {
        let answer = unsafe {
            ffi::pusmarke_write_segments_to_bytes(
                self.list.as_ptr(),
                self.list.len(),
                self.count,
                self.width.mark(),
                file_flag.mark(),
                buf.as_mut_ptr(),
                buf.len(),
            )
        };
        Ok(answer.accepted()?.first as usize)
    }
}
