//! Several transfers over one list.
use crate::{ffi, sequence::Asker, store, Data, Form, Identity, NakSequence, Refusal, Segments, Width};

/// Several receptions, eight at most, that share one list which the caller lends: in a pass the ranges of one sounder's file must not
/// starve another's. Each has a floor and a limit, in ranges.
///
/// The list's capacity, S ranges, serves all. Where a transfer holds m ranges, an event that would make it m + 1 is refused
/// [`Refusal::StoreFull`] exactly if m + 1 is above its limit, or if m is at or above its floor and the sum over all transfers of the
/// larger of ranges held and floor is S. So a transfer below its floor is never refused for room, whatever the others do. Ranges lie
/// back to back, so a slot that one gives up serves any.
///
/// Two sounders in one pass. The first loses much; the second, with a floor of two ranges, always has room for two:
///
/// ```
/// # use pusmarke::{Pool, Refusal, Width};
/// # fn main() -> Result<(), Refusal> {
/// let mut list = [0; 12]; // six ranges
/// let mut pool = Pool::new(&mut list)?;
/// let infrared = pool.add_transfer(Width::Wide, 1, 6)?;
/// let microwave = pool.add_transfer(Width::Wide, 2, 6)?;
/// pool.metadata(infrared)?;
/// pool.metadata(microwave)?;
///
/// // Every second ten octets of the infrared sounder's file are lost: four holes, and no room for a fifth.
/// for offset in [10, 30, 50, 70] {
///     pool.data(infrared, offset, 10)?;
/// }
/// assert_eq!(pool.segments(infrared).collect::<Vec<_>>(), [(0, 10), (20, 30), (40, 50), (60, 70)]);
/// assert_eq!(pool.data(infrared, 90, 10), Err(Refusal::StoreFull));
///
/// // The microwave sounder holds none yet: its two are still there. A third would be above its floor.
/// pool.data(microwave, 10, 10)?;
/// pool.data(microwave, 30, 10)?;
/// assert_eq!(pool.data(microwave, 50, 10), Err(Refusal::StoreFull));
///
/// // A hole of the first is filled, and the slot serves the second.
/// pool.data(infrared, 20, 10)?;
/// pool.data(microwave, 50, 10)?;
/// assert_eq!(pool.segments(microwave).collect::<Vec<_>>(), [(0, 10), (20, 30), (40, 50)]);
/// assert!(pool.held(infrared, 10, 40)? && !pool.held(infrared, 0, 40)?);
/// assert_eq!((pool.missing_octets(infrared), pool.missing_octets(microwave)), (Ok(30), Ok(30)));
/// # Ok(())
/// # }
/// ```
#[derive(Debug)]
pub struct Pool<'a> {
    pool: ffi::Pool,
    list: &'a mut [u64],
}

impl<'a> Pool<'a> {
    /// A pool without transfers. Refused: a list of odd length or of more than 4,096 pairs.
    pub fn new(list: &'a mut [u64]) -> Result<Self, Refusal> {
        store::check(list, 0, Width::Wide)?;
        let pool = unsafe { ffi::pusmarke_pool_fresh() };
        Ok(Pool { pool, list })
    }

    /// Adds a fresh transfer, and says its number: 0 for the first. It can hold `floor` ranges whatever the others do, and holds `limit`
    /// at most. Refused: 23 where there are eight already, the floor is above the limit, or the floors sum to more than the list's
    /// ranges; 10 where the others hold what the floor would need. The pool then stays as it was.
    pub fn add_transfer(&mut self, width: Width, floor: usize, limit: usize) -> Result<usize, Refusal> {
        let transfer = self.pool.used;
        let next = unsafe { ffi::pusmarke_pool_add(self.pool, width.mark(), floor, limit) };
        // The settings are judged by any call: this one changes nothing.
        let answer = unsafe { ffi::pusmarke_pool_missing_octets(next, self.list.as_ptr(), self.list.len(), transfer) };
        answer.accepted()?;
        self.pool = next;
        Ok(transfer)
    }

    /// `length` octets of a transfer's file data came at `offset`. Refused: 23 (no such transfer), 2, 9, 4, 22 (past the known size) and
    /// 1; the octets of a refused event are not filed.
    pub fn data(&mut self, transfer: usize, offset: u64, length: u64) -> Result<Data, Refusal> {
        let answer =
            unsafe { ffi::pusmarke_pool_data(&mut self.pool, self.list.as_mut_ptr(), self.list.len(), transfer, offset, length) };
        Ok(Data::of(answer.accepted()?.first))
    }

    /// A transfer's metadata came. Refused: 23, and 19 where it is known already.
    pub fn metadata(&mut self, transfer: usize) -> Result<(), Refusal> {
        let answer = unsafe { ffi::pusmarke_pool_metadata(&mut self.pool, self.list.as_ptr(), self.list.len(), transfer) };
        answer.accepted().map(|_| ())
    }

    /// A transfer's end of file came: the file has `size` octets. Refused: 23, 4, 22 (below progress, or another size is known) and 1.
    pub fn eof(&mut self, transfer: usize, size: u64) -> Result<(), Refusal> {
        let answer = unsafe { ffi::pusmarke_pool_eof(&mut self.pool, self.list.as_mut_ptr(), self.list.len(), transfer, size) };
        answer.accepted().map(|_| ())
    }

    /// Whether every octet of a transfer's file from `start` up to, not including, `end` was kept. Refused: 23, 2 and 3.
    pub fn held(&self, transfer: usize, start: u64, end: u64) -> Result<bool, Refusal> {
        let answer = unsafe { ffi::pusmarke_pool_held(self.pool, self.list.as_ptr(), self.list.len(), transfer, start, end) };
        Ok(answer.accepted()?.first == 1)
    }

    /// How many octets of a transfer are missing: those of [`Pool::segments`]. Refused: 23.
    pub fn missing_octets(&self, transfer: usize) -> Result<u64, Refusal> {
        let answer = unsafe { ffi::pusmarke_pool_missing_octets(self.pool, self.list.as_ptr(), self.list.len(), transfer) };
        Ok(answer.accepted()?.first)
    }

    /// The NAK PDUs of that form, of at most `largest` octets each, that ask for all that a transfer misses.
    pub fn nak_sequence(&self, transfer: usize, identity: Identity, form: impl Into<Form>, largest: usize) -> NakSequence<'_> {
        NakSequence::of(Asker::Transfer(&self.pool, transfer), self.list, identity, form.into(), largest)
    }

    /// The ranges of a transfer that are missing below its progress, ascending; none where there is no such transfer.
    pub fn segments(&self, transfer: usize) -> Segments<'_> {
        let own = self.record(transfer).and_then(|record| {
            let before: usize = self.pool.records.iter().take(transfer).map(|r| r.count).sum();
            Some((self.list.get(2 * before..)?, record.count))
        });
        match own {
            Some((list, count)) => Segments::of(list, count),
            None => Segments::of(&[], 0),
        }
    }

    /// How many transfers there are: their numbers are those below.
    pub fn transfers(&self) -> usize {
        self.pool.used
    }

    /// The offset behind the furthest octet of a transfer that was noticed or kept; its file's size, once that is known.
    pub fn progress(&self, transfer: usize) -> Option<u64> {
        self.record(transfer).map(|record| record.progress)
    }

    /// The size of a transfer's file, where an end of file has told it.
    pub fn size(&self, transfer: usize) -> Option<u64> {
        self.record(transfer).filter(|record| record.sized != 0).map(|record| record.size)
    }

    /// Whether a transfer's metadata is missing.
    pub fn is_metadata_missing(&self, transfer: usize) -> Option<bool> {
        self.record(transfer).map(|record| record.missing != 0)
    }

    /// The ranges that a transfer can hold whatever the others do, and those that it holds at most.
    pub fn settings(&self, transfer: usize) -> Option<(usize, usize)> {
        self.record(transfer)?;
        Some((*self.pool.floors.get(transfer)?, *self.pool.limits.get(transfer)?))
    }

    fn record(&self, transfer: usize) -> Option<&ffi::Record> {
        self.pool.records.get(..self.pool.used)?.get(transfer)
    }
}
