//! The reception of one file.
use crate::{ffi, sequence::Asker, store, Deferred, Edition, Form, Identity, NakSequence, Refusal, Segments, Timed, Width};

/// What became of the data of an accepted event.
#[derive(Clone, Copy, Debug, PartialEq, Eq)]
pub enum Data {
    /// Metadata is missing: the range was noticed, and the octets cannot be filed yet.
    Noticed,
    /// The octets are to be filed.
    Kept,
}

impl Data {
    /// What the value of an accepted event stands for.
    pub(crate) fn of(first: u64) -> Data {
        if first == 0 {
            Data::Noticed
        } else {
            Data::Kept
        }
    }
}

/// The reception of one file: how far it has come, and what is missing below that, in a list that the caller lends.
#[derive(Debug)]
pub struct Reception<'a> {
    pub(crate) record: ffi::Record,
    pub(crate) list: &'a mut [u64],
    width: Width,
}

impl<'a> Reception<'a> {
    /// A fresh reception: nothing has come, metadata is missing, the size is not known. Refused: a list of odd length or of more than
    /// 4,096 pairs.
    pub fn new(list: &'a mut [u64], width: Width) -> Result<Self, Refusal> {
        store::check(list, 0, width)?;
        let record = unsafe { ffi::pusmarke_fresh(width.mark()) };
        Ok(Reception { record, list, width })
    }

    /// `length` octets of file data came at `offset`. Refused: 2, 9, 4, 22 (past the known size) and 1; the octets of a refused event
    /// are not filed.
    pub fn data(&mut self, offset: u64, length: u64) -> Result<Data, Refusal> {
        let answer = unsafe { ffi::pusmarke_data(&mut self.record, self.list.as_mut_ptr(), self.list.len(), offset, length) };
        Ok(Data::of(answer.accepted()?.first))
    }

    /// Metadata came. Refused: 19, where it is known already.
    pub fn metadata(&mut self) -> Result<(), Refusal> {
        let answer = unsafe { ffi::pusmarke_metadata(&mut self.record, self.list.as_ptr(), self.list.len()) };
        answer.accepted().map(|_| ())
    }

    /// The end of file came: the file has `size` octets, and what lies between progress and that is missing too. The same size again
    /// changes nothing. Refused: 4, 22 (below progress, or another size is known) and 1.
    pub fn eof(&mut self, size: u64) -> Result<(), Refusal> {
        let answer = unsafe { ffi::pusmarke_eof(&mut self.record, self.list.as_mut_ptr(), self.list.len(), size) };
        answer.accepted().map(|_| ())
    }

    /// The offset behind the furthest octet that was noticed or kept; the file's size, once that is known.
    pub fn progress(&self) -> u64 {
        self.record.progress
    }

    /// The file's size, where an end of file has told it.
    pub fn size(&self) -> Option<u64> {
        (self.record.sized != 0).then_some(self.record.size)
    }

    /// Whether metadata is missing.
    pub fn is_metadata_missing(&self) -> bool {
        self.record.missing != 0
    }

    /// Which numbers the list holds.
    pub fn width(&self) -> Width {
        self.width
    }

    /// The ranges that are missing below progress, ascending.
    pub fn segments(&self) -> Segments<'_> {
        Segments::of(self.list, self.record.count)
    }

    /// Whether every octet from `start` up to, not including, `end` was kept. While metadata is missing nothing was, and nothing past
    /// progress was. Refused: 2 and 3.
    ///
    /// ```
    /// # use pusmarke::{Reception, Refusal, Width};
    /// # fn main() -> Result<(), Refusal> {
    /// let mut list = [0; 16];
    /// let mut reception = Reception::new(&mut list, Width::Wide)?;
    /// reception.data(0, 100)?; // noticed: metadata is missing
    /// assert!(!reception.held(0, 100)?);
    /// reception.metadata()?;
    /// reception.data(0, 100)?;
    /// reception.data(150, 50)?;
    /// // Both ends of 50–200 were kept, and 100–150 was not.
    /// assert!(reception.held(50, 100)? && reception.held(150, 200)?);
    /// assert!(!reception.held(50, 200)?);
    /// reception.data(100, 50)?;
    /// assert!(reception.held(0, 200)? && !reception.held(0, 201)?);
    /// assert_eq!(reception.held(7, 5), Err(Refusal::StartLargerThanEnd(7, 5)));
    /// # Ok(())
    /// # }
    /// ```
    pub fn held(&self, start: u64, end: u64) -> Result<bool, Refusal> {
        let answer = unsafe { ffi::pusmarke_held(self.record, self.list.as_ptr(), self.list.len(), start, end) };
        Ok(answer.accepted()?.first == 1)
    }

    /// How many octets are missing: those of [`Reception::segments`], all below progress. Before the end of file a lost tail is not
    /// among them. A reception refuses it never.
    ///
    /// ```
    /// # use pusmarke::{Reception, Refusal, Width};
    /// # fn main() -> Result<(), Refusal> {
    /// let mut list = [0; 16];
    /// let mut reception = Reception::new(&mut list, Width::Wide)?;
    /// reception.metadata()?;
    /// reception.data(20, 80)?;
    /// assert_eq!(reception.missing_octets(), Ok(20));
    /// reception.eof(400)?;
    /// assert_eq!(reception.missing_octets(), Ok(320));
    /// # Ok(())
    /// # }
    /// ```
    pub fn missing_octets(&self) -> Result<u64, Refusal> {
        let answer = unsafe { ffi::pusmarke_missing_octets(self.record, self.list.as_ptr(), self.list.len()) };
        Ok(answer.accepted()?.first)
    }

    /// Whether PDUs that mission planning proposes are those to send: back to back in `octets`, `lengths` the octets of each, of the link's
    /// edition. `scratch` is lent to sort in, two numbers for each eight octets or more; those are 0 afterwards.
    ///
    /// # Errors
    ///
    /// 13, 20 (more than 16 PDUs), 6 (the lengths do not sum to the octets, or the scratch is too short), and
    /// [`Refusal::BadPlan`] with the first test that fails and the PDU at fault.
    ///
    /// ```
    /// # use pusmarke::{Edition, Identity, Reception, Refusal, Width};
    /// # fn main() -> Result<(), Refusal> {
    /// let identity = Identity { entity_length: 1, number_length: 1, source: 1, number: 7, destination: 2 };
    /// let (mut list, mut scratch) = ([0; 16], [0; 16]);
    /// let mut reception = Reception::new(&mut list, Width::Wide)?;
    /// reception.metadata()?;
    /// reception.data(20, 80)?;
    /// let mut octets = [0; 24];
    /// pusmarke::write_nak(identity, Edition::Newer, (0, 100), &[0, 20], &mut octets)?;
    /// reception.check_plan(identity, Edition::Newer, &[24], &octets, &mut scratch)?;
    /// // Octet 19 is not asked for: no PDU is at fault, and 1 is the number of PDUs.
    /// pusmarke::write_nak(identity, Edition::Newer, (0, 100), &[0, 19], &mut octets)?;
    /// let refused = reception.check_plan(identity, Edition::Newer, &[24], &octets, &mut scratch);
    /// assert_eq!(refused, Err(Refusal::BadPlan { test: 5, pdu: 1 }));
    /// # Ok(())
    /// # }
    /// ```
    pub fn check_plan(
        &self,
        identity: Identity,
        edition: Edition,
        lengths: &[u16],
        octets: &[u8],
        scratch: &mut [u64],
    ) -> Result<(), Refusal> {
        let answer = unsafe {
            ffi::pusmarke_check_plan(
                self.record,
                self.list.as_ptr(),
                self.list.len(),
                identity,
                edition.mark(),
                lengths.as_ptr(),
                lengths.len(),
                octets.as_ptr(),
                octets.len(),
                scratch.as_mut_ptr(),
                scratch.len(),
            )
        };
        answer.accepted().map(|_| ())
    }

    /// The same reception with a timer that hears of each event: the deferred NAK procedure.
    pub fn with_timer(self, timer: Deferred) -> Timed<'a> {
        Timed::new(self, timer)
    }

    /// The NAK PDUs of that form, of at most `largest` octets each, that ask for all that is missing.
    pub fn nak_sequence(&self, identity: Identity, form: impl Into<Form>, largest: usize) -> NakSequence<'_> {
        NakSequence::of(Asker::Reception(self.record), self.list, identity, form.into(), largest)
    }
}
