//! The NAK sequence.
use crate::{ffi, Form, Identity, Refusal};

/// What a call of a sequence wrote.
#[derive(Clone, Copy, Debug, PartialEq, Eq)]
pub struct Sent {
    /// How many PDUs.
    pub pdus: usize,
    /// How many octets they have together, from the buffer's front.
    pub octets: usize,
}

/// Whose sequence it is: one reception's, or a transfer's of a pool.
#[derive(Clone, Copy, Debug)]
pub(crate) enum Asker<'r> {
    Reception(ffi::Record),
    Transfer(&'r ffi::Pool, usize),
}

/// The NAK PDUs that ask for all that is missing, a few at a time. It lends the reception or the pool, which cannot change meanwhile.
#[derive(Clone, Debug)]
pub struct NakSequence<'r> {
    asker: Asker<'r>,
    list: &'r [u64],
    identity: Identity,
    form: Form,
    largest: usize,
    cursor: usize,
}

impl<'r> NakSequence<'r> {
    pub(crate) fn of(asker: Asker<'r>, list: &'r [u64], identity: Identity, form: Form, largest: usize) -> Self {
        NakSequence { asker, list, identity, form, largest, cursor: 0 }
    }

    /// Writes the next PDUs back to back, `budget` of them or as many as are left; none where nothing is left. The buffer has at
    /// least `budget` times `largest` octets. Refused: 23 (no such transfer), 13, 15 (the older edition with the large flag), 14, 7, 11,
    /// 20 and 6.
    pub fn write(&mut self, budget: usize, buf: &mut [u8]) -> Result<Sent, Refusal> {
        let answer = match self.asker {
            Asker::Reception(record) => unsafe {
                ffi::pusmarke_nak_sequence(
                    record,
                    self.list.as_ptr(),
                    self.list.len(),
                    self.identity,
                    self.form.marks(),
                    self.largest,
                    self.cursor,
                    budget,
                    buf.as_mut_ptr(),
                    buf.len(),
                )
            },
            Asker::Transfer(pool, transfer) => unsafe {
                ffi::pusmarke_pool_nak_sequence(
                    *pool,
                    self.list.as_ptr(),
                    self.list.len(),
                    transfer,
                    self.identity,
                    self.form.marks(),
                    self.largest,
                    self.cursor,
                    budget,
                    buf.as_mut_ptr(),
                    buf.len(),
                )
            },
        };
        let answer = answer.accepted()?;
        self.cursor = answer.third as usize;
        Ok(Sent { pdus: answer.first as usize, octets: answer.second as usize })
    }

    /// How many entries (the request for metadata, then the ranges) the PDUs so far have asked for.
    pub fn cursor(&self) -> usize {
        self.cursor
    }

    /// The same sequence from another entry on, as from the cursor of an earlier one.
    pub fn at(mut self, cursor: usize) -> Self {
        self.cursor = cursor;
        self
    }
}
