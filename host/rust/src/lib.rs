//! Safe wrappers around Pusmarke, the proved core of a CFDP receiver (CCSDS 727.0-B-5, and an older edition of it where a link speaks
//! that: [`Edition`]).
//!
//! [`Store`] is the store of lost segments over a list that the caller lends, with the methods of cfdp-rs's `LostSegmentStore`.
//! [`Reception`] keeps such a list by what comes, and says whether a range was kept. [`NakSequence`] writes the NAK PDUs that ask for
//! what is missing, [`write_nak`] writes one, and [`NakReader`] reads one; with a CRC trailer where the [`Form`] says so. [`Timed`] is a
//! reception with a timer that says when to ask: the deferred NAK procedure. [`Pool`] is several receptions over one list, each with a
//! floor that the others cannot take. What does not fit is refused: [`Refusal`] says why, and nothing lent changes.
//!
//! The crate allocates nothing, has no dependency and does not panic. The work is done by `libpusmarke_c.a`, whose functions are
//! proved; the wrappers here are not.
#![no_std]
#![deny(missing_docs)]

mod deferred;
mod ffi;
mod nak;
mod pool;
mod reception;
mod refusal;
mod sequence;
mod store;

pub use deferred::{Activity, Deferred, Tick, Timed};
pub use ffi::Identity;
pub use nak::{write_nak, Edition, FileFlag, Form, NakReader};
pub use pool::Pool;
pub use reception::{Data, Reception};
pub use refusal::Refusal;
pub use sequence::{NakSequence, Sent};
pub use store::{Removed, Segments, Store, Width};
