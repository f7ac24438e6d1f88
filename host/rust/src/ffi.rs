//! The functions of host/include/pusmarke.h. `tests/header.rs` compares the two files.
//!
//! Safety of every call: a function asks only that a pointer and the length behind it are a slice's, that what is lent for writing is
//! lent to nobody else, and that a record's or a pool's pointer is valid. References and slices of Rust give all of that.

#[repr(C)]
pub(crate) struct Answer {
    pub refusal: u64,
    pub first: u64,
    pub second: u64,
    pub third: u64,
}

#[repr(C)]
#[derive(Clone, Copy, Debug)]
pub(crate) struct Record {
    pub progress: u64,
    pub count: usize,
    pub narrow: u64,
    pub missing: u64,
    pub sized: u64,
    pub size: u64,
}

#[repr(C)]
#[derive(Clone, Copy, Debug, PartialEq, Eq)]
pub(crate) struct Timer {
    pub period: u64,
    pub limit: u64,
    pub activity: u64,
    pub left: u64,
    pub counter: u64,
}

#[repr(C)]
pub(crate) struct Heard {
    pub answer: Answer,
    pub timer: Timer,
}

#[repr(C)]
#[derive(Clone, Copy, Debug)]
pub(crate) struct Pool {
    pub used: usize,
    pub records: [Record; 8],
    pub floors: [usize; 8],
    pub limits: [usize; 8],
}

/// Whose transaction a NAK PDU is about.
#[repr(C)]
#[derive(Clone, Copy, Debug, PartialEq, Eq)]
pub struct Identity {
    /// The octets of an entity identifier, 1 to 8.
    pub entity_length: usize,
    /// The octets of the sequence number, 1 to 8.
    pub number_length: usize,
    /// The source entity.
    pub source: u64,
    /// The transaction's sequence number.
    pub number: u64,
    /// The destination entity.
    pub destination: u64,
}

#[repr(C)]
#[derive(Clone, Copy, Debug)]
pub(crate) struct Form {
    pub older: u64,
    pub large: u64,
    pub crc: u64,
}

#[repr(C)]
#[derive(Clone, Copy, Debug)]
pub(crate) struct Nak {
    pub refusal: u64,
    pub start: u64,
    pub end: u64,
    pub identity: Identity,
    pub large: u64,
    pub crc: u64,
    pub scope_start: u64,
    pub scope_end: u64,
    pub from: usize,
    pub to: usize,
    pub next: usize,
}

#[repr(C)]
pub(crate) struct Step {
    pub found: u64,
    pub start: u64,
    pub end: u64,
    pub at: usize,
}

extern "C" {
    pub(crate) fn pusmarke_add(list: *mut u64, list_length: usize, count: usize, narrow: u64, start: u64, end: u64) -> Answer;
    pub(crate) fn pusmarke_remove(list: *mut u64, list_length: usize, count: usize, narrow: u64, start: u64, end: u64) -> Answer;
    pub(crate) fn pusmarke_coalesce(list: *mut u64, list_length: usize, count: usize, narrow: u64) -> Answer;
    pub(crate) fn pusmarke_insert(list: *mut u64, list_length: usize, count: usize, narrow: u64, start: u64, end: u64) -> Answer;
    pub(crate) fn pusmarke_segment_in_store(
        list: *const u64,
        list_length: usize,
        count: usize,
        narrow: u64,
        start: u64,
        end: u64,
    ) -> Answer;
    pub(crate) fn pusmarke_write_segments_to_bytes(
        list: *const u64,
        list_length: usize,
        count: usize,
        narrow: u64,
        large: u64,
        buffer: *mut u8,
        buffer_length: usize,
    ) -> Answer;
    pub(crate) fn pusmarke_fresh(narrow: u64) -> Record;
    pub(crate) fn pusmarke_data(record: *mut Record, list: *mut u64, list_length: usize, offset: u64, length: u64) -> Answer;
    pub(crate) fn pusmarke_metadata(record: *mut Record, list: *const u64, list_length: usize) -> Answer;
    pub(crate) fn pusmarke_eof(record: *mut Record, list: *mut u64, list_length: usize, size: u64) -> Answer;
    pub(crate) fn pusmarke_held(record: Record, list: *const u64, list_length: usize, start: u64, end: u64) -> Answer;
    pub(crate) fn pusmarke_missing_octets(record: Record, list: *const u64, list_length: usize) -> Answer;
    pub(crate) fn pusmarke_deferred(d: u64, limit: u64) -> Heard;
    pub(crate) fn pusmarke_tick(timer: Timer) -> Heard;
    pub(crate) fn pusmarke_reset(timer: Timer, record: Record, list: *const u64, list_length: usize) -> Heard;
    pub(crate) fn pusmarke_deferred_data(
        record: *mut Record,
        list: *mut u64,
        list_length: usize,
        offset: u64,
        length: u64,
        timer: Timer,
    ) -> Heard;
    pub(crate) fn pusmarke_deferred_metadata(record: *mut Record, list: *const u64, list_length: usize, timer: Timer) -> Heard;
    pub(crate) fn pusmarke_deferred_eof(record: *mut Record, list: *mut u64, list_length: usize, size: u64, timer: Timer) -> Heard;
    pub(crate) fn pusmarke_write(
        identity: Identity,
        form: Form,
        scope_start: u64,
        scope_end: u64,
        requests: *const u64,
        requests_length: usize,
        buffer: *mut u8,
        buffer_length: usize,
    ) -> Answer;
    pub(crate) fn pusmarke_read(packet: *const u8, packet_length: usize, older: u64) -> Nak;
    pub(crate) fn pusmarke_next(packet: *const u8, packet_length: usize, at: usize) -> Step;
    pub(crate) fn pusmarke_nak_sequence(
        record: Record,
        list: *const u64,
        list_length: usize,
        identity: Identity,
        form: Form,
        largest: usize,
        cursor: usize,
        budget: usize,
        buffer: *mut u8,
        buffer_length: usize,
    ) -> Answer;
    pub(crate) fn pusmarke_check_plan(
        record: Record,
        list: *const u64,
        list_length: usize,
        identity: Identity,
        older: u64,
        lengths: *const u16,
        pdus: usize,
        octets: *const u8,
        octets_length: usize,
        scratch: *mut u64,
        scratch_length: usize,
    ) -> Answer;
    pub(crate) fn pusmarke_pool_fresh() -> Pool;
    pub(crate) fn pusmarke_pool_add(pool: Pool, narrow: u64, floor: usize, limit: usize) -> Pool;
    pub(crate) fn pusmarke_pool_data(
        pool: *mut Pool,
        list: *mut u64,
        list_length: usize,
        transfer: usize,
        offset: u64,
        length: u64,
    ) -> Answer;
    pub(crate) fn pusmarke_pool_metadata(pool: *mut Pool, list: *const u64, list_length: usize, transfer: usize) -> Answer;
    pub(crate) fn pusmarke_pool_eof(pool: *mut Pool, list: *mut u64, list_length: usize, transfer: usize, size: u64) -> Answer;
    pub(crate) fn pusmarke_pool_held(
        pool: Pool,
        list: *const u64,
        list_length: usize,
        transfer: usize,
        start: u64,
        end: u64,
    ) -> Answer;
    pub(crate) fn pusmarke_pool_missing_octets(pool: Pool, list: *const u64, list_length: usize, transfer: usize) -> Answer;
    pub(crate) fn pusmarke_pool_nak_sequence(
        pool: Pool,
        list: *const u64,
        list_length: usize,
        transfer: usize,
        identity: Identity,
        form: Form,
        largest: usize,
        cursor: usize,
        budget: usize,
        buffer: *mut u8,
        buffer_length: usize,
    ) -> Answer;
}
