//! Why a call was refused.
use core::fmt;

use crate::ffi::Answer;

/// Why a call was refused, and what the refusal carries. Nothing lent changes under any of these.
#[derive(Clone, Copy, Debug, PartialEq, Eq)]
pub enum Refusal {
    /// 1: there is no room for the ranges that the call would leave.
    StoreFull,
    /// 2: start equals end, or data of length 0.
    EmptySegment,
    /// 3: the start is above the end.
    StartLargerThanEnd(u64, u64),
    /// 4: the store is narrow, and a number is above 4,294,967,295.
    LargeFileSegmentNotSupported,
    /// 5: the range to remove shares an offset with some stored range and lies inside none.
    InvalidSegmentBoundary(u64, u64),
    /// 6: the buffer has not the length that is needed.
    BufferSizeMissmatch {
        /// The octets needed.
        expected: usize,
        /// The octets given.
        actual: usize,
    },
    /// 7: the large file flag is normal, and a number is above 4,294,967,295.
    LargeSegmentForNormalFileSize,
    /// 8: the list is not coalesced.
    NotCoalesced,
    /// 9: offset + length is above 2^64 − 1.
    RangeTooLong,
    /// 10: the list is no store: odd, too long, shorter than its count, or with numbers that it may not have.
    BadStore,
    /// 11: the cursor is above the number of entries.
    BadCursor,
    /// 12: the last end is above progress.
    ScopeBelowList,
    /// 13: an identifier length outside 1 to 8, or a number that does not fit it.
    BadIdentity,
    /// 14: a PDU (its trailer counted) or the largest PDU above 4,096 octets, or the largest PDU below room for one request.
    PduSize,
    /// 15: a fixed bit of the header is wrong, among them the edition's; the large flag in the older edition.
    BadHeader,
    /// 16: the packet has not the length that its header says, or its data field (without the trailer) not a whole number of requests.
    LengthMismatch,
    /// 17: the directive code is not that of a NAK PDU.
    NotNak,
    /// 18: the scope's start is above its end.
    ScopeReversed,
    /// 19: metadata is known already.
    AlreadyKnown,
    /// 20: the budget is above 16.
    BudgetTooLarge,
    /// 21: the packet has the CRC flag, and its last two octets are not the CRC of those before them.
    BadTrailer,
    /// 22: a file size below progress, or another than the known one; data past the known size.
    FileSizeError,
    /// 23: more than eight transfers, a floor above its limit, floors that sum to more than the list's ranges, or no such transfer.
    BadPool,
    /// 25: a countdown outside 1 to 65,535 ticks, or a limit outside 1 to 255.
    BadTimer,
    /// 26: the PDUs that were proposed are not those to send.
    BadPlan {
        /// The first test that fails: 1 a PDU does not read, 2 another identity, 3 a request outside its scope, 4 an offset asked for twice,
        /// 5 the union is not what is missing, 6 metadata.
        test: u64,
        /// The first PDU at fault, counted from 0; the number of PDUs where something missing is not asked for.
        pdu: usize,
    },
    /// A number that this crate does not know: the archive is not the one that the crate belongs to.
    Unknown(u64),
}

impl Refusal {
    /// The refusal of a number and the two values that go with it; `None` for 0, which is acceptance.
    pub fn of(number: u64, first: u64, second: u64) -> Option<Refusal> {
        Some(match number {
            0 => return None,
            1 => Refusal::StoreFull,
            2 => Refusal::EmptySegment,
            3 => Refusal::StartLargerThanEnd(first, second),
            4 => Refusal::LargeFileSegmentNotSupported,
            5 => Refusal::InvalidSegmentBoundary(first, second),
            6 => Refusal::BufferSizeMissmatch { expected: first as usize, actual: second as usize },
            7 => Refusal::LargeSegmentForNormalFileSize,
            8 => Refusal::NotCoalesced,
            9 => Refusal::RangeTooLong,
            10 => Refusal::BadStore,
            11 => Refusal::BadCursor,
            12 => Refusal::ScopeBelowList,
            13 => Refusal::BadIdentity,
            14 => Refusal::PduSize,
            15 => Refusal::BadHeader,
            16 => Refusal::LengthMismatch,
            17 => Refusal::NotNak,
            18 => Refusal::ScopeReversed,
            19 => Refusal::AlreadyKnown,
            20 => Refusal::BudgetTooLarge,
            21 => Refusal::BadTrailer,
            22 => Refusal::FileSizeError,
            23 => Refusal::BadPool,
            25 => Refusal::BadTimer,
            26 => Refusal::BadPlan { test: first, pdu: second as usize },
            other => Refusal::Unknown(other),
        })
    }

    /// The refusal's number.
    pub fn number(&self) -> u64 {
        match self {
            Refusal::StoreFull => 1,
            Refusal::EmptySegment => 2,
            Refusal::StartLargerThanEnd(..) => 3,
            Refusal::LargeFileSegmentNotSupported => 4,
            Refusal::InvalidSegmentBoundary(..) => 5,
            Refusal::BufferSizeMissmatch { .. } => 6,
            Refusal::LargeSegmentForNormalFileSize => 7,
            Refusal::NotCoalesced => 8,
            Refusal::RangeTooLong => 9,
            Refusal::BadStore => 10,
            Refusal::BadCursor => 11,
            Refusal::ScopeBelowList => 12,
            Refusal::BadIdentity => 13,
            Refusal::PduSize => 14,
            Refusal::BadHeader => 15,
            Refusal::LengthMismatch => 16,
            Refusal::NotNak => 17,
            Refusal::ScopeReversed => 18,
            Refusal::AlreadyKnown => 19,
            Refusal::BudgetTooLarge => 20,
            Refusal::BadTrailer => 21,
            Refusal::FileSizeError => 22,
            Refusal::BadPool => 23,
            Refusal::BadTimer => 25,
            Refusal::BadPlan { .. } => 26,
            Refusal::Unknown(number) => *number,
        }
    }
}

impl Answer {
    /// The answer where it is accepted, else the refusal.
    pub(crate) fn accepted(self) -> Result<Answer, Refusal> {
        match Refusal::of(self.refusal, self.first, self.second) {
            None => Ok(self),
            Some(refusal) => Err(refusal),
        }
    }
}

impl fmt::Display for Refusal {
    fn fmt(&self, f: &mut fmt::Formatter<'_>) -> fmt::Result {
        match self {
            Refusal::StoreFull => f.write_str("store is full"),
            Refusal::EmptySegment => f.write_str("segment is empty"),
            Refusal::StartLargerThanEnd(start, end) => write!(f, "segment start {start} is larger than segment end {end}"),
            Refusal::LargeFileSegmentNotSupported => f.write_str("large file segments are not supported"),
            Refusal::InvalidSegmentBoundary(start, end) => write!(f, "invalid segment boundary for lost segment ({start}, {end})"),
            Refusal::BufferSizeMissmatch { expected, actual } => write!(f, "buffer needs {expected} octets and has {actual}"),
            Refusal::LargeSegmentForNormalFileSize => f.write_str("large file segment not compatible to normal file size"),
            Refusal::NotCoalesced => f.write_str("list is not coalesced"),
            Refusal::RangeTooLong => f.write_str("range ends above 2^64 - 1"),
            Refusal::BadStore => f.write_str("list is no store"),
            Refusal::BadCursor => f.write_str("cursor is above the number of entries"),
            Refusal::ScopeBelowList => f.write_str("last segment ends above progress"),
            Refusal::BadIdentity => f.write_str("identifier does not fit its length"),
            Refusal::PduSize => f.write_str("PDU size is out of bounds"),
            Refusal::BadHeader => f.write_str("header has a wrong fixed bit, or a large file flag that its edition has not"),
            Refusal::LengthMismatch => f.write_str("packet length is wrong"),
            Refusal::NotNak => f.write_str("packet is no NAK PDU"),
            Refusal::ScopeReversed => f.write_str("scope start is above scope end"),
            Refusal::AlreadyKnown => f.write_str("metadata is known already"),
            Refusal::BudgetTooLarge => f.write_str("budget is above 16 PDUs"),
            Refusal::BadTrailer => f.write_str("trailer is not the CRC of the packet"),
            Refusal::FileSizeError => f.write_str("file size does not fit what came"),
            Refusal::BadPool => f.write_str("pool has bad settings, or no such transfer"),
            Refusal::BadTimer => f.write_str("timer is out of bounds"),
            Refusal::BadPlan { test, pdu } => write!(f, "proposed PDUs fail test {test} at PDU {pdu}"),
            Refusal::Unknown(number) => write!(f, "number {number}, which this crate does not know"),
        }
    }
}

impl core::error::Error for Refusal {}
