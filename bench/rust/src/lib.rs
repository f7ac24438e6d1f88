// The Rust's calls behind C functions: lost_segments.rs unchanged, and the lines cut out of dest.rs.
// The benchmark only makes calls that are accepted, so every refusal is the same number here.
use handler::{Handler, RemoteConfig};
use spacepackets::cfdp::LargeFileFlag;
use std::slice::{from_raw_parts, from_raw_parts_mut};
use store::lost_segments::{LostSegmentStore, LostSegmentsList};

#[allow(dead_code)]
mod handler {
    include!("../../../oracle/rust/dest/src/handler.rs");

    impl Handler {
        // As `keep`, with the data lent: no allocation is counted.
        pub fn data(&mut self, offset: u64, data: &[u8]) -> Result<u32, DestError> {
            let pdu = self.file_data(offset, data);
            let end = offset + data.len() as u64;
            self.transaction_params.progress = self.transaction_params.progress.max(end);
            self.lost_segment_handling(&pdu)
        }
    }
}

const CAPACITY: usize = 4096;
const REFUSED: u64 = u64::MAX;

fn flag(large: u64) -> LargeFileFlag {
    match large {
        0 => LargeFileFlag::Normal,
        _ => LargeFileFlag::Large,
    }
}

unsafe fn pairs<'a>(list: *const u64, count: usize) -> &'a [(u64, u64)] {
    from_raw_parts(list as *const (u64, u64), count)
}

// Makes the vector grow now, so that no call that is counted allocates.
fn make_room(store: &mut LostSegmentsList) {
    let last = (u64::MAX - 1, u64::MAX);
    if store.add_lost_segment(last).is_ok() {
        store.remove_lost_segment(last).unwrap();
    }
}

fn copy(store: &LostSegmentsList, out: *mut u64) -> usize {
    for (i, (s, e)) in store.iter().enumerate() {
        unsafe {
            *out.add(2 * i) = s;
            *out.add(2 * i + 1) = e;
        }
    }
    store.number_of_segments()
}

#[no_mangle]
pub unsafe extern "C" fn rust_store(list: *const u64, count: usize) -> *mut LostSegmentsList {
    seed::plant(pairs(list, count));
    let mut store = LostSegmentsList::new(Some(CAPACITY));
    make_room(&mut store);
    Box::into_raw(Box::new(store))
}

#[no_mangle]
pub unsafe extern "C" fn rust_store_free(store: *mut LostSegmentsList) {
    drop(Box::from_raw(store));
}

#[no_mangle]
pub unsafe extern "C" fn rust_list(store: &LostSegmentsList, out: *mut u64) -> usize {
    copy(store, out)
}

#[no_mangle]
pub extern "C" fn rust_add(store: &mut LostSegmentsList, start: u64, end: u64) -> u64 {
    store.add_lost_segment((start, end)).map_or(REFUSED, |_| 0)
}

#[no_mangle]
pub extern "C" fn rust_remove(store: &mut LostSegmentsList, start: u64, end: u64) -> u64 {
    store.remove_lost_segment((start, end)).map_or(REFUSED, |yes| yes as u64)
}

#[no_mangle]
pub extern "C" fn rust_coalesce(store: &mut LostSegmentsList) -> u64 {
    store.coalesce_lost_segments().map_or(REFUSED, |_| 0)
}

#[no_mangle]
pub extern "C" fn rust_add_and_coalesce(store: &mut LostSegmentsList, start: u64, end: u64) -> u64 {
    let added = store.add_lost_segment((start, end));
    added.and_then(|_| store.coalesce_lost_segments()).map_or(REFUSED, |_| 0)
}

#[no_mangle]
pub extern "C" fn rust_segment_in_store(store: &LostSegmentsList, start: u64, end: u64) -> u64 {
    store.segment_in_store((start, end)) as u64
}

#[no_mangle]
pub unsafe extern "C" fn rust_write_segments_to_bytes(
    store: &LostSegmentsList,
    large: u64,
    buf: *mut u8,
    length: usize,
) -> u64 {
    let buf = from_raw_parts_mut(buf, length);
    store.write_segments_to_bytes(buf, flag(large)).map_or(REFUSED, |n| n as u64)
}

// The sort of coalesce alone.
#[no_mangle]
pub unsafe extern "C" fn rust_sort(list: *mut u64, count: usize) {
    from_raw_parts_mut(list as *mut (u64, u64), count).sort_unstable_by_key(|&(start, _)| start);
}

// A receiver that knows its metadata, at this progress, with this list.
#[no_mangle]
pub unsafe extern "C" fn rust_handler(
    list: *const u64,
    count: usize,
    progress: u64,
    largest: usize,
) -> *mut Handler {
    let remote = RemoteConfig {
        immediate_nak_mode: false,
        max_packet_len: largest,
        nak_timer_interval: 1,
        nak_timer_expiration_limit: 9,
    };
    let mut handler = Handler::new(pairs(list, count), CAPACITY, LargeFileFlag::Normal, remote);
    make_room(&mut handler.lost_segment_tracker);
    handler.transaction_params.progress = progress;
    handler.transaction_params.file_size = progress;
    handler.known();
    Box::into_raw(Box::new(handler))
}

#[no_mangle]
pub unsafe extern "C" fn rust_handler_free(handler: *mut Handler) {
    drop(Box::from_raw(handler));
}

#[no_mangle]
pub unsafe extern "C" fn rust_handler_list(handler: &Handler, out: *mut u64) -> usize {
    copy(&handler.lost_segment_tracker, out)
}

#[no_mangle]
pub extern "C" fn rust_handler_progress(handler: &Handler) -> u64 {
    handler.transaction_params.progress
}

#[no_mangle]
pub unsafe extern "C" fn rust_data(handler: &mut Handler, offset: u64, data: *const u8, length: usize) -> u64 {
    handler.data(offset, from_raw_parts(data, length)).map_or(REFUSED, |_| 0)
}

#[no_mangle]
pub extern "C" fn rust_eof(handler: &mut Handler, size: u64) -> u64 {
    handler.eof(size).map_or(REFUSED, |_| 0)
}

#[no_mangle]
pub extern "C" fn rust_handler_size(handler: &Handler) -> u64 {
    handler.transaction_params.file_size
}

// Not counted: the Rust itself does not coalesce here.
#[no_mangle]
pub extern "C" fn rust_handler_coalesce(handler: &mut Handler) {
    handler.lost_segment_tracker.coalesce_lost_segments().unwrap();
}

// The whole sequence; hands back the number of PDUs.
#[no_mangle]
pub extern "C" fn rust_sequence(handler: &mut Handler) -> u64 {
    handler.deferred().map_or(REFUSED, |n| n as u64)
}

// The PDUs that were sent, back to back; hands back their octets.
#[no_mangle]
pub unsafe extern "C" fn rust_sent(handler: &Handler, out: *mut u8) -> usize {
    let all = handler.pdu_sender.sent.borrow().concat();
    from_raw_parts_mut(out, all.len()).copy_from_slice(&all);
    all.len()
}
