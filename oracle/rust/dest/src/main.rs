// Runs the smallest input of each difference between the Rust and the papers, and prints what the
// Rust does: a line `KEY<tab>ANSWER` for each. `oracle/differences` sets the port's answer beside it.
mod handler;

use handler::{DestError, FaultHandlerCode, Handler, RemoteConfig};
use spacepackets::cfdp::LargeFileFlag::{self, Large, Normal};
use std::panic::{catch_unwind, AssertUnwindSafe};
use store::lost_segments::{LostSegmentError, LostSegmentStore, LostSegmentsList};

const TWO32: u64 = 1 << 32;

fn pairs(list: impl Iterator<Item = (u64, u64)>) -> String {
    let all: Vec<String> = list.map(|(s, e)| format!("({s},{e})")).collect();
    format!("[{}]", all.join(", "))
}

fn seeded(list: &[(u64, u64)]) -> LostSegmentsList {
    seed::plant(list);
    LostSegmentsList::new(Some(4))
}

fn hex(octets: &[u8]) -> String {
    octets.iter().map(|b| format!("{b:02x}")).collect()
}

fn name(error: &LostSegmentError) -> String {
    match error {
        LostSegmentError::StoreFull => "1".into(),
        LostSegmentError::EmptySegment => "2".into(),
        LostSegmentError::InvalidSegmentBoundary(s, e) => format!("5 {s} {e}"),
        other => format!("{other:?}"),
    }
}

fn remove(list: &[(u64, u64)], a: u64, b: u64) -> String {
    let mut store = seeded(list);
    let answer = match store.remove_lost_segment((a, b)) {
        Ok(yes) => yes.to_string(),
        Err(error) => name(&error),
    };
    format!("{answer}, list {}", pairs(store.iter()))
}

// Add and then coalesce, on a store of this capacity.
fn insert(list: &[(u64, u64)], capacity: usize, s: u64, e: u64) -> String {
    seed::plant(list);
    let mut store = LostSegmentsList::new(Some(capacity));
    let answer = match store.add_lost_segment((s, e)) {
        Ok(()) => "added".into(),
        Err(error) => name(&error),
    };
    store.coalesce_lost_segments().unwrap();
    format!("{answer}, then coalesced, list {}", pairs(store.iter()))
}

fn handler(
    list: &[(u64, u64)],
    capacity: usize,
    flag: LargeFileFlag,
    immediate: bool,
    max_packet_len: usize,
) -> Handler {
    let remote = RemoteConfig {
        immediate_nak_mode: immediate,
        max_packet_len,
        nak_timer_interval: 1,
        nak_timer_expiration_limit: 9,
    };
    Handler::new(list, capacity, flag, remote)
}

fn answer(result: Result<u32, DestError>) -> String {
    match result {
        Ok(_) => "taken".into(),
        Err(DestError::LostSegmentError(error)) => name(&error),
        Err(error) => format!("{error:?}"),
    }
}

// The answer to an event, then list and progress.
fn event(h: &mut Handler, call: impl FnOnce(&mut Handler) -> Result<u32, DestError>) -> String {
    let said = match catch_unwind(AssertUnwindSafe(|| call(h))) {
        Ok(result) => answer(result),
        Err(panic) => format!("panics ({})", message(panic)),
    };
    format!("{said}, list {}, progress {}", pairs(h.lost_segment_tracker.iter()), h.transaction_params.progress)
}

// The answer to an EOF PDU or to data behind one, or the fault that it declares and what is done on it; then list, progress and size.
fn sized(h: &mut Handler, call: impl FnOnce(&mut Handler) -> Result<u32, DestError>) -> String {
    let said = event(h, call);
    let said = match h.faults.borrow().first() {
        Some(fault) => said.replacen("taken", &format!("fault {fault:?} ({:?})", h.local_cfg.on_size_error), 1),
        None => said,
    };
    format!("{said}, size {}", h.transaction_params.file_size)
}

fn message(panic: Box<dyn std::any::Any + Send>) -> String {
    let text = panic.downcast_ref::<String>().cloned();
    text.or(panic.downcast_ref::<&str>().map(|s| s.to_string())).unwrap_or_default()
}

// Scope and requests of each PDU that was sent.
fn sequence(h: &mut Handler, call: impl FnOnce(&mut Handler) -> Result<u32, DestError>) -> String {
    let f = match h.transaction_params.pdu_conf.file_flag {
        Normal => 4,
        Large => 8,
    };
    match catch_unwind(AssertUnwindSafe(|| call(h))) {
        Ok(Ok(_)) => {}
        Ok(error) => return answer(error),
        Err(panic) => return format!("panics ({})", message(panic)),
    }
    let mut all = Vec::new();
    for pdu in h.pdu_sender.sent.borrow().iter() {
        let scope = numbers(pdu, f);
        all.push(format!("{}–{} {}", scope[0], scope[1], pairs(asked(pdu, f).into_iter())));
    }
    all.join("; ")
}

fn say(key: &str, text: String) {
    println!("{key}\t{text}");
}

fn main() {
    std::panic::set_hook(Box::new(|_| {}));

    // The store.
    say("remove-whole", remove(&[(0, 1)], 0, 1));
    say("remove-split", remove(&[(0, 3)], 1, 2));
    say("remove-none", remove(&[], 0, 1));
    say("remove-inside", remove(&[(0, 2), (0, 1)], 0, 2));
    say("remove-shares", remove(&[(0, 2), (0, 1)], 1, 2));
    say("remove-twice", remove(&[(0, 1), (0, 1)], 0, 1));
    say("insert-room", insert(&[(0, 1)], 4, 1, 2));
    say("insert-full", insert(&[(0, 1)], 1, 1, 2));
    say("insert-uncoalesced", insert(&[(1, 2), (0, 1)], 4, 3, 4));
    let store = seeded(&[(0, 1), (2, TWO32)]);
    let mut buf = [0x5a; 16];
    let error = store.write_segments_to_bytes(&mut buf, Normal).unwrap_err();
    say("octets-begun", format!("{error:?}, buffer {}", hex(&buf)));
    let mut store = LostSegmentsList::new(None);
    let taken = (0..5000).filter(|&i| store.add_lost_segment((2 * i, 2 * i + 1)).is_ok()).count();
    say("no-capacity", format!("{taken} ranges taken"));

    // Data while metadata is missing.
    let mut h = handler(&[], 4, Normal, true, 64);
    let said = event(&mut h, |h| h.notice(50, 10));
    say("waiting-request", format!("{said}, PDU {}", hex(&h.pdu_sender.sent.borrow()[0])));
    let mut h = handler(&[], 4, Normal, true, 64);
    let said = event(&mut h, |h| h.notice(50, 0));
    say("waiting-empty", format!("{said}, PDU {}", hex(&h.pdu_sender.sent.borrow()[0])));
    let mut h = handler(&[], 0, Normal, false, 64);
    say("waiting-full", event(&mut h, |h| h.notice(50, 10)));
    let mut h = handler(&[], 4, Large, false, 64);
    say("waiting-overflow", event(&mut h, |h| h.notice(u64::MAX, 1)));
    let mut h = handler(&[], 4, Normal, false, 64);
    h.notice(50, 10).unwrap();
    h.metadata();
    say("gap-touches", event(&mut h, |h| h.keep(70, 10)));

    // Data once metadata is known.
    let mut h = handler(&[], 4, Normal, false, 64);
    h.known();
    h.keep(1, 1).unwrap();
    say("overlap-stays", event(&mut h, |h| h.keep(0, 2)));
    for (key, length) in [("across-refused", 110), ("across-ignored", 120)] {
        let mut h = handler(&[], 4, Normal, false, 64);
        h.known();
        for (offset, length) in [(0, 100), (200, 100), (120, 30)] {
            h.keep(offset, length).unwrap();
        }
        say(key, event(&mut h, |h| h.keep(90, length)));
    }
    let mut h = handler(&[], 4, Normal, false, 64);
    h.known();
    say("known-empty", event(&mut h, |h| h.keep(50, 0)));
    let mut h = handler(&[], 0, Normal, false, 64);
    h.known();
    say("known-full", event(&mut h, |h| h.keep(5, 1)));
    let mut h = handler(&[], 4, Large, false, 64);
    h.known();
    say("known-overflow", event(&mut h, |h| h.keep(u64::MAX, 1)));
    let mut h = handler(&[], 4, Large, true, 64);
    h.known();
    say("large-gap", event(&mut h, |h| h.keep(TWO32, 1)));

    // The end of file.
    let plain = |capacity| handler(&[], capacity, Normal, false, 64);
    let known = |capacity| {
        let mut h = plain(capacity);
        h.known();
        h
    };
    let one_noticed = |capacity| {
        let mut h = plain(capacity);
        h.notice(0, 1).unwrap();
        h
    };
    say("eof-tail", sized(&mut known(4), |h| h.eof(1)));
    for (key, capacity) in [("eof-touches", 4), ("eof-touches-full", 1)] {
        let mut h = one_noticed(capacity);
        h.metadata();
        say(key, sized(&mut h, |h| h.eof(2)));
    }
    for (key, first, second) in [("eof-again", 1, 1), ("eof-above", 1, 2), ("eof-under", 2, 1)] {
        let mut h = known(4);
        h.eof(first).unwrap();
        say(key, sized(&mut h, |h| h.eof(second)));
    }
    for (key, code) in [("eof-below", FaultHandlerCode::NoticeOfCancellation), ("eof-below-ignored", FaultHandlerCode::IgnoreError)] {
        let mut h = known(4);
        h.local_cfg.on_size_error = code;
        h.keep(0, 2).unwrap();
        say(key, sized(&mut h, |h| h.eof(1)));
    }
    say("eof-waiting", sized(&mut one_noticed(4), |h| h.eof(2)));
    say("eof-first", sized(&mut plain(4), |h| h.eof(1)));
    say("eof-first-full", sized(&mut plain(0), |h| h.eof(1)));
    let mut h = plain(4);
    h.eof(1).unwrap();
    say("eof-first-again", sized(&mut h, |h| h.eof(1)));
    for (key, offset) in [("eof-data-past", 1), ("eof-data-far", 2)] {
        let mut h = known(4);
        h.eof(1).unwrap();
        say(key, sized(&mut h, |h| h.keep(offset, 1)));
    }
    for (key, max_packet_len) in [("eof-scopes", 24), ("eof-scope", 64)] {
        let mut h = handler(&[], 4, Normal, false, max_packet_len);
        h.known();
        h.keep(1, 1).unwrap();
        h.eof(3).unwrap();
        say(key, sequence(&mut h, |h| h.deferred()));
    }

    // What was kept and what is missing: the Rust has neither call. It can be asked whether a range lies inside a lost segment.
    for (key, list, segment) in [("held-apart", &[(1, 2)][..], (0, 1)), ("held-across", &[(1, 2)], (0, 3)), ("held-past", &[], (0, 1))] {
        say(key, format!("segment_in_store {}", seeded(list).segment_in_store(segment)));
    }
    let mut h = known(4);
    h.eof(1).unwrap();
    h.eof(1).unwrap();
    let octets: u64 = h.lost_segment_tracker.iter().map(|(s, e)| e - s).sum();
    say("missing-twice", format!("list {}, its octets summed {octets}", pairs(h.lost_segment_tracker.iter())));

    // The sequence.
    let multi = |list: &[(u64, u64)], progress: u64, k: usize, missing: bool| {
        let mut h = handler(list, 8, Normal, false, 64);
        h.transaction_params.progress = progress;
        let n = list.len() + missing as usize;
        sequence(&mut h, |h| h.multi(n, k, missing))
    };
    let five = [(0, 1), (2, 3), (4, 5), (6, 7), (8, 9)];
    say("scopes-one", multi(&five[..3], 10, 1, false));
    say("scopes-two", multi(&five, 12, 2, false));
    say("cut-numbers", multi(&[(0, 1), (TWO32, TWO32 + 5)], TWO32 + 5, 1, false));
    say("no-room", multi(&five[..1], 1, 0, false));
    say("not-coalesced", multi(&[(5, 6), (0, 1)], 6, 1, false));
    say("past-progress", multi(&[(0, 1), (2, 5)], 3, 1, false));
    let single = |list: &[(u64, u64)], progress: u64, file_size: u64| {
        let mut h = handler(list, 8, Normal, false, 64);
        h.known();
        h.transaction_params.progress = progress;
        h.transaction_params.file_size = file_size;
        sequence(&mut h, |h| h.deferred())
    };
    say("single-scope", single(&[(100, 120)], 300, 1000));
    say("single-panics", single(&[(0, TWO32)], TWO32, TWO32));
    say("requests", requests());
}

// No difference: in several PDUs the requests, and how they are cut into PDUs, are document 01's.
fn requests() -> String {
    let mut sequences = 0;
    for (flag, f) in [(Normal, 4), (Large, 8)] {
        for n in 1..=60u64 {
            for k in 1..=n as usize {
                for missing in [false, true] {
                    let list: Vec<(u64, u64)> = (0..n).map(|i| (3 * i + 1, 3 * i + 2)).collect();
                    let mut entries = if missing { vec![(0, 0)] } else { vec![] };
                    entries.extend(&list);
                    if entries.len() <= k {
                        continue;
                    }
                    let mut h = handler(&list, 60, flag, false, 64);
                    h.transaction_params.progress = 3 * n;
                    h.multi(entries.len(), k, missing).unwrap();
                    let sent = h.pdu_sender.sent.borrow();
                    let cut: Vec<Vec<(u64, u64)>> = sent.iter().map(|pdu| asked(pdu, f)).collect();
                    let want: Vec<Vec<(u64, u64)>> = entries.chunks(k).map(|c| c.to_vec()).collect();
                    assert_eq!(cut, want, "k {k}, missing {missing}");
                    sequences += 1;
                }
            }
        }
    }
    format!("in {sequences} sequences of several PDUs the requests and their cut into PDUs are document 01's")
}

fn numbers(pdu: &[u8], f: usize) -> Vec<u64> {
    pdu[8..].chunks(f).map(|c| c.iter().fold(0, |n, &b| n << 8 | b as u64)).collect()
}

fn asked(pdu: &[u8], f: usize) -> Vec<(u64, u64)> {
    numbers(pdu, f)[2..].chunks(2).map(|p| (p[0], p[1])).collect()
}
