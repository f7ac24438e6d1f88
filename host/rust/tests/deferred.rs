//! The deferred NAK procedure. Each test has the sentences of the request that its numbers come from; nothing here is read off a run.
use pusmarke::{Activity, Data, Deferred, Edition, Identity, NakReader, Reception, Refusal, Tick, Timed, Width};
use Activity::{Active, Deaf, Idle};
use Tick::{Ask, Limit, Quiet};

/// Activity, ticks left, counter.
fn at(timed: &Timed) -> (Activity, u64, u64) {
    let timer = timed.timer();
    (timer.activity(), timer.left(), timer.counter())
}

/// The numbers, from 1 on, of the ticks that are not quiet, among so many.
fn told(timed: &mut Timed, ticks: u64) -> Vec<(u64, Tick)> {
    (1..=ticks).map(|n| (n, timed.tick())).filter(|(_, tick)| *tick != Quiet).collect()
}

/// Metadata known, 0–100 kept, 100–300 missing, the size known: active.
fn active(list: &mut [u64], ticks: u64, limit: u64) -> Timed<'_> {
    let mut timed = Reception::new(list, Width::Wide).unwrap().with_timer(Deferred::new(ticks, limit).unwrap());
    timed.metadata().unwrap();
    timed.data(0, 100).unwrap();
    timed.eof(300).unwrap();
    assert_eq!(at(&timed), (Active, ticks, 0));
    timed
}

// "starts a countdown of d ticks, 1 to 65,535", "the limit (1 to 255)", "A d or limit outside its range is 25."
#[test]
fn ranges() {
    for (ticks, limit) in [(1, 1), (65_535, 255), (1, 255), (65_535, 1), (7, 3)] {
        let timer = Deferred::new(ticks, limit).unwrap();
        assert_eq!((timer.ticks(), timer.limit(), timer.activity(), timer.left(), timer.counter()), (ticks, limit, Idle, 0, 0));
    }
    for (ticks, limit) in [(0, 1), (65_536, 1), (1, 0), (1, 256), (0, 0), (65_536, 256), (u64::MAX, 1), (1, u64::MAX), (1 << 32, 1)]
    {
        assert_eq!(Deferred::new(ticks, limit), Err(Refusal::BadTimer), "{ticks} {limit}");
    }
    assert_eq!((Refusal::BadTimer.number(), Refusal::of(25, 0, 0)), (25, Some(Refusal::BadTimer)));
}

// "At zero it asks for one full sequence, raises the counter and restarts." "When the counter has reached the limit …, the next expiry
// reports the limit once and stops". "If no event is accepted or reset made after it becomes active, the report comes at tick
// d × (limit + 1)."
#[test]
fn asks_and_the_report() {
    for (ticks, limit) in [(1, 1), (1, 3), (2, 1), (5, 4), (3, 255), (65_535, 2)] {
        let mut list = [0; 16];
        let mut timed = active(&mut list, ticks, limit);
        let mut expected: Vec<_> = (1..=limit).map(|n| (n * ticks, Ask)).collect();
        expected.push((ticks * (limit + 1), Limit));
        // Two countdowns more: the limit is said once.
        assert_eq!(told(&mut timed, ticks * (limit + 3)), expected, "{ticks} {limit}");
        assert_eq!(at(&timed), (Deaf, 0, limit));
    }
}

// "one tick a call": the countdown and the counter, tick by tick.
#[test]
fn tick_by_tick() {
    let mut list = [0; 16];
    let mut timed = active(&mut list, 2, 2);
    let steps = [
        (Quiet, (Active, 1, 0)),
        (Ask, (Active, 2, 1)),
        (Quiet, (Active, 1, 1)),
        (Ask, (Active, 2, 2)),
        (Quiet, (Active, 1, 2)),
        (Limit, (Deaf, 0, 2)),
        (Quiet, (Deaf, 0, 2)),
    ];
    for (tick, then) in steps {
        assert_eq!((timed.tick(), at(&timed)), (tick, then));
    }
    // "The countdown moves by value": the one that was handed over has not ticked.
    let before = active(&mut [0; 16], 2, 2).timer();
    let (after, tick) = before.tick();
    assert_eq!((before.left(), after.left(), tick), (2, 1, Quiet));
}

// "Once the size is known and anything is missing, metadata included, it becomes active and starts a countdown of d ticks". "When nothing
// is missing, metadata included, it goes inactive."
#[test]
fn active_and_idle() {
    let mut list = [0; 16];
    let mut timed = Reception::new(&mut list, Width::Wide).unwrap().with_timer(Deferred::new(4, 2).unwrap());
    // The size is not known: idle, whatever is missing, and ticks pass by.
    assert_eq!((timed.data(50, 10), at(&timed)), (Ok(Data::Noticed), (Idle, 0, 0)));
    assert_eq!((timed.metadata(), at(&timed)), (Ok(()), (Idle, 0, 0)));
    assert_eq!((timed.data(60, 10), at(&timed)), (Ok(Data::Kept), (Idle, 0, 0)));
    assert_eq!((told(&mut timed, 20), at(&timed)), (vec![], (Idle, 0, 0)));
    // The size is known, and 0–60 missing.
    assert_eq!((timed.eof(70), at(&timed)), (Ok(()), (Active, 4, 0)));
    assert_eq!((told(&mut timed, 9), at(&timed)), (vec![(4, Ask), (8, Ask)], (Active, 3, 2)));
    // All is there: idle, with no ask left over.
    assert_eq!((timed.data(0, 60), at(&timed)), (Ok(Data::Kept), (Idle, 0, 0)));
    assert_eq!((told(&mut timed, 20), timed.eof(70), at(&timed)), (vec![], Ok(()), (Idle, 0, 0)));
    // Nothing is missing at the end of file: it never becomes active.
    let mut list = [0; 16];
    let mut timed = Reception::new(&mut list, Width::Wide).unwrap().with_timer(Deferred::new(1, 1).unwrap());
    timed.metadata().unwrap();
    timed.data(0, 70).unwrap();
    assert_eq!((timed.eof(70), at(&timed), timed.tick()), (Ok(()), (Idle, 0, 0), Quiet));
}

// "anything is missing, metadata included": of an empty file it is metadata alone. "or the metadata event".
#[test]
fn metadata_is_missing() {
    let mut timed = Reception::new(&mut [], Width::Narrow).unwrap().with_timer(Deferred::new(3, 1).unwrap());
    assert_eq!((timed.eof(0), at(&timed)), (Ok(()), (Active, 3, 0)));
    assert_eq!(told(&mut timed, 4), [(3, Ask)]);
    assert_eq!((timed.metadata(), at(&timed)), (Ok(()), (Idle, 0, 0)));
    // "An event that lowers the number of missing octets, or the metadata event, zeroes the counter and restarts."
    let mut list = [0; 2];
    let mut timed = Reception::new(&mut list, Width::Narrow).unwrap().with_timer(Deferred::new(3, 2).unwrap());
    timed.eof(20).unwrap();
    assert_eq!((told(&mut timed, 4), at(&timed)), (vec![(3, Ask)], (Active, 2, 1)));
    // Data while waiting is noticed, and lowers nothing.
    assert_eq!((timed.data(0, 20), at(&timed)), (Ok(Data::Noticed), (Active, 2, 1)));
    assert_eq!((timed.metadata(), at(&timed)), (Ok(()), (Active, 3, 0)));
    assert_eq!(told(&mut timed, 9), [(3, Ask), (6, Ask), (9, Limit)]);
}

// "An event that lowers the number of missing octets … zeroes the counter and restarts": and one that does not lower it does not.
#[test]
fn what_restarts() {
    let mut list = [0; 16];
    let mut timed = active(&mut list, 5, 3);
    assert_eq!((told(&mut timed, 12), at(&timed)), (vec![(5, Ask), (10, Ask)], (Active, 3, 2)));
    // Held already; the same size again.
    assert_eq!((timed.data(0, 100), at(&timed)), (Ok(Data::Kept), (Active, 3, 2)));
    assert_eq!((timed.data(40, 1), at(&timed)), (Ok(Data::Kept), (Active, 3, 2)));
    assert_eq!((timed.eof(300), at(&timed)), (Ok(()), (Active, 3, 2)));
    // One octet of what is missing, behind many that are not.
    assert_eq!((timed.data(0, 101), at(&timed)), (Ok(Data::Kept), (Active, 5, 0)));
    assert_eq!((told(&mut timed, 6), at(&timed)), (vec![(5, Ask)], (Active, 4, 1)));
    // In the middle: the list has two ranges then, and fewer octets.
    assert_eq!((timed.data(200, 10), timed.reception().segments().len(), at(&timed)), (Ok(Data::Kept), 2, (Active, 5, 0)));
    // The same again does not.
    assert_eq!((timed.tick(), timed.data(200, 10), at(&timed)), (Quiet, Ok(Data::Kept), (Active, 4, 0)));
    // From there on as from the start: 4 ticks are left of the first countdown.
    assert_eq!(told(&mut timed, 19), [(4, Ask), (9, Ask), (14, Ask), (19, Limit)]);
}

// "A refused event changes nothing."
#[test]
fn refused_events() {
    let mut list = [0; 4];
    let mut timed = active(&mut list, 5, 3);
    timed.data(200, 10).unwrap();
    assert_eq!((told(&mut timed, 7), at(&timed)), (vec![(5, Ask)], (Active, 3, 1)));
    let before: Vec<_> = timed.reception().segments().collect();
    assert_eq!((timed.data(0, 0), at(&timed)), (Err(Refusal::EmptySegment), (Active, 3, 1)));
    assert_eq!((timed.data(1, u64::MAX), at(&timed)), (Err(Refusal::RangeTooLong), (Active, 3, 1)));
    assert_eq!((timed.data(299, 2), at(&timed)), (Err(Refusal::FileSizeError), (Active, 3, 1)));
    // It would lower what is missing, and there is no room for it.
    assert_eq!((timed.data(250, 10), at(&timed)), (Err(Refusal::StoreFull), (Active, 3, 1)));
    assert_eq!((timed.metadata(), at(&timed)), (Err(Refusal::AlreadyKnown), (Active, 3, 1)));
    assert_eq!((timed.eof(301), at(&timed)), (Err(Refusal::FileSizeError), (Active, 3, 1)));
    assert_eq!(timed.reception().segments().collect::<Vec<_>>(), before);
    assert_eq!(told(&mut timed, 3), [(3, Ask)]);
}

// "the next expiry reports the limit once and stops, deaf to all but a reset, which zeroes the counter and restarts".
#[test]
fn deaf_and_reset() {
    let mut list = [0; 16];
    let mut timed = active(&mut list, 2, 1);
    assert_eq!((told(&mut timed, 4), at(&timed)), (vec![(2, Ask), (4, Limit)], (Deaf, 0, 1)));
    // The record still takes the events; the timer stays as it is, also where nothing is missing any more.
    assert_eq!((timed.data(100, 50), at(&timed)), (Ok(Data::Kept), (Deaf, 0, 1)));
    assert_eq!((timed.eof(300), at(&timed), told(&mut timed, 10)), (Ok(()), (Deaf, 0, 1), vec![]));
    assert_eq!(timed.reception().missing_octets(), Ok(150));
    assert_eq!((timed.reset(), at(&timed)), (Ok(()), (Active, 2, 0)));
    assert_eq!((told(&mut timed, 4), at(&timed)), (vec![(2, Ask), (4, Limit)], (Deaf, 0, 1)));
    assert_eq!((timed.data(150, 150), at(&timed)), (Ok(Data::Kept), (Deaf, 0, 1)));
    // "activity is judged after each accepted event or reset".
    assert_eq!((timed.reset(), at(&timed)), (Ok(()), (Idle, 0, 0)));
}

// A reset "works in every state".
#[test]
fn reset_anywhere() {
    let mut list = [0; 16];
    let mut timed = Reception::new(&mut list, Width::Wide).unwrap().with_timer(Deferred::new(5, 2).unwrap());
    assert_eq!((timed.reset(), at(&timed)), (Ok(()), (Idle, 0, 0)));
    let mut list = [0; 16];
    let mut timed = active(&mut list, 5, 2);
    assert_eq!((told(&mut timed, 8), at(&timed)), (vec![(5, Ask)], (Active, 2, 1)));
    assert_eq!((timed.reset(), at(&timed)), (Ok(()), (Active, 5, 0)));
    assert_eq!(told(&mut timed, 15), [(5, Ask), (10, Ask), (15, Limit)]);
}

// "activity is judged after each accepted event or reset": one that is made after the end of file waits for one of these.
#[test]
fn made_after_the_end_of_file() {
    let late = |list| {
        let mut reception = Reception::new(list, Width::Wide).unwrap();
        reception.metadata().unwrap();
        reception.eof(300).unwrap();
        let mut timed = reception.with_timer(Deferred::new(1, 1).unwrap());
        assert_eq!((at(&timed), told(&mut timed, 5)), ((Idle, 0, 0), vec![]));
        // A refused event is not one of these.
        assert_eq!((timed.eof(299), at(&timed)), (Err(Refusal::FileSizeError), (Idle, 0, 0)));
        timed
    };
    let (mut a, mut b, mut c) = ([0; 2], [0; 2], [0; 2]);
    let mut timed = late(&mut a);
    assert_eq!((timed.eof(300), at(&timed), told(&mut timed, 2)), (Ok(()), (Active, 1, 0), vec![(1, Ask), (2, Limit)]));
    let mut timed = late(&mut b);
    assert_eq!((timed.reset(), at(&timed)), (Ok(()), (Active, 1, 0)));
    let mut timed = late(&mut c);
    assert_eq!((timed.data(0, 10), at(&timed)), (Ok(Data::Kept), (Active, 1, 0)));
    // Apart and together again, both are as they were.
    let (reception, timer) = timed.into_parts();
    assert_eq!((reception.progress(), timer.activity(), timer.ticks(), timer.limit()), (300, Active, 1, 1));
    assert_eq!((at(&Timed::new(reception, timer)), timer.left()), ((Active, 1, 0), 1));
}

// A pass in which each ask is answered by one PDU's data: it never comes to the limit, and stops asking when all is there.
#[test]
fn a_pass() {
    let identity = Identity { entity_length: 1, number_length: 1, source: 1, number: 7, destination: 2 };
    let mut list = [0; 64];
    let mut timed = Reception::new(&mut list, Width::Narrow).unwrap().with_timer(Deferred::new(3, 1).unwrap());
    timed.metadata().unwrap();
    for i in 0..10 {
        timed.data(100 * i + 50, 50).unwrap();
    }
    timed.eof(1000).unwrap();
    let mut asks = 0;
    for _ in 0..100 {
        match timed.tick() {
            Quiet => {}
            Limit => panic!("each ask is answered"),
            Ask => {
                asks += 1;
                let mut buf = [0; 40];
                let sent = timed.reception().nak_sequence(identity, Edition::Newer, 40).write(1, &mut buf).unwrap();
                for (start, end) in NakReader::read(&buf[..sent.octets], Edition::Newer).unwrap() {
                    timed.data(start, end - start).unwrap();
                }
            }
        }
    }
    // Ten holes, three to a PDU of 40 octets: 8 of header and code, 8 of scope, 8 for each request.
    assert_eq!((asks, timed.reception().missing_octets(), at(&timed)), (4, Ok(0), (Idle, 0, 0)));
}
