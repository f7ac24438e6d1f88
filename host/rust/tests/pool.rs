//! Several transfers over one list. Each test has the sentences of the request that its numbers come from; nothing here is read off a
//! run.
use pusmarke::{Data, Edition, Identity, NakReader, Pool, Refusal, Width};
use Refusal::{BadPool, BadStore, StoreFull};
use Width::{Narrow, Wide};

fn ranges(pool: &Pool, transfer: usize) -> Vec<(u64, u64)> {
    pool.segments(transfer).collect()
}

/// A transfer whose metadata is known.
fn add(pool: &mut Pool, floor: usize, limit: usize) -> usize {
    let transfer = pool.add_transfer(Wide, floor, limit).unwrap();
    pool.metadata(transfer).unwrap();
    transfer
}

/// One hole more: ten octets come, ten behind those that came last.
fn hole(pool: &mut Pool, transfer: usize) -> Result<Data, Refusal> {
    pool.data(transfer, pool.progress(transfer).unwrap() + 10, 10)
}

// "Up to eight transfers share S range slots, S being the length of their one list in ranges, at most 4,096 (above that, 10)." "Transfer i
// has a floor and a limit, floor at most limit, floors summing to at most S; bad settings or an unknown transfer are refusal 23, first."
#[test]
fn settings() {
    let mut long = vec![0; 2 * 4097];
    assert_eq!(Pool::new(&mut long).err(), Some(BadStore));
    assert!(Pool::new(&mut long[..2 * 4096]).is_ok());
    assert_eq!(Pool::new(&mut [0; 5]).err(), Some(BadStore));

    let mut list = [0; 12];
    let mut pool = Pool::new(&mut list).unwrap();
    // No transfer yet: each is unknown.
    assert_eq!((pool.transfers(), pool.metadata(0), pool.missing_octets(0)), (0, Err(BadPool), Err(BadPool)));
    assert_eq!(pool.add_transfer(Wide, 3, 2), Err(BadPool));
    assert_eq!(pool.add_transfer(Wide, 7, 7), Err(BadPool));
    assert_eq!(pool.add_transfer(Wide, usize::MAX, usize::MAX), Err(BadPool));
    assert_eq!(pool.add_transfer(Wide, 4, usize::MAX), Ok(0));
    assert_eq!(pool.add_transfer(Wide, 3, 3), Err(BadPool));
    // The floors would sum to 2 modulo 2^64.
    assert_eq!(pool.add_transfer(Wide, usize::MAX - 1, usize::MAX), Err(BadPool));
    assert_eq!(pool.add_transfer(Narrow, 2, 2), Ok(1));
    assert_eq!((pool.settings(0), pool.settings(1), pool.settings(2)), (Some((4, usize::MAX)), Some((2, 2)), None));
    for transfer in 2..8 {
        assert_eq!(pool.add_transfer(Wide, 0, 6), Ok(transfer));
    }
    assert_eq!((pool.add_transfer(Wide, 0, 0), pool.transfers()), (Err(BadPool), 8));
    assert_eq!((BadPool.number(), Refusal::of(23, 0, 0)), (23, Some(BadPool)));

    // 23 comes first: before what else is wrong with the call.
    for unknown in [8, 9, usize::MAX] {
        assert_eq!(pool.data(unknown, 0, 0), Err(BadPool));
        assert_eq!(pool.data(unknown, u64::MAX, u64::MAX), Err(BadPool));
        assert_eq!((pool.metadata(unknown), pool.eof(unknown, 1)), (Err(BadPool), Err(BadPool)));
        assert_eq!((pool.held(unknown, 7, 5), pool.missing_octets(unknown)), (Err(BadPool), Err(BadPool)));
        assert_eq!((ranges(&pool, unknown), pool.progress(unknown), pool.size(unknown)), (vec![], None, None));
        assert_eq!((pool.is_metadata_missing(unknown), pool.settings(unknown)), (None, None));
    }
    // Each of the eight is fresh.
    for transfer in 0..8 {
        assert_eq!((pool.progress(transfer), pool.size(transfer), pool.is_metadata_missing(transfer)), (Some(0), None, Some(true)));
        assert_eq!((ranges(&pool, transfer), pool.missing_octets(transfer)), (vec![], Ok(0)));
    }
}

// "With m ranges held, an event that would make it m + 1 is refused StoreFull exactly if m + 1 passes the limit, or if m is at or above the
// floor and the sum over all transfers of the larger of held and floor is S." S is 6. Of floors 1 and 2 the first can hold 4: then the sum
// is 4 + 2.
#[test]
fn two_sounders() {
    let mut list = [0; 12];
    let mut pool = Pool::new(&mut list).unwrap();
    let (a, b) = (add(&mut pool, 1, 6), add(&mut pool, 2, 3));
    for _ in 0..4 {
        assert_eq!(hole(&mut pool, a), Ok(Data::Kept));
    }
    assert_eq!(hole(&mut pool, a), Err(StoreFull));
    // "Whatever the others do, a transfer below its floor is never refused for room"
    assert_eq!((hole(&mut pool, b), hole(&mut pool, b), hole(&mut pool, b)), (Ok(Data::Kept), Ok(Data::Kept), Err(StoreFull)));
    assert_eq!(ranges(&pool, a), [(0, 10), (20, 30), (40, 50), (60, 70)]);
    assert_eq!(ranges(&pool, b), [(0, 10), (20, 30)]);
    // An event that keeps or lowers the number is not refused: data at progress, a part of a hole, a hole.
    assert_eq!((pool.data(a, 80, 5), pool.data(a, 20, 4), pool.data(b, 40, 10)), (Ok(Data::Kept), Ok(Data::Kept), Ok(Data::Kept)));
    // One that would split a hole is.
    assert_eq!((pool.data(a, 26, 1), pool.data(b, 3, 3)), (Err(StoreFull), Err(StoreFull)));
    assert_eq!(pool.data(a, 24, 6), Ok(Data::Kept));
    // "so freed slots serve any": the sum is 3 + 2.
    assert_eq!(hole(&mut pool, b), Ok(Data::Kept));
    assert_eq!(ranges(&pool, a), [(0, 10), (40, 50), (60, 70)]);
    assert_eq!(ranges(&pool, b), [(0, 10), (20, 30), (50, 60)]);
    assert_eq!(hole(&mut pool, a), Err(StoreFull));
    // "and none passes its limit": b's is 3, and there is room.
    assert_eq!((pool.data(a, 0, 10), pool.data(a, 40, 10)), (Ok(Data::Kept), Ok(Data::Kept)));
    assert_eq!(hole(&mut pool, b), Err(StoreFull));
    // "The pool's list holds the transfers' ranges back to back in order"; slots that were given up are (0, 0).
    assert_eq!(list, [60, 70, 0, 10, 20, 30, 50, 60, 0, 0, 0, 0]);
}

// The same rule for the end of file, and while metadata is missing: one range then, from 0 up to progress.
#[test]
fn ends_and_waiting() {
    let mut list = [0; 4];
    let mut pool = Pool::new(&mut list).unwrap();
    let (a, b) = (add(&mut pool, 0, 2), pool.add_transfer(Wide, 1, 1).unwrap());
    let c = pool.add_transfer(Wide, 0, 2).unwrap();
    // b's floor is kept free: a has one slot, and c none then.
    assert_eq!((hole(&mut pool, a), hole(&mut pool, a)), (Ok(Data::Kept), Err(StoreFull)));
    assert_eq!((pool.data(c, 0, 10), pool.eof(c, 10), pool.eof(a, 100)), (Err(StoreFull), Err(StoreFull), Err(StoreFull)));
    // An empty file misses nothing, and neither does a's if it ends at progress.
    assert_eq!((pool.eof(c, 0), pool.eof(a, 20), pool.size(a), pool.size(c)), (Ok(()), Ok(()), Some(20), Some(0)));
    assert_eq!(
        (pool.data(b, 5, 10), pool.data(b, 100, 10), ranges(&pool, b)),
        (Ok(Data::Noticed), Ok(Data::Noticed), vec![(0, 110)])
    );
    assert_eq!((pool.eof(b, 200), pool.missing_octets(b), pool.held(b, 5, 15)), (Ok(()), Ok(200), Ok(false)));
    assert_eq!((pool.metadata(b), pool.metadata(b)), (Ok(()), Err(Refusal::AlreadyKnown)));
    // b is at its limit: a part in the middle would make two of one.
    assert_eq!((pool.data(b, 50, 50), pool.data(b, 0, 50), pool.held(b, 0, 50)), (Err(StoreFull), Ok(Data::Kept), Ok(true)));
    assert_eq!((pool.data(b, 200, 1), pool.eof(b, 199)), (Err(Refusal::FileSizeError), Err(Refusal::FileSizeError)));
    assert_eq!(list, [0, 10, 50, 200]);
}

// "held above limit, or that sum above S, is 10": a floor that the others have taken cannot be promised any more.
#[test]
fn a_late_transfer() {
    let mut list = [0; 6];
    let mut pool = Pool::new(&mut list).unwrap();
    let a = add(&mut pool, 0, 3);
    assert_eq!((hole(&mut pool, a), hole(&mut pool, a)), (Ok(Data::Kept), Ok(Data::Kept)));
    assert_eq!((pool.add_transfer(Wide, 2, 2), pool.transfers()), (Err(BadStore), 1));
    let b = add(&mut pool, 1, 1);
    assert_eq!((hole(&mut pool, a), hole(&mut pool, b)), (Err(StoreFull), Ok(Data::Kept)));
}

// Each transfer has its own width.
#[test]
fn widths() {
    let mut list = [0; 8];
    let mut pool = Pool::new(&mut list).unwrap();
    let (narrow, wide) = (pool.add_transfer(Narrow, 1, 2).unwrap(), pool.add_transfer(Wide, 1, 2).unwrap());
    let end = 1 << 32;
    assert_eq!(
        (pool.data(narrow, end - 1, 1), pool.data(wide, end - 1, 1)),
        (Err(Refusal::LargeFileSegmentNotSupported), Ok(Data::Noticed))
    );
    assert_eq!((pool.eof(narrow, end), pool.eof(wide, end)), (Err(Refusal::LargeFileSegmentNotSupported), Ok(())));
    assert_eq!((pool.data(narrow, end - 2, 1), pool.missing_octets(narrow)), (Ok(Data::Noticed), Ok(end - 1)));
    assert_eq!(pool.data(wide, u64::MAX, 1), Err(Refusal::RangeTooLong));
}

/// What a transfer is by the request's words: octet by octet, what was kept.
#[derive(Clone)]
struct Model {
    kept: Vec<bool>,
    size: Option<usize>,
    floor: usize,
    limit: usize,
}

impl Model {
    /// The maximal runs of what was not kept.
    fn ranges(&self) -> Vec<(u64, u64)> {
        let mut runs: Vec<(u64, u64)> = vec![];
        for x in (0..self.kept.len()).filter(|x| !self.kept[*x]) {
            match runs.last_mut() {
                Some((_, end)) if *end == x as u64 => *end += 1,
                _ => runs.push((x as u64, x as u64 + 1)),
            }
        }
        runs
    }

    fn claim(&self) -> usize {
        self.ranges().len().max(self.floor)
    }
}

/// Numbers that look random, the same in every run.
struct Dice(u64);

impl Dice {
    fn below(&mut self, n: usize) -> usize {
        self.0 = self.0.wrapping_mul(6364136223846793005).wrapping_add(1442695040888963407);
        (self.0 >> 33) as usize % n
    }
}

// The sentence on StoreFull again, over many events of up to eight transfers with any settings: after each, the answer, the ranges of
// every transfer, what is held and what is missing are those of the model, and nothing else is refused.
#[test]
fn by_the_words() {
    let mut dice = Dice(21);
    let (mut full, mut kept) = (0, 0);
    for _ in 0..200 {
        let slots = 1 + dice.below(8);
        let mut list = vec![0; 2 * slots];
        let mut pool = Pool::new(&mut list).unwrap();
        let mut models: Vec<Model> = vec![];
        for _ in 0..1 + dice.below(8) {
            let floor = dice.below(3);
            let limit = floor + dice.below(6);
            let fits = models.iter().map(|m| m.floor).sum::<usize>() + floor <= slots;
            let index = pool.add_transfer(if dice.below(2) == 0 { Narrow } else { Wide }, floor, limit);
            assert_eq!(index, if fits { Ok(models.len()) } else { Err(BadPool) });
            if fits {
                pool.metadata(models.len()).unwrap();
                models.push(Model { kept: vec![], size: None, floor, limit });
            }
        }
        if models.is_empty() {
            continue;
        }
        for _ in 0..60 {
            let i = dice.below(models.len());
            let mut next = models[i].clone();
            let known = next.size;
            let answer;
            if dice.below(12) == 0 {
                let size = next.kept.len() + dice.below(4);
                answer = pool.eof(i, size as u64).map(|()| Data::Kept);
                if known.is_none() || known == Some(size) {
                    next.kept.resize(size, false);
                    next.size = Some(size);
                }
                if known.is_some() && known != Some(size) {
                    assert_eq!(answer, Err(Refusal::FileSizeError));
                    continue;
                }
            } else {
                let (offset, length) = (dice.below(40), 1 + dice.below(6));
                let end = offset + length;
                answer = pool.data(i, offset as u64, length as u64);
                if known.is_some_and(|size| end > size) {
                    assert_eq!(answer, Err(Refusal::FileSizeError));
                    continue;
                }
                next.kept.resize(next.kept.len().max(end), false);
                next.kept[offset..end].fill(true);
            }
            let (m, then) = (models[i].ranges().len(), next.ranges().len());
            assert!(then <= m + 1);
            let sum: usize = models.iter().map(Model::claim).sum();
            if then == m + 1 && (m + 1 > models[i].limit || (m >= models[i].floor && sum == slots)) {
                assert_eq!(answer, Err(StoreFull));
                full += 1;
                // "a transfer below its floor is never refused for room"
                assert!(m >= models[i].floor);
            } else {
                assert_eq!(answer, Ok(Data::Kept));
                models[i] = next;
                kept += 1;
            }
            for (k, model) in models.iter().enumerate() {
                assert_eq!((ranges(&pool, k), pool.progress(k)), (model.ranges(), Some(model.kept.len() as u64)));
                assert_eq!(pool.missing_octets(k), Ok(model.kept.iter().filter(|x| !**x).count() as u64));
                // "and none passes its limit"
                assert!(model.ranges().len() <= model.limit);
            }
            let (start, end) = (dice.below(20), 20 + dice.below(30));
            let whole = models[i].kept.len() >= end && models[i].kept[start..end].iter().all(|x| *x);
            assert_eq!(pool.held(i, start as u64, end as u64), Ok(whole));
        }
    }
    // Both happen often.
    assert!(full > 500 && kept > 2000, "{full} {kept}");
}

// "answers to one transfer depend on the others only through that sum": of six slots the others claim three, as one floor or as two
// transfers, one above its floor.
#[test]
fn only_through_the_sum() {
    let (mut one, mut other) = ([0; 12], [7; 12]);
    let (mut x, mut y) = (Pool::new(&mut one).unwrap(), Pool::new(&mut other).unwrap());
    add(&mut x, 3, 6);
    let a = add(&mut x, 0, 6);
    let b = add(&mut y, 0, 6);
    let above = add(&mut y, 1, 2);
    add(&mut y, 1, 1);
    assert_eq!((hole(&mut y, above), hole(&mut y, above)), (Ok(Data::Kept), Ok(Data::Kept)));
    let mut dice = Dice(7);
    let mut full = 0;
    for _ in 0..300 {
        let (offset, length) = (dice.below(60) as u64, 1 + dice.below(4) as u64);
        let answer = x.data(a, offset, length);
        assert_eq!(answer, y.data(b, offset, length));
        assert_eq!((ranges(&x, a), x.missing_octets(a)), (ranges(&y, b), y.missing_octets(b)));
        full += usize::from(answer == Err(StoreFull));
    }
    assert!(full > 10, "{full}");
}

// The NAK PDUs of a transfer ask for its own ranges, in its own scope; the request for metadata is first where that is missing.
#[test]
fn sequences() {
    let identity = Identity { entity_length: 1, number_length: 1, source: 1, number: 7, destination: 2 };
    let mut list = [0; 20];
    let mut pool = Pool::new(&mut list).unwrap();
    let (a, b) = (add(&mut pool, 2, 8), pool.add_transfer(Wide, 2, 8).unwrap());
    for _ in 0..5 {
        hole(&mut pool, a).unwrap();
    }
    pool.data(b, 0, 64).unwrap();
    let asked = |pool: &Pool, transfer: usize| {
        let mut sequence = pool.nak_sequence(transfer, identity, Edition::Newer, 32);
        let (mut all, mut buf) = (vec![], [0; 32]);
        loop {
            let sent = sequence.write(1, &mut buf).unwrap();
            if sent.pdus == 0 {
                return all;
            }
            all.extend(NakReader::read(&buf[..sent.octets], Edition::Newer).unwrap());
        }
    };
    assert_eq!(asked(&pool, a), [(0, 10), (20, 30), (40, 50), (60, 70), (80, 90)]);
    assert_eq!(asked(&pool, b), [(0, 0), (0, 64)]);
    let mut buf = [0; 64];
    assert_eq!(pool.nak_sequence(2, identity, Edition::Newer, 32).write(1, &mut buf), Err(BadPool));
    assert_eq!(pool.nak_sequence(2, Identity { entity_length: 9, ..identity }, Edition::Newer, 0).write(17, &mut []), Err(BadPool));
    assert_eq!(pool.nak_sequence(a, identity, Edition::Newer, 32).at(6).write(1, &mut buf), Err(Refusal::BadCursor));
    // What was asked for comes, of both by turns, and nothing is missing.
    pool.metadata(b).unwrap();
    for transfer in [a, b] {
        for (start, end) in asked(&pool, transfer) {
            pool.data(transfer, start, end - start).unwrap();
        }
    }
    assert_eq!((pool.missing_octets(a), pool.missing_octets(b)), (Ok(0), Ok(0)));
    assert_eq!((pool.held(a, 0, 100), pool.held(b, 0, 64)), (Ok(true), Ok(true)));
    assert_eq!((pool.held(a, 5, 5), pool.held(b, 7, 5)), (Err(Refusal::EmptySegment), Err(Refusal::StartLargerThanEnd(7, 5))));
}
