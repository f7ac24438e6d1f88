// Holds the Rust against sets of offsets, kept as the bits of a number, on every case of small size:
//   exhaustive [BITS]
// remove: every coalesced list of the offsets below BITS (14), every pair up to one past them, full
// and with room for one more; add and then coalesce (document 02's insert), with room: the same
// lists, every range up to one past them; coalesce and segment_in_store: every list of up to four pairs of the
// numbers 0 to 4; each near 0, across 2^32 and below 2^64 (narrow: near 0 and below 2^32), on the
// growing list and the two fixed ones.
use store::lost_segments::*;

type Pairs = Vec<(u64, u64)>;

// The maximal runs of a set.
fn runs(set: u64) -> Pairs {
    let mut out = Pairs::new();
    for i in 0..63 {
        let here = set >> i & 1 == 1;
        let before = i > 0 && set >> (i - 1) & 1 == 1;
        if here && !before {
            out.push((i, i));
        }
        if here {
            out.last_mut().unwrap().1 = i + 1;
        }
    }
    out
}

// The offsets from a up to b.
fn span(a: u64, b: u64) -> u64 {
    (a..b).map(|i| 1 << i).sum()
}

fn moved(pairs: &[(u64, u64)], base: u64) -> Pairs {
    pairs.iter().map(|&(s, e)| (s + base, e + base)).collect()
}

#[derive(PartialEq, Debug)]
enum Said {
    True,
    False,
    No(LostSegmentError),
}

// What document 01 says of remove on the runs of a set, and the set afterwards.
fn remove(set: u64, capacity: usize, a: u64, b: u64, base: u64) -> (Said, u64) {
    if a == b {
        return (Said::No(LostSegmentError::EmptySegment), set);
    }
    if a > b {
        return (Said::No(LostSegmentError::StartLargerThanEnd(a + base, b + base)), set);
    }
    let asked = span(a, b);
    if asked & set == 0 {
        return (Said::False, set);
    }
    if asked & set != asked {
        return (Said::No(LostSegmentError::InvalidSegmentBoundary(a + base, b + base)), set);
    }
    if runs(set & !asked).len() > capacity {
        return (Said::No(LostSegmentError::StoreFull), set);
    }
    (Said::True, set & !asked)
}

fn ask_remove(store: &mut impl LostSegmentStore, a: u64, b: u64) -> (Said, Pairs) {
    let said = match store.remove_lost_segment((a, b)) {
        Ok(true) => Said::True,
        Ok(false) => Said::False,
        Err(error) => Said::No(error),
    };
    (said, store.iter().collect())
}

fn wide(pairs: &[(u64, u64)], capacity: usize) -> LostSegmentsList {
    seed::plant(pairs);
    LostSegmentsList::new(Some(capacity))
}

fn fixed<const N: usize>(pairs: &[(u64, u64)]) -> LostSegmentsListHeapless<N, u64> {
    seed::plant(pairs);
    LostSegmentsListHeapless::new()
}

fn narrow<const N: usize>(pairs: &[(u64, u64)]) -> LostSegmentsListHeapless<N, u32> {
    let small: Vec<(u32, u32)> = pairs.iter().map(|&(s, e)| (s as u32, e as u32)).collect();
    seed::plant(&small);
    LostSegmentsListHeapless::new()
}

// Calls $body with the fixed capacity N equal to $n.
macro_rules! with_capacity {
    ($n:expr, $name:ident, $body:expr) => {
        with_capacity!($n, $name, $body, 0 1 2 3 4 5 6 7 8 9 10)
    };
    ($n:expr, $name:ident, $body:expr, $($k:literal)*) => {
        match $n {
            $($k => { const $name: usize = $k; $body })*
            _ => panic!("no such capacity"),
        }
    };
}

fn bases(highest: u64) -> [(u64, bool); 5] {
    let two32 = 1u64 << 32;
    [(0, false), (two32 - highest / 2, false), (u64::MAX - highest, false), (0, true), (two32 - 1 - highest, true)]
}

fn agree<T: PartialEq + std::fmt::Debug>(got: T, want: T, what: impl FnOnce() -> String) {
    if got != want {
        println!("difference: {}\n  the Rust says {got:?}\n  document 01   {want:?}", what());
        std::process::exit(1);
    }
}

fn removes(bits: u64) -> u64 {
    let mut calls = 0;
    for (base, is_narrow) in bases(bits + 1) {
        for set in 0..1u64 << bits {
            let pairs = moved(&runs(set), base);
            for capacity in [pairs.len(), pairs.len() + 1] {
                for a in 0..=bits + 1 {
                    for b in 0..=bits + 1 {
                        let (x, y) = (a + base, b + base);
                        let what = || format!("remove ({x}, {y}) on {pairs:?}, capacity {capacity}, narrow {is_narrow}");
                        let want = || {
                            let (said, left) = remove(set, capacity, a, b, base);
                            (said, moved(&runs(left), base))
                        };
                        if is_narrow {
                            with_capacity!(capacity, N, agree(ask_remove(&mut narrow::<N>(&pairs), x, y), want(), what));
                            calls += 1;
                        } else {
                            agree(ask_remove(&mut wide(&pairs, capacity), x, y), want(), what);
                            with_capacity!(capacity, N, agree(ask_remove(&mut fixed::<N>(&pairs), x, y), want(), what));
                            calls += 2;
                        }
                    }
                }
            }
        }
    }
    calls
}

// Document 02's insert, C-19, is an append with room and then coalesce: the runs of the union.
fn ask_insert(store: &mut impl LostSegmentStore, s: u64, e: u64) -> Pairs {
    store.add_lost_segment((s, e)).unwrap();
    store.coalesce_lost_segments().unwrap();
    store.iter().collect()
}

fn inserts(bits: u64) -> u64 {
    let mut calls = 0;
    for (base, is_narrow) in bases(bits + 1) {
        for set in 0..1u64 << bits {
            let pairs = moved(&runs(set), base);
            let capacity = pairs.len() + 1;
            for a in 0..=bits + 1 {
                for b in a + 1..=bits + 1 {
                    let (x, y) = (a + base, b + base);
                    let what = || format!("add ({x}, {y}) and coalesce on {pairs:?}, narrow {is_narrow}");
                    let want = moved(&runs(set | span(a, b)), base);
                    if is_narrow {
                        with_capacity!(capacity, N, agree(ask_insert(&mut narrow::<N>(&pairs), x, y), want, what));
                        calls += 1;
                    } else {
                        agree(ask_insert(&mut wide(&pairs, capacity), x, y), want.clone(), what);
                        with_capacity!(capacity, N, agree(ask_insert(&mut fixed::<N>(&pairs), x, y), want, what));
                        calls += 2;
                    }
                }
            }
        }
    }
    calls
}

fn ask_coalesce(mut store: impl LostSegmentStore) -> Pairs {
    store.coalesce_lost_segments().unwrap();
    store.iter().collect()
}

fn coalesces() -> u64 {
    const TOP: u64 = 4;
    let mut calls = 0;
    let per = (TOP + 1) * (TOP + 1);
    for n in 0..=4u32 {
        for code in 0..per.pow(n) {
            let mut list = Pairs::new();
            let mut rest = code;
            for _ in 0..n {
                list.push((rest % (TOP + 1), rest / (TOP + 1) % (TOP + 1)));
                rest /= per;
            }
            let union = list.iter().fold(0, |set, &(s, e)| set | span(s, e));
            for (base, is_narrow) in bases(TOP) {
                let pairs = moved(&list, base);
                let want = moved(&runs(union), base);
                let what = || format!("coalesce {pairs:?}");
                if is_narrow {
                    agree(ask_coalesce(narrow::<4>(&pairs)), want, what);
                    calls += 1;
                } else {
                    agree(ask_coalesce(wide(&pairs, 4)), want.clone(), what);
                    agree(ask_coalesce(fixed::<4>(&pairs)), want, what);
                    calls += 2;
                }
                if n > 2 {
                    continue;
                }
                for a in 0..=TOP {
                    for b in 0..=TOP {
                        let want = list.iter().any(|&(s, e)| a >= s && b <= e);
                        let asked = (a + base, b + base);
                        let what = || format!("segment_in_store {asked:?} in {pairs:?}");
                        let got = if is_narrow {
                            narrow::<4>(&pairs).segment_in_store(asked)
                        } else {
                            agree(wide(&pairs, 4).segment_in_store(asked), want, what);
                            fixed::<4>(&pairs).segment_in_store(asked)
                        };
                        agree(got, want, what);
                        calls += if is_narrow { 1 } else { 2 };
                    }
                }
            }
        }
    }
    calls
}

fn main() {
    let bits = std::env::args().nth(1).map_or(14, |word| word.parse().expect("a number"));
    let (removed, inserted, coalesced) = (removes(bits), inserts(bits), coalesces());
    println!(
        "{removed} calls of remove, {inserted} of add and coalesce, {coalesced} of coalesce and segment_in_store: \
        the Rust agrees with sets of offsets"
    );
}
