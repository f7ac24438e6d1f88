// Answers console scripts from the Rust's own calls. A line that lies outside the domain that
// document 01 names for the comparison is answered `outside` and changes nothing.
use spacepackets::cfdp::LargeFileFlag;
use std::io::{Read, Write};
use store::lost_segments::*;

const MEMORY: usize = 8200;
const NARROW: u64 = u32::MAX as u64;

// The trait of the crate, in a form that can be boxed.
trait Store {
    fn add(&mut self, s: u64, e: u64) -> Result<(), LostSegmentError>;
    fn remove(&mut self, a: u64, b: u64) -> Result<bool, LostSegmentError>;
    fn coalesce(&mut self) -> Result<(), LostSegmentError>;
    fn within(&self, a: u64, b: u64) -> bool;
    fn octets(&self, buf: &mut [u8], flag: LargeFileFlag) -> Result<usize, LostSegmentWriteError>;
    fn list(&self) -> Vec<(u64, u64)>;
}

impl<S: LostSegmentStore> Store for S {
    fn add(&mut self, s: u64, e: u64) -> Result<(), LostSegmentError> {
        self.add_lost_segment((s, e))
    }
    fn remove(&mut self, a: u64, b: u64) -> Result<bool, LostSegmentError> {
        self.remove_lost_segment((a, b))
    }
    fn coalesce(&mut self) -> Result<(), LostSegmentError> {
        self.coalesce_lost_segments()
    }
    fn within(&self, a: u64, b: u64) -> bool {
        self.segment_in_store((a, b))
    }
    fn octets(&self, buf: &mut [u8], flag: LargeFileFlag) -> Result<usize, LostSegmentWriteError> {
        self.write_segments_to_bytes(buf, flag)
    }
    fn list(&self) -> Vec<(u64, u64)> {
        self.iter().collect()
    }
}

// The fixed lists exist for these capacities alone.
macro_rules! fixed {
    ($n:expr, $t:ty) => {
        fixed!($n, $t, 0 1 2 3 4 5 6 7 8 9 10 11 12 13 14 15 16 17 18 19 20 24 31 32 33 64 100 128
            256 512 1000 1024 2048 4095 4096)
    };
    ($n:expr, $t:ty, $($k:literal)*) => {
        match $n {
            $($k => Some(Box::new(LostSegmentsListHeapless::<$k, $t>::new()) as Box<dyn Store>),)*
            _ => None,
        }
    };
}

fn has_fixed(n: usize) -> bool {
    fixed!(n, u64).is_some()
}

// The fixed lists with room for an append: of a list of up to 4,096 ranges too.
macro_rules! roomy {
    ($count:expr, $t:ty) => {
        match $count {
            0..=8 => Box::new(LostSegmentsListHeapless::<9, $t>::new()) as Box<dyn Store>,
            9..=64 => Box::new(LostSegmentsListHeapless::<65, $t>::new()),
            _ => Box::new(LostSegmentsListHeapless::<4097, $t>::new()),
        }
    };
}

struct Console {
    memory: Vec<u64>,
    length: usize,
    count: u64,
    narrow: bool,
    progress: u64,
    missing: bool,
    // None where it is not known.
    size: Option<u64>,
    // Set by a command that this driver cannot follow, until the next `new`.
    adrift: bool,
    // The Rust's stores that hold the list now: none until a call needs them.
    live: Vec<Box<dyn Store>>,
}

fn number(word: &str) -> Option<u64> {
    if word.is_empty() || word.len() > 20 || !word.bytes().all(|b| b.is_ascii_digit()) {
        return None;
    }
    word.parse().ok()
}

fn up_to(word: &str, most: usize) -> Option<usize> {
    number(word).filter(|&n| n <= most as u64).map(|n| n as usize)
}

fn refused(error: LostSegmentError) -> String {
    match error {
        LostSegmentError::StoreFull => "refused 1".into(),
        LostSegmentError::EmptySegment => "refused 2".into(),
        LostSegmentError::StartLargerThanEnd(s, e) => format!("refused 3 {s} {e}"),
        LostSegmentError::LargeFileSegmentNotSupported => "refused 4".into(),
        LostSegmentError::InvalidSegmentBoundary(s, e) => format!("refused 5 {s} {e}"),
        other => format!("{other:?}"),
    }
}

fn write_refused(error: LostSegmentWriteError) -> String {
    match error {
        LostSegmentWriteError::BufferSizeMissmatch { expected, actual } => {
            format!("refused 6 {expected} {actual}")
        }
        LostSegmentWriteError::LargeSegmentForNormalFileSize => "refused 7".into(),
        other => format!("{other:?}"),
    }
}

// The answer of all stores, which must be one.
fn agreed(answers: Vec<String>) -> String {
    if answers.windows(2).any(|w| w[0] != w[1]) {
        return format!("the Rust's stores part: {answers:?}");
    }
    answers.into_iter().next().unwrap()
}

impl Console {
    fn new() -> Self {
        let mut console = Console {
            memory: Vec::new(),
            length: 0,
            count: 0,
            narrow: false,
            progress: 0,
            missing: true,
            size: None,
            adrift: false,
            live: Vec::new(),
        };
        console.begin(false, 4096);
        console
    }

    fn begin(&mut self, narrow: bool, ranges: usize) {
        self.memory = vec![0; MEMORY];
        (self.length, self.count, self.narrow) = (2 * ranges, 0, narrow);
        (self.progress, self.missing, self.size, self.adrift) = (0, true, None, false);
        self.live.clear();
    }

    // Brings the stores to the list that lies in memory; None where the Rust has no such store.
    fn wake(&mut self) -> Option<()> {
        if self.adrift {
            return None;
        }
        if !self.live.is_empty() {
            return Some(());
        }
        let capacity = self.length / 2;
        if self.length % 2 != 0 || capacity > 4096 || self.count > capacity as u64 {
            return None;
        }
        let flat = &self.memory[..2 * self.count as usize];
        if self.narrow {
            if flat.iter().any(|&n| n > NARROW) || !has_fixed(capacity) {
                return None;
            }
            let pairs: Vec<_> = flat.chunks(2).map(|p| (p[0] as u32, p[1] as u32)).collect();
            seed::plant(&pairs);
            self.live.extend(fixed!(capacity, u32));
        } else {
            let pairs: Vec<_> = flat.chunks(2).map(|p| (p[0], p[1])).collect();
            seed::plant(&pairs);
            self.live.push(Box::new(LostSegmentsList::new(Some(capacity))));
            if has_fixed(capacity) {
                seed::plant(&pairs);
                self.live.extend(fixed!(capacity, u64));
            }
        }
        Some(())
    }

    // Stores of the list that lies in memory, each with room for one range more than it has.
    fn with_room(&self) -> Vec<Box<dyn Store>> {
        let count = self.count as usize;
        let flat = &self.memory[..2 * count];
        if self.narrow {
            let pairs: Vec<_> = flat.chunks(2).map(|p| (p[0] as u32, p[1] as u32)).collect();
            seed::plant(&pairs);
            return vec![roomy!(count, u32)];
        }
        let pairs: Vec<_> = flat.chunks(2).map(|p| (p[0], p[1])).collect();
        seed::plant(&pairs);
        let growing = Box::new(LostSegmentsList::new(Some(count + 1)));
        seed::plant(&pairs);
        vec![growing, roomy!(count, u64)]
    }

    // Document 02's insert (C-19), which the Rust has not: its add, then its coalesce, on stores with room. Refused as
    // by add; 1 where the list is then longer than the capacity. Outside: a list that is not coalesced.
    fn insert(&mut self, s: u64, e: u64) -> Option<String> {
        let ascending = self.coalesced();
        let mut stores = self.with_room();
        let added = stores.iter_mut().map(|store| store.add(s, e).map_or_else(refused, |_| "added".into()));
        let answer = agreed(added.collect());
        if answer != "added" {
            return Some(answer);
        }
        if !ascending {
            return None;
        }
        for store in &mut stores {
            store.coalesce().expect("coalesce refuses nothing");
        }
        let list = stores[0].list();
        if stores.iter().any(|store| store.list() != list) {
            return Some("the Rust's stores part: lists".into());
        }
        if list.len() > self.length / 2 {
            return Some("refused 1".into());
        }
        self.put(&list);
        self.live.clear();
        Some(format!("inserted {}", list.len()))
    }

    // Puts a list into memory; slots that it gave up hold 0, as document 01 says.
    fn put(&mut self, list: &[(u64, u64)]) {
        let before = 2 * self.count as usize;
        self.count = list.len() as u64;
        for (i, (s, e)) in list.iter().enumerate() {
            self.memory[2 * i] = *s;
            self.memory[2 * i + 1] = *e;
        }
        for at in 2 * list.len()..before {
            self.memory[at] = 0;
        }
    }

    fn keep(&mut self) {
        let list = self.live[0].list();
        self.put(&list);
    }

    fn same_lists(&self) -> bool {
        self.live.iter().all(|store| store.list() == self.live[0].list())
    }

    fn coalesced(&self) -> bool {
        let list = self.live[0].list();
        list.iter().all(|(s, e)| s < e) && list.windows(2).all(|w| w[0].1 < w[1].0)
    }

    fn change<F: Fn(&mut dyn Store) -> String>(&mut self, call: F) -> Option<String> {
        let answer = agreed(self.live.iter_mut().map(|store| call(store.as_mut())).collect());
        if !self.same_lists() {
            return Some("the Rust's stores part: lists".into());
        }
        self.keep();
        Some(answer)
    }

    fn answer(&mut self, words: &[&str]) -> Option<String> {
        match words {
            ["new", width, ranges] | ["new", "pairs", width, ranges] => {
                let narrow = match *width {
                    "wide" => false,
                    "narrow" => true,
                    _ => return None,
                };
                self.begin(narrow, up_to(ranges, 4096)?);
                Some("ok".into())
            }
            ["lend", length] => {
                self.length = up_to(length, MEMORY)?;
                self.live.clear();
                Some("ok".into())
            }
            ["load", progress, mark, count, size] => {
                let (progress, count) = (number(progress)?, number(count)?);
                let missing = match *mark {
                    "known" => false,
                    "missing" => true,
                    _ => return None,
                };
                let size = match *size {
                    "open" => None,
                    other => Some(number(other)?),
                };
                (self.progress, self.missing, self.count, self.size) = (progress, missing, count, size);
                self.live.clear();
                Some("ok".into())
            }
            ["poke", at, rest @ ..] => {
                let at = up_to(at, MEMORY)?;
                let values = rest.iter().map(|w| number(w)).collect::<Option<Vec<_>>>()?;
                self.memory.get_mut(at..at + values.len())?.copy_from_slice(&values);
                self.live.clear();
                Some("ok".into())
            }
            ["show"] => {
                self.wake()?;
                let list = self.live[0].list();
                let mut text = format!(
                    "{} {} {} {} {} {}",
                    if self.narrow { "narrow" } else { "wide" },
                    self.length,
                    list.len(),
                    self.progress,
                    if self.missing { "missing" } else { "known" },
                    self.size.map_or("open".into(), |size| size.to_string())
                );
                for (s, e) in list {
                    text += &format!(" {s} {e}");
                }
                Some(text)
            }
            // Slots past the count are the port's, not the Rust's.
            ["slots", n] => {
                let n = up_to(n, MEMORY)?;
                self.wake()?;
                let list = self.live[0].list();
                let flat: Vec<u64> = list.iter().flat_map(|&(s, e)| [s, e]).collect();
                let mut text = String::from("slots");
                for value in flat.get(..n)? {
                    text += &format!(" {value}");
                }
                Some(text)
            }
            ["add", s, e] => {
                let (s, e) = (number(s)?, number(e)?);
                self.wake()?;
                self.change(|store| match store.add(s, e) {
                    Ok(()) => format!("added {}", store.list().len()),
                    Err(error) => refused(error),
                })
            }
            ["insert", s, e] => {
                let (s, e) = (number(s)?, number(e)?);
                self.wake()?;
                self.insert(s, e)
            }
            ["remove", a, b] => {
                let (a, b) = (number(a)?, number(b)?);
                self.wake()?;
                if !self.coalesced() {
                    return None;
                }
                self.change(|store| match store.remove(a, b) {
                    Ok(yes) => format!("removed {yes} {}", store.list().len()),
                    Err(error) => refused(error),
                })
            }
            ["coalesce"] => {
                self.wake()?;
                self.change(|store| match store.coalesce() {
                    Ok(()) => format!("coalesced {}", store.list().len()),
                    Err(error) => refused(error),
                })
            }
            ["within", a, b] => {
                let (a, b) = (number(a)?, number(b)?);
                self.wake()?;
                self.change(|store| if store.within(a, b) { "yes".into() } else { "no".into() })
            }
            ["octets", flag, length] => {
                let flag = match *flag {
                    "normal" => LargeFileFlag::Normal,
                    "large" => LargeFileFlag::Large,
                    _ => return None,
                };
                let length = up_to(length, 66000)?;
                self.wake()?;
                self.change(|store| {
                    let mut buf = vec![0x5a; length];
                    match store.octets(&mut buf, flag) {
                        Ok(written) => {
                            let hex: String = buf[..written].iter().map(|b| format!("{b:02x}")).collect();
                            format!("octets {hex}")
                        }
                        Err(error) => write_refused(error),
                    }
                })
            }
            ["data" | "metadata" | "eof", ..] => {
                self.adrift = true;
                self.live.clear();
                None
            }
            _ => None,
        }
    }
}

fn main() {
    let mut script = Vec::new();
    match std::env::args().nth(1) {
        Some(path) => script = std::fs::read(path).expect("script"),
        None => {
            std::io::stdin().read_to_end(&mut script).expect("standard input");
        }
    }
    let mut out = std::io::BufWriter::new(std::io::stdout().lock());
    let mut console = Console::new();
    let mut pieces: Vec<&[u8]> = script.split(|&b| b == b'\n').collect();
    if pieces.last().is_some_and(|p| p.is_empty()) {
        pieces.pop();
    }
    for line in pieces {
        if line.len() > 65535 {
            writeln!(out, "outside").unwrap();
            continue;
        }
        let text = String::from_utf8_lossy(line);
        let words: Vec<&str> = text.split(' ').filter(|w| !w.is_empty()).collect();
        if words.is_empty() || text.starts_with('#') {
            continue;
        }
        let answer = console.answer(&words).unwrap_or_else(|| "outside".into());
        writeln!(out, "{answer}").unwrap();
    }
}
