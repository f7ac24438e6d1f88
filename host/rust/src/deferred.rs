//! The deferred NAK procedure: a timer that says when to ask for what is missing.
use crate::{ffi, Data, Reception, Refusal};

/// What a tick asks of the caller.
#[derive(Clone, Copy, Debug, PartialEq, Eq)]
#[must_use = "at `Ask` a NAK sequence is to be sent, and `Limit` is said once"]
pub enum Tick {
    /// Nothing is to be done.
    Quiet,
    /// One full NAK sequence is to be sent.
    Ask,
    /// The limit is reached. It is said once; the timer is deaf from here on, until a reset.
    Limit,
}

impl Tick {
    /// What a number of the header's `enum pusmarke_ticked` stands for. Refused: another number.
    pub fn of(number: u64) -> Result<Tick, Refusal> {
        match number {
            0 => Ok(Tick::Quiet),
            1 => Ok(Tick::Ask),
            2 => Ok(Tick::Limit),
            other => Err(Refusal::Unknown(other)),
        }
    }
}

/// What a timer is at.
#[derive(Clone, Copy, Debug, PartialEq, Eq)]
pub enum Activity {
    /// The size is not known, or nothing is missing.
    Idle,
    /// The size is known and something is missing: it counts down.
    Active,
    /// The limit was reported: ticks and events pass it by, until a reset.
    Deaf,
}

impl Activity {
    /// What a number of the header's `enum pusmarke_activity` stands for; any other is deaf.
    pub fn of(number: u64) -> Activity {
        match number {
            0 => Activity::Idle,
            1 => Activity::Active,
            _ => Activity::Deaf,
        }
    }
}

/// The timer of the deferred NAK procedure. It reads no clock: the caller makes its ticks. It moves by value, and [`Timed`] keeps it
/// beside its reception, so that it hears of every event.
#[derive(Clone, Copy, Debug, PartialEq, Eq)]
#[must_use = "a timer works beside a reception: see `Reception::with_timer`"]
pub struct Deferred(ffi::Timer);

impl Deferred {
    /// An idle timer: each countdown has `ticks` ticks, 1 to 65,535, and after `limit` asks, 1 to 255, the next is the report.
    /// Refused: 25.
    ///
    /// ```
    /// # use pusmarke::{Deferred, Refusal};
    /// assert_eq!(Deferred::new(0, 3), Err(Refusal::BadTimer));
    /// assert_eq!(Deferred::new(65_535, 256), Err(Refusal::BadTimer));
    /// assert!(Deferred::new(65_535, 255).is_ok());
    /// ```
    pub fn new(ticks: u64, limit: u64) -> Result<Self, Refusal> {
        let heard = unsafe { ffi::pusmarke_deferred(ticks, limit) };
        heard.answer.accepted()?;
        Ok(Deferred(heard.timer))
    }

    /// One tick: the timer afterwards, and what it asks of the caller. While active the last tick of a countdown asks for a sequence,
    /// or, where the counter has reached the limit, reports that. Idle or deaf, a tick passes by.
    #[must_use = "a timer moves by value: the one handed back has ticked, and this one has not"]
    pub fn tick(self) -> (Deferred, Tick) {
        let heard = unsafe { ffi::pusmarke_tick(self.0) };
        // A tick is refused never, and its number is one of three.
        (Deferred(heard.timer), Tick::of(heard.answer.first).unwrap_or(Tick::Quiet))
    }

    /// What it is at.
    pub fn activity(&self) -> Activity {
        Activity::of(self.0.activity)
    }

    /// The ticks that are left of its countdown; 0 unless it is active.
    pub fn left(&self) -> u64 {
        self.0.left
    }

    /// How many times it has asked since it became active, or since an event or a reset restarted it.
    pub fn counter(&self) -> u64 {
        self.0.counter
    }

    /// The ticks of a countdown.
    pub fn ticks(&self) -> u64 {
        self.0.period
    }

    /// The asks after which the next countdown ends in the report.
    pub fn limit(&self) -> u64 {
        self.0.limit
    }
}

/// A reception with its timer: the deferred NAK procedure. Every event goes to both, so the timer cannot miss one; the reception is
/// there to be read, and to be asked for its NAK sequence.
///
/// After each accepted event the timer is active exactly if the size is known and anything is missing, metadata included. Then it asks
/// every so many ticks. Metadata, and data that lowers the number of missing octets, zero its counter and restart its countdown.
///
/// ```
/// # use pusmarke::{Activity, Deferred, Reception, Refusal, Tick, Width};
/// # fn main() -> Result<(), Refusal> {
/// let mut list = [0; 16];
/// // Countdowns of 3 ticks, and 2 asks before the limit is reported.
/// let mut timed = Reception::new(&mut list, Width::Wide)?.with_timer(Deferred::new(3, 2)?);
/// timed.metadata()?;
/// timed.data(0, 100)?;
/// assert_eq!((timed.timer().activity(), timed.tick()), (Activity::Idle, Tick::Quiet));
/// timed.eof(300)?; // 100–300 is missing
/// assert_eq!((timed.timer().activity(), timed.timer().left()), (Activity::Active, 3));
/// let ticks: Vec<Tick> = (0..9).map(|_| timed.tick()).collect();
/// # use Tick::{Ask, Limit, Quiet};
/// assert_eq!(ticks, [Quiet, Quiet, Ask, Quiet, Quiet, Ask, Quiet, Quiet, Limit]);
/// // Deaf: the data is kept, and the timer hears no more of it until a reset.
/// timed.data(100, 50)?;
/// assert_eq!((timed.timer().activity(), timed.reception().missing_octets()), (Activity::Deaf, Ok(150)));
/// timed.reset()?;
/// assert_eq!((timed.timer().activity(), timed.timer().counter()), (Activity::Active, 0));
/// timed.data(150, 150)?;
/// assert_eq!(timed.timer().activity(), Activity::Idle);
/// # Ok(())
/// # }
/// ```
#[derive(Debug)]
pub struct Timed<'a> {
    reception: Reception<'a>,
    timer: Deferred,
}

impl<'a> Timed<'a> {
    /// A reception and the timer that hears of its events from here on. The timer stays as it is: one made after the end of file is
    /// idle until the next accepted event, of which the same end of file again is one, or until a reset.
    pub fn new(reception: Reception<'a>, timer: Deferred) -> Self {
        Timed { reception, timer }
    }

    /// As [`Reception::data`].
    pub fn data(&mut self, offset: u64, length: u64) -> Result<Data, Refusal> {
        let own = &mut self.reception;
        let heard = unsafe {
            ffi::pusmarke_deferred_data(&mut own.record, own.list.as_mut_ptr(), own.list.len(), offset, length, self.timer.0)
        };
        Ok(Data::of(self.hear(heard)?))
    }

    /// As [`Reception::metadata`].
    pub fn metadata(&mut self) -> Result<(), Refusal> {
        let own = &mut self.reception;
        let heard = unsafe { ffi::pusmarke_deferred_metadata(&mut own.record, own.list.as_ptr(), own.list.len(), self.timer.0) };
        self.hear(heard).map(|_| ())
    }

    /// As [`Reception::eof`].
    pub fn eof(&mut self, size: u64) -> Result<(), Refusal> {
        let own = &mut self.reception;
        let heard =
            unsafe { ffi::pusmarke_deferred_eof(&mut own.record, own.list.as_mut_ptr(), own.list.len(), size, self.timer.0) };
        self.hear(heard).map(|_| ())
    }

    /// One tick, as [`Deferred::tick`].
    pub fn tick(&mut self) -> Tick {
        let (timer, tick) = self.timer.tick();
        self.timer = timer;
        tick
    }

    /// A reset, which also a deaf timer hears: the counter is 0, and the countdown starts anew if the size is known and anything is
    /// missing, else the timer is idle. A reception refuses it never.
    pub fn reset(&mut self) -> Result<(), Refusal> {
        let own = &self.reception;
        let heard = unsafe { ffi::pusmarke_reset(self.timer.0, own.record, own.list.as_ptr(), own.list.len()) };
        self.hear(heard).map(|_| ())
    }

    /// The reception, to be read and asked for its NAK sequence.
    pub fn reception(&self) -> &Reception<'a> {
        &self.reception
    }

    /// The timer as it stands.
    pub fn timer(&self) -> Deferred {
        self.timer
    }

    /// Both, apart. Events that the reception takes alone pass the timer by.
    #[must_use = "the timer and the reception are in what is handed back"]
    pub fn into_parts(self) -> (Reception<'a>, Deferred) {
        (self.reception, self.timer)
    }

    /// Takes over the timer that a call hands back, and says the first value of its answer.
    fn hear(&mut self, heard: ffi::Heard) -> Result<u64, Refusal> {
        self.timer = Deferred(heard.timer);
        Ok(heard.answer.accepted()?.first)
    }
}
