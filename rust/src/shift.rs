//! The duty report of a shift (document 02, F-1).

use std::cmp::Ordering;
use std::fmt::{self, Debug, Formatter};

use crate::ffi::{self, Summary, FIGURES, KEPT};
use crate::{Disorder, Entry, Error};

/// Pins of a report.
///
/// ```
/// # use board::{Shift, PINS};
/// assert_eq!(Shift::new([0; 4], 0, 1).report()?.pins().len(), PINS);
/// # Ok::<(), board::Error>(())
/// ```
pub const PINS: usize = 128;

/// Entries that are handed on at once.
const PIECE: usize = 256;

/// A shift, from the cycle `from` to the cycle `to`, `to` excluded, whose entries come in pieces: a record may be longer than memory.
///
/// However the record is cut, the report is that of the whole. It takes the entries of a [`Board`](crate::Board) as they come.
///
/// ```
/// use board::{Entry, Shift};
///
/// // Pin 0 is low before its first entry.
/// let mut shift = Shift::new([0; 4], 100, 120);
/// shift.feed(&[Entry::new(0, 1, 90), Entry::new(0, 0, 103)]);
/// shift.feed(&[Entry::new(0, 1, 110), Entry::new(0, 0, 113)]);
/// let report = shift.report()?;
/// let pilot = report.pin(0).unwrap();
/// assert_eq!((pilot.high, pilot.low, pilot.edges), (6, 14, 3));
/// assert_eq!(pilot.duty().unwrap().to_string(), "6/20");
/// assert_eq!(report.high_pins(), 0);
///
/// // An entry before its pin's last one: nothing is reported.
/// shift.feed(&[Entry::new(0, 1, 112)]);
/// assert_eq!(shift.report().unwrap_err().to_string(), "book out of order: entry 4, 0:1@112, is before its pin's last, 113");
/// # Ok::<(), board::Error>(())
/// ```
#[derive(Clone, PartialEq, Eq)]
pub struct Shift {
    kept: Box<[u64; KEPT]>,
    from: u64,
    to: u64,
    order: Box<Order>,
}

/// The library's 10, explained: the order of what was fed, and the first entry that is out of it.
#[derive(Clone, PartialEq, Eq)]
struct Order {
    last: [u64; PINS],
    fed: u64,
    disorder: Option<Disorder>,
}

impl Order {
    fn new() -> Self {
        Self { last: [0; PINS], fed: 0, disorder: None }
    }

    fn take(&mut self, pins: &[u8], levels: &[u8], cycles: &[u64]) {
        for ((&pin, &level), &cycle) in pins.iter().zip(levels).zip(cycles) {
            if self.disorder.is_some() {
                return;
            }
            let last = self.last.get_mut(pin as usize);
            match last {
                Some(last) if level <= 1 && cycle >= *last => *last = cycle,
                last => self.disorder = Some(Disorder { place: self.fed, pin, level, cycle, last: last.map_or(0, |l| *l) }),
            }
            self.fed += 1;
        }
    }
}

impl Debug for Shift {
    fn fmt(&self, f: &mut Formatter) -> fmt::Result {
        f.debug_struct("Shift").field("from", &self.from).field("to", &self.to).field("fed", &self.order.fed).finish_non_exhaustive()
    }
}

impl Shift {
    /// A shift begins. `levels`: every pin's level before the first entry, pin i at bit i mod 32 of word i div 32.
    ///
    /// ```
    /// # use board::Shift;
    /// // Pin 33 is high to begin with.
    /// let report = Shift::new([0, 2, 0, 0], 0, 1000).report()?;
    /// assert_eq!(report.pin(33).unwrap().high, 1000);
    /// # Ok::<(), board::Error>(())
    /// ```
    pub fn new(levels: [u32; 4], from: u64, to: u64) -> Self {
        let mut kept = Box::new([0; KEPT]);
        ffi::begin(&mut kept, &levels, from, to);
        Self { kept, from, to, order: Box::new(Order::new()) }
    }

    /// Entries more, in the order in which they were made. A shift also takes them as a record does:
    /// [`Board::poll_all`](crate::Board::poll_all) and the like can write to it.
    ///
    /// ```
    /// # use board::{Entry, Shift};
    /// let mut shift = Shift::new([0; 4], 0, 10);
    /// shift.feed(&[Entry::new(0, 1, 2)]);
    /// shift.extend([Entry::new(0, 0, 5)]);
    /// assert_eq!(shift.report()?.pin(0).unwrap().high, 3);
    /// # Ok::<(), board::Error>(())
    /// ```
    pub fn feed(&mut self, entries: &[Entry]) {
        self.extend(entries);
    }

    /// The entries of a book more, as many as its shortest slice has.
    ///
    /// ```
    /// # use board::Shift;
    /// let mut shift = Shift::new([0; 4], 0, 10);
    /// shift.feed_book(&[0, 0], &[1, 0], &[2, 5]);
    /// assert_eq!(shift.report()?.pin(0).unwrap().edges, 2);
    /// # Ok::<(), board::Error>(())
    /// ```
    pub fn feed_book(&mut self, pins: &[u8], levels: &[u8], cycles: &[u64]) {
        ffi::feed(&mut self.kept, pins, levels, cycles);
        self.order.take(pins, levels, cycles);
    }

    /// The report of what has been fed. More can be fed, and reported again.
    ///
    /// [`Error::ShiftReversed`] if `to` is below `from`, then [`Error::BookOutOfOrder`], also for an entry outside the shift.
    ///
    /// With the second some cycles of a pin are told twice: from the entry's cycle to that of the pin's entry before it. The record without
    /// that pin's entries reports the other pins; the pin's own, cut at the entry, give a report up to those cycles and one from there on.
    /// docs/DECISIONS.md says more, docs/DIFFERENCES.md which calls lead to it. The entries of a steady pilot's own pin never do.
    ///
    /// ```
    /// # use board::{Error, Shift};
    /// assert_eq!(Shift::new([0; 4], 10, 9).report(), Err(Error::ShiftReversed { from: 10, to: 9 }));
    /// ```
    pub fn report(&self) -> Result<Report, Error> {
        Report::made(self.from, self.to, |figures| ffi::end(&self.kept, figures), || self.order.disorder)
    }
}

impl<'a> Extend<&'a Entry> for Shift {
    fn extend<I: IntoIterator<Item = &'a Entry>>(&mut self, entries: I) {
        self.extend(entries.into_iter().copied());
    }
}

impl Extend<Entry> for Shift {
    fn extend<I: IntoIterator<Item = Entry>>(&mut self, entries: I) {
        let (mut pins, mut levels, mut cycles) = ([0; PIECE], [0; PIECE], [0; PIECE]);
        let mut n = 0;
        for e in entries {
            (pins[n], levels[n], cycles[n]) = (e.pin, e.level, e.cycle);
            n += 1;
            if n == PIECE {
                self.feed_book(&pins, &levels, &cycles);
                n = 0;
            }
        }
        self.feed_book(&pins[..n], &levels[..n], &cycles[..n]);
    }
}

/// The figures of a shift.
///
/// ```
/// use board::{Entry, Shift};
///
/// let mut shift = Shift::new([0; 4], 0, 10);
/// shift.feed(&[Entry::new(3, 1, 4)]);
/// let report = shift.report()?;
/// let busy: Vec<_> = report.pins().filter(|p| p.edges > 0).map(|p| (p.pin, p.high, p.low)).collect();
/// assert_eq!((busy, report.high_pins()), (vec![(3, 6, 4)], 1));
/// # Ok::<(), board::Error>(())
/// ```
#[derive(Clone, Debug, PartialEq, Eq)]
pub struct Report {
    figures: Box<[u64; FIGURES]>,
    high: u32,
}

impl Report {
    /// The report of one book, as [`Shift`] has it in pieces. The book's length is its shortest slice.
    ///
    /// ```
    /// # use board::Report;
    /// let report = Report::of_book([0; 4], 0, 10, &[0, 0], &[1, 0], &[2, 5])?;
    /// assert_eq!(report.pin(0).unwrap().high, 3);
    /// # Ok::<(), board::Error>(())
    /// ```
    pub fn of_book(levels_before: [u32; 4], from: u64, to: u64, pins: &[u8], levels: &[u8], cycles: &[u64]) -> Result<Self, Error> {
        let disorder = || {
            let mut order = Order::new();
            order.take(pins, levels, cycles);
            order.disorder
        };
        Self::made(from, to, |figures| ffi::report(figures, &levels_before, from, to, pins, levels, cycles), disorder)
    }

    fn made(from: u64, to: u64, fill: impl FnOnce(&mut [u64; FIGURES]) -> Summary, disorder: impl FnOnce() -> Option<Disorder>) -> Result<Self, Error> {
        let mut figures = Box::new([0; FIGURES]);
        let s = fill(&mut figures);
        Err(match s.number {
            0 => return Ok(Self { figures, high: s.high }),
            9 => Error::ShiftReversed { from, to },
            10 => disorder().map_or(Error::Other(10), Error::BookOutOfOrder),
            n => Error::Other(u8::try_from(n).unwrap_or(u8::MAX)),
        })
    }

    /// How many pins are high at the end of the shift: just before `to`, or at `from` if the shift is empty.
    ///
    /// ```
    /// # use board::Shift;
    /// assert_eq!(Shift::new([7, 0, 0, 0], 5, 5).report()?.high_pins(), 3);
    /// # Ok::<(), board::Error>(())
    /// ```
    pub fn high_pins(&self) -> u32 {
        self.high
    }

    /// A pin's figures; `None` above 127.
    ///
    /// ```
    /// # use board::Shift;
    /// let report = Shift::new([1, 0, 0, 0], 0, 9).report()?;
    /// assert_eq!((report.pin(0).map(|p| p.high), report.pin(128)), (Some(9), None));
    /// # Ok::<(), board::Error>(())
    /// ```
    pub fn pin(&self, pin: u8) -> Option<PinReport> {
        let f = self.figures.chunks_exact(3).nth(pin as usize)?;
        Some(PinReport { pin, high: f[0], low: f[1], edges: f[2] })
    }

    /// The figures of the 128 pins, in order.
    ///
    /// ```
    /// # use board::Shift;
    /// let report = Shift::new([3, 0, 0, 0], 0, 9).report()?;
    /// assert_eq!(report.pins().map(|p| p.high).sum::<u64>(), 18);
    /// # Ok::<(), board::Error>(())
    /// ```
    pub fn pins(&self) -> impl ExactSizeIterator<Item = PinReport> + '_ {
        self.figures.chunks_exact(3).enumerate().map(|(pin, f)| PinReport { pin: pin as u8, high: f[0], low: f[1], edges: f[2] })
    }
}

/// A pin's figures. `high` + `low` is the shift's length.
///
/// ```
/// use board::{Duty, PinReport};
///
/// let pilot = PinReport { pin: 0, high: 288_000, low: 672_000, edges: 119 };
/// assert_eq!(pilot.duty(), Duty::percent(30));
/// ```
#[derive(Clone, Copy, Debug, PartialEq, Eq, Hash)]
pub struct PinReport {
    /// The pin.
    pub pin: u8,
    /// High cycles.
    pub high: u64,
    /// Low cycles.
    pub low: u64,
    /// Level changes behind `from` and before `to`.
    pub edges: u64,
}

impl PinReport {
    /// The duty; `None` in an empty shift.
    ///
    /// ```
    /// # use board::Shift;
    /// assert_eq!(Shift::new([0; 4], 5, 5).report()?.pin(0).unwrap().duty(), None);
    /// # Ok::<(), board::Error>(())
    /// ```
    pub fn duty(&self) -> Option<Duty> {
        (self.high != 0 || self.low != 0).then_some(Duty { high: self.high, low: self.low })
    }
}

/// A duty as an exact fraction, high / (high + low). Two are compared by their values: 1 of 2 is 2 of 4.
///
/// ```
/// use board::Duty;
///
/// assert_eq!(Duty::percent(30), Duty::of(300, 1000));
/// assert!(Duty::of(1, 3) > Duty::percent(33));
/// ```
#[derive(Clone, Copy, Debug)]
pub struct Duty {
    high: u64,
    low: u64,
}

impl Duty {
    /// The duty of so many high and low cycles; `None` for none at all.
    ///
    /// ```
    /// # use board::Duty;
    /// assert_eq!((Duty::new(3, 7), Duty::new(0, 0)), (Duty::percent(30), None));
    /// ```
    pub fn new(high: u64, low: u64) -> Option<Self> {
        (high != 0 || low != 0).then_some(Self { high, low })
    }

    /// So many parts of a whole; `None` of nothing, and above the whole.
    ///
    /// ```
    /// # use board::Duty;
    /// assert_eq!((Duty::of(267, 1000).unwrap().to_f64(), Duty::of(2, 1), Duty::of(0, 0)), (0.267, None, None));
    /// ```
    pub fn of(parts: u64, whole: u64) -> Option<Self> {
        Self::new(parts, whole.checked_sub(parts)?)
    }

    /// So many percent, 0 to 100; `None` above.
    ///
    /// ```
    /// # use board::Duty;
    /// assert_eq!((Duty::percent(50), Duty::percent(101)), (Duty::new(1, 1), None));
    /// ```
    pub fn percent(percent: u32) -> Option<Self> {
        Self::of(percent as u64, 100)
    }

    /// High cycles.
    ///
    /// ```
    /// # use board::Duty;
    /// assert_eq!(Duty::new(3, 7).unwrap().high(), 3);
    /// ```
    pub fn high(self) -> u64 {
        self.high
    }

    /// Low cycles.
    ///
    /// ```
    /// # use board::Duty;
    /// assert_eq!(Duty::new(3, 7).unwrap().low(), 7);
    /// ```
    pub fn low(self) -> u64 {
        self.low
    }

    /// All cycles.
    ///
    /// ```
    /// # use board::Duty;
    /// assert_eq!(Duty::new(3, 7).unwrap().cycles(), 10);
    /// ```
    pub fn cycles(self) -> u128 {
        self.high as u128 + self.low as u128
    }

    /// The nearest float, for a screen.
    ///
    /// ```
    /// # use board::Duty;
    /// assert_eq!(Duty::new(3, 7).unwrap().to_f64(), 0.3);
    /// ```
    pub fn to_f64(self) -> f64 {
        self.high as f64 / self.cycles() as f64
    }
}

// a / (a + b) and c / (c + d) are in the order of a d and c b.
impl Ord for Duty {
    fn cmp(&self, other: &Self) -> Ordering {
        (self.high as u128 * other.low as u128).cmp(&(other.high as u128 * self.low as u128))
    }
}

impl PartialOrd for Duty {
    fn partial_cmp(&self, other: &Self) -> Option<Ordering> {
        Some(self.cmp(other))
    }
}

impl PartialEq for Duty {
    fn eq(&self, other: &Self) -> bool {
        self.cmp(other).is_eq()
    }
}

impl Eq for Duty {}

/// `HIGH/CYCLES`
impl fmt::Display for Duty {
    fn fmt(&self, f: &mut Formatter) -> fmt::Result {
        write!(f, "{}/{}", self.high, self.cycles())
    }
}
