//! The board: its calls, one by one, and what many of them together come to.

use std::fmt::{self, Debug, Formatter};

use crate::ffi::{Answer, Book, State};
use crate::time::LAST_CYCLE;
use crate::{ClockField, ClockTree, Drive, Error, Index, Limit, PinConfig, Reason, Reg, Setup, TimerIndex};

/// Enough places for every call but a delivery, which stops and is made again.
const PLACES: usize = 128;

/// Timers that a board can have.
const TIMERS: u32 = 8;

/// Pins that a board can have.
const PINS: u32 = 128;

/// Who holds a pin's level (document 02, F-5).
///
/// ```
/// use board::{Board, Drive, Source};
///
/// let mut board = Board::example_pilot(64);
/// assert_eq!((board.source(0), board.source(6)), (Ok(Source::Chip), Ok(Source::Held)));
/// board.drive_pin(6, Drive::Low, 100)?;
/// assert_eq!(board.source(6), Ok(Source::Outside));
/// # Ok::<(), board::Error>(())
/// ```
#[derive(Clone, Copy, Debug, Default, PartialEq, Eq, Hash)]
pub enum Source {
    /// The chip drives it, also where the outside agrees.
    #[default]
    Chip = 1,
    /// The outside does.
    Outside = 2,
    /// A pull-up or a pull-down does.
    Pull = 3,
    /// Nothing does: nothing is connected, or analogue volts settle neither level. The pin keeps the level that it had. Never in an [`Entry`].
    Held = 4,
}

impl Source {
    /// Of its number. The library gives no other than 1 to 4.
    pub(crate) const fn of(number: u8) -> Self {
        match number {
            1 => Self::Chip,
            2 => Self::Outside,
            3 => Self::Pull,
            _ => Self::Held,
        }
    }
}

/// A pin's level change.
///
/// Make one by [`new`](Self::new): a later version may have more fields.
///
/// ```
/// use board::{Entry, Source};
///
/// let entry = Entry::new(0, 1, 110);
/// assert_eq!((entry.pin, entry.level, entry.cycle, entry.source), (0, 1, 110, Source::Chip));
/// assert_eq!(entry.by(Source::Pull).to_string(), "0:1@110/3");
/// ```
#[derive(Clone, Copy, Debug, Default, PartialEq, Eq, Hash)]
pub struct Entry {
    /// The pin.
    pub pin: u8,
    /// The level it took, 0 or 1.
    pub level: u8,
    /// The cycle it did.
    pub cycle: u64,
    /// Who held the level then.
    pub source: Source,
}

impl Entry {
    /// The chip gave the pin a level at a cycle.
    ///
    /// ```
    /// # use board::{Entry, Source};
    /// assert_eq!(Entry::new(3, 0, 113), Entry { pin: 3, level: 0, cycle: 113, source: Source::Chip });
    /// ```
    pub const fn new(pin: u8, level: u8, cycle: u64) -> Self {
        Self { pin, level, cycle, source: Source::Chip }
    }

    /// The same change, by another source.
    ///
    /// ```
    /// # use board::{Entry, Source};
    /// assert_eq!(Entry::new(3, 0, 113).by(Source::Outside).source, Source::Outside);
    /// ```
    pub const fn by(self, source: Source) -> Self {
        Self { source, ..self }
    }
}

/// As docs/CALLS.md writes it: `PIN:LEVEL@CYCLE/SOURCE`.
impl fmt::Display for Entry {
    fn fmt(&self, f: &mut Formatter) -> fmt::Result {
        write!(f, "{}:{}@{}/{}", self.pin, self.level, self.cycle, self.source as u8)
    }
}

/// What a delivery did.
///
/// ```
/// use board::{Board, Entry, TimerIndex};
///
/// // Four places: a delivery stops, and goes on where it stopped.
/// let (mut board, tim2) = (Board::example_pilot(4), TimerIndex(0));
/// let done = board.deliver(tim2, 110)?;
/// assert_eq!((done.events, done.backlog, done.entries), (1, true, &[Entry::new(0, 0, 103)][..]));
/// let done = board.deliver(tim2, 110)?;
/// assert_eq!((done.events, done.backlog, done.entries), (1, true, &[Entry::new(0, 1, 110)][..]));
/// # Ok::<(), board::Error>(())
/// ```
#[derive(Clone, Copy, Debug, PartialEq, Eq)]
pub struct Delivered<'a> {
    /// Events handled.
    pub events: u64,
    /// An event is still due: the book had under 4 places left, or 100,001 events were handled. Deliver again.
    pub backlog: bool,
    /// The level changes, each at its event's own cycle.
    pub entries: &'a [Entry],
}

impl Delivered<'_> {
    /// [`Error::Backlog`] if an event is still due. The entries stand all the same.
    ///
    /// ```
    /// # use board::{Board, Error, TimerIndex};
    /// assert_eq!(Board::example_pilot(4).deliver(TimerIndex(0), 110)?.complete(), Err(Error::Backlog));
    /// assert_eq!(Board::example_pilot(64).deliver(TimerIndex(0), 110)?.complete(), Ok(()));
    /// # Ok::<(), Error>(())
    /// ```
    pub fn complete(&self) -> Result<(), Error> {
        if self.backlog { Err(Error::Backlog) } else { Ok(()) }
    }
}

/// What a register write did.
///
/// ```
/// use board::{Board, Reg, TimerIndex};
///
/// let (mut board, tim2) = (Board::example(), TimerIndex(0));
/// board.enable(3, 0)?;
/// let written = board.write_reg(tim2, Reg::Arr, 9, 0)?;
/// assert!(written.gated && written.entries.is_empty());
/// # Ok::<(), board::Error>(())
/// ```
#[derive(Clone, Copy, Debug, PartialEq, Eq)]
pub struct Written<'a> {
    /// The clock gate stopped it: the timer's enable bit is clear, and the register is as it was. It was served all the same.
    pub gated: bool,
    /// The level changes.
    pub entries: &'a [Entry],
}

/// An interrupt line.
///
/// ```
/// use board::{Board, Line};
///
/// assert_eq!(Board::example().line(28), Line { high: false, pending: false });
/// ```
#[derive(Clone, Copy, Debug, Default, PartialEq, Eq)]
pub struct Line {
    /// Its level.
    pub high: bool,
    /// Its interrupt is pending.
    pub pending: bool,
}

/// A board with its timers, pins, clock tree, interrupt lines and booked events.
///
/// Methods that can change a pin hand back the changes as entries, which stand until the next such call. A server that keeps them hands a record
/// to [`drain`](Self::drain), [`poll_all`](Self::poll_all) or a [`Pilot`](crate::Pilot) instead: anything that takes entries, as a `Vec` or
/// a [`Shift`](crate::Shift).
///
/// **Deliver what is due before a write.** A write that finds events due and not delivered moves the counter past them, as the published Rust does:
/// no flag, no reload, no edge (docs/DIFFERENCES.md, `lost-update` and `lost-compare`). [`Pilot`](crate::Pilot) sees to it.
///
/// ```
/// use board::{Board, Reg, Setup, TimerIndex};
///
/// let mut board = Board::new(64);
/// board.set_up(&Setup::example())?;
/// board.enable(3, 0b11)?; // TIM2 and TIM3 listen
/// board.write_reg(TimerIndex(0), Reg::Cr1, 1, 0)?;
/// assert_eq!(board.read_reg(TimerIndex(0), Reg::Cnt, 40)?, 40);
/// # Ok::<(), board::Error>(())
/// ```
#[derive(Clone)]
pub struct Board {
    state: State,
    pins: Box<[u8]>,
    levels: Box<[u8]>,
    cycles: Box<[u64]>,
    sources: Box<[u8]>,
    entries: Vec<Entry>,
}

impl Default for Board {
    /// With places for everything but long deliveries.
    fn default() -> Self {
        Self::new(PLACES)
    }
}

impl Debug for Board {
    fn fmt(&self, f: &mut Formatter) -> fmt::Result {
        f.debug_struct("Board").field("places", &self.places()).field("next", &self.next()).finish_non_exhaustive()
    }
}

impl Board {
    /// The first board, with no timers, pins or lines, and a book of `places`.
    ///
    /// A call that can change a pin is refused with under 4 places, a pin reset with fewer than the board has pins. A
    /// delivery handles at least `places` / 4 events of what is due, or 100,001.
    ///
    /// ```
    /// # use board::Board;
    /// let board = Board::new(64);
    /// assert_eq!((board.places(), board.timers().count(), board.pins()), (64, 0, 0));
    /// ```
    pub fn new(places: usize) -> Self {
        Self {
            state: State::new(),
            pins: vec![0; places].into(),
            levels: vec![0; places].into(),
            cycles: vec![0; places].into(),
            sources: vec![0; places].into(),
            entries: Vec::with_capacity(places),
        }
    }

    /// A board to try things on: [`Setup::example`] with its two timers enabled, and 128 places.
    ///
    /// ```
    /// # use board::Board;
    /// assert_eq!(Board::example().timers().count(), 2);
    /// ```
    pub fn example() -> Self {
        Self::exampled(PLACES).expect("within the limits")
    }

    fn exampled(places: usize) -> Result<Self, Error> {
        let mut board = Self::new(places);
        board.set_up(&Setup::example())?;
        board.enable(3, 0b11)?;
        Ok(board)
    }

    /// [`Board::example`] with document 01's bench pilot on pin 0: a period of 10 cycles, high for 3 of them, started at cycle 100.
    ///
    /// # Panics
    ///
    /// With under 4 places.
    ///
    /// ```
    /// # use board::{Board, TimerIndex};
    /// assert_eq!(Board::example_pilot(64).booked(TimerIndex(0)), Ok(Some(103)));
    /// ```
    pub fn example_pilot(places: usize) -> Self {
        let started = || {
            let (mut board, tim2) = (Self::exampled(places)?, TimerIndex(0));
            board.set_pin(0, &PinConfig::alternate(1), 0)?;
            for (reg, value) in [(Reg::Ccmr1, 0x60), (Reg::Ccer, 1), (Reg::Arr, 9), (Reg::Ccr(1), 3)] {
                board.write_reg(tim2, reg, value, 0)?;
            }
            board.write_reg(tim2, Reg::Cr1, 1, 100)?;
            Ok::<_, Error>(board)
        };
        started().expect("at least 4 places")
    }

    /// The places of the book.
    ///
    /// ```
    /// # use board::Board;
    /// assert_eq!(Board::default().places(), 128);
    /// ```
    pub fn places(&self) -> usize {
        self.cycles.len()
    }

    /// The state as the library keeps it.
    ///
    /// ```
    /// # use board::Board;
    /// assert!(Board::new(4).state().same(Board::new(64).state()));
    /// ```
    pub fn state(&self) -> &State {
        &self.state
    }

    pub(crate) fn set_state(&mut self, state: State) {
        self.state = state;
    }

    /// The board's timers. A loop over them keeps no hold on the board.
    ///
    /// ```
    /// # use board::{Board, TimerIndex};
    /// assert!(Board::example().timers().eq([TimerIndex(0), TimerIndex(1)]));
    /// ```
    pub fn timers(&self) -> impl Iterator<Item = TimerIndex> + use<> {
        (0..self.timer_count()).map(TimerIndex)
    }

    fn timer_count(&self) -> u32 {
        first(0, TIMERS.into(), |i| self.state.booked(i as u32).number == 2) as u32
    }

    /// How many pins the board has.
    ///
    /// ```
    /// # use board::Board;
    /// assert_eq!(Board::example().pins(), 8);
    /// ```
    pub fn pins(&self) -> u32 {
        first(0, PINS.into(), |i| self.state.level(i as u32).number == 2) as u32
    }

    /// The cycle of the last changing call, 0 after a set-up: no later call may have a lower one. After a restore it is where to go on.
    ///
    /// The library does not tell it, so it is searched: some 60 questions. 2^62 + 1 stands for a board that takes no cycle any more, which calls do
    /// not lead to.
    ///
    /// ```
    /// # use board::{Board, TimerIndex};
    /// let mut board = Board::example_pilot(64);
    /// assert_eq!(board.last_cycle(), 100);
    /// board.deliver(TimerIndex(0), 115)?;
    /// assert_eq!(board.last_cycle(), 115);
    /// # Ok::<(), board::Error>(())
    /// ```
    pub fn last_cycle(&self) -> u64 {
        first(0, LAST_CYCLE + 1, |cycle| self.state.time(cycle).number == 0)
    }

    // ---- the board ------------------------------------------------------------------------

    /// Replaces the board by a new one. Refused, it leaves the old.
    ///
    /// ```
    /// # use board::{Board, Error, Limit, Setup};
    /// let mut board = Board::example();
    /// assert_eq!(board.set_up(&Setup { lines: 257, ..Setup::example() }), Err(Error::WrongBoard(Limit::Lines(257))));
    /// assert_eq!(board.set_up(&Setup::example()), Ok(()));
    /// ```
    pub fn set_up(&mut self, setup: &Setup) -> Result<(), Error> {
        let timers: Vec<u32> = setup.timers.iter().flat_map(|t| [t.number, t.width, t.channels, t.bus, t.word, t.bit, t.irq]).collect();
        let table: Vec<u32> = setup.pins.iter().flatten().map(|&s| s as u32).collect();
        // More pins than 32 bits count are too many all the same.
        let pins = u32::try_from(setup.pins.len()).unwrap_or(u32::MAX);
        // So are more timers than the mask has bits.
        let manual = setup.timers.iter().take(32).zip(0..).fold(0, |mask, (t, i)| mask | u32::from(t.manual) << i);
        let a = self.state.set_up_manual(setup.hz, setup.vcc, pins, setup.lines, manual, &timers, &table);
        Err(match a.number {
            0 => return Ok(()),
            1 => Error::WrongBoard(setup.limit().unwrap_or(Limit::Unknown)),
            4 => Error::BadClock(ClockField::Hz),
            _ => other(a),
        })
    }

    /// Changes the clock tree and tells the timers.
    ///
    /// ```
    /// # use board::{Board, ClockTree};
    /// let mut board = Board::example();
    /// board.set_clock_tree(&ClockTree::flat(170e6), 16_000_000)?;
    /// assert_eq!((board.time(16_000_000)?, board.time(186_000_000)?), (1.0, 2.0));
    /// # Ok::<(), board::Error>(())
    /// ```
    pub fn set_clock_tree(&mut self, t: &ClockTree, cycle: u64) -> Result<(), Error> {
        let dividers = [t.ppre1, t.ppre2, t.ppre3, t.ppre4, t.tim1, t.tim2];
        let a = self.state.set_clock_tree(t.sysclk_hz, t.hclk_hz, dividers, cycle);
        match a.number {
            4 => Err(Error::BadClock(t.limit().unwrap_or(ClockField::Unknown))),
            _ => self.answered(a, About::at(cycle)).map(drop),
        }
    }

    /// Writes a clock-enable word, 0 to 8. With its bit clear a timer reads 0 and ignores writes.
    ///
    /// ```
    /// # use board::{Board, Reg, TimerIndex};
    /// let mut board = Board::example();
    /// board.enable(3, 0b10)?;
    /// assert_eq!((board.is_gated(TimerIndex(0), 0)?, board.is_gated(TimerIndex(1), 0)?), (true, false));
    /// # Ok::<(), board::Error>(())
    /// ```
    pub fn enable(&mut self, word: u32, value: u32) -> Result<(), Error> {
        let a = self.state.enable(word, value);
        self.answered(a, About { index: Asked::Word(word), ..About::at(0) }).map(drop)
    }

    // ---- pins -----------------------------------------------------------------------------

    /// Sets a pin. One signal goes to one pin: where another pin routes the signal that `c` selects, the call is refused with
    /// [`Error::SocketTaken`] until that pin leaves it. The same pin can be set again.
    ///
    /// ```
    /// # use board::{Board, Entry, PinConfig, Source};
    /// let mut board = Board::example();
    /// assert_eq!(board.set_pin(6, &PinConfig { pullup: true, ..PinConfig::default() }, 9)?, [Entry::new(6, 1, 9).by(Source::Pull)]);
    /// # Ok::<(), board::Error>(())
    /// ```
    pub fn set_pin(&mut self, pin: u32, c: &PinConfig, cycle: u64) -> Result<&[Entry], Error> {
        let (mode, function) = (c.mode as u32, c.function as u32);
        let (open_drain, out, up, down) = (c.open_drain as u32, c.out as u32, c.pullup as u32, c.pulldown as u32);
        self.noted(About::pin(pin, cycle), |s, book| s.set_pin(book, pin, mode, open_drain, out, up, down, function, cycle))
    }

    /// Drives a pin from outside.
    ///
    /// ```
    /// # use board::{Board, Drive, Entry, Source};
    /// let mut board = Board::example();
    /// assert_eq!(board.drive_pin(6, Drive::High, 9)?, [Entry::new(6, 1, 9).by(Source::Outside)]);
    /// # Ok::<(), board::Error>(())
    /// ```
    pub fn drive_pin(&mut self, pin: u32, drive: Drive, cycle: u64) -> Result<&[Entry], Error> {
        let (kind, volts) = match drive {
            Drive::Nothing => (0, 0.0),
            Drive::Low => (1, 0.0),
            Drive::High => (2, 0.0),
            Drive::Analog(volts) => (3, volts),
        };
        self.noted(About::pin(pin, cycle), |s, book| s.drive_pin(book, pin, kind, volts, cycle))
    }

    /// Pin reset: settings, routing and signals as after a set-up; what drives from outside stays.
    ///
    /// ```
    /// # use board::{Board, Error};
    /// assert_eq!(Board::example_pilot(64).reset_pins(102)?, []); // a pin that nothing drives holds its level
    /// assert_eq!(Board::example_pilot(4).reset_pins(102), Err(Error::BookFull { places: 4, needed: 8 }));
    /// # Ok::<(), Error>(())
    /// ```
    pub fn reset_pins(&mut self, cycle: u64) -> Result<&[Entry], Error> {
        self.noted(About { all_pins: true, ..About::at(cycle) }, |s, book| s.reset_pins(book, cycle))
    }

    /// A pin's level, 0 or 1.
    ///
    /// ```
    /// # use board::Board;
    /// assert_eq!(Board::example_pilot(64).level(0), Ok(1));
    /// ```
    pub fn level(&self, pin: u32) -> Result<u8, Error> {
        self.answered(self.state.level(pin), About::pin(pin, 0)).map(|v| v as u8 % 2)
    }

    /// Who holds a pin's level. A pin just set up is [`Source::Held`].
    ///
    /// ```
    /// # use board::{Board, Source};
    /// assert_eq!((Board::example().source(0), Board::example_pilot(64).source(0)), (Ok(Source::Held), Ok(Source::Chip)));
    /// ```
    pub fn source(&self, pin: u32) -> Result<Source, Error> {
        self.answered(self.state.level(pin), About::pin(pin, 0)).map(|v| Source::of(v as u8 / 2))
    }

    /// A pin's volts.
    ///
    /// ```
    /// # use board::Board;
    /// assert_eq!(Board::example_pilot(64).volts(0), Ok(3.3));
    /// ```
    pub fn volts(&self, pin: u32) -> Result<f64, Error> {
        self.answered(self.state.volts(pin), About::pin(pin, 0)).map(f64::from_bits)
    }

    /// Why a pin is low at a cycle: the first true reason. Nothing changes, and the cycle of the last changing call stays.
    ///
    /// Refused with [`Error::Backlog`] where an event of the timer that drives the pin is due by then: deliver it first.
    ///
    /// ```
    /// # use board::{Board, Error, Reason, TimerIndex};
    /// let (mut board, tim2) = (Board::example_pilot(64), TimerIndex(0));
    /// assert_eq!(board.why(0, 102), Ok(Reason::High));
    /// assert_eq!(board.why(0, 103), Err(Error::Backlog));
    /// board.deliver(tim2, 103)?;
    /// assert_eq!(board.why(0, 103)?.to_string(), "the counter is on the low side of the compare");
    /// assert_eq!(board.why(1, 103), Ok(Reason::Input));
    /// # Ok::<(), Error>(())
    /// ```
    pub fn why(&self, pin: u32, cycle: u64) -> Result<Reason, Error> {
        // The library gives 0 to 10.
        self.answered(self.state.why(pin, cycle), About::pin(pin, cycle)).map(|v| u8::try_from(v).ok().and_then(Reason::of).unwrap_or(Reason::Other))
    }

    // ---- timers ---------------------------------------------------------------------------

    /// Reads 1, 2 or 4 bytes of a timer's registers. [`read_reg`](Self::read_reg) is the same by the register's name.
    ///
    /// ```
    /// # use board::{Board, TimerIndex};
    /// let board = Board::example();
    /// assert_eq!(board.read(TimerIndex(0), 0x2e, 2, 0), Ok(0xffff)); // the upper half of ARR
    /// ```
    pub fn read(&self, timer: TimerIndex, offset: u32, size: u32, cycle: u64) -> Result<u32, Error> {
        self.answered(self.state.read(timer.0, offset, size, cycle), About { size, ..About::timer(timer, cycle) }).map(|v| v as u32)
    }

    /// Writes 1, 2 or 4 bytes. [`write_reg`](Self::write_reg) is the same by the register's name, and tells a gated write.
    ///
    /// ```
    /// # use board::{Board, Error, TimerIndex};
    /// let (mut board, tim2) = (Board::example_pilot(64), TimerIndex(0));
    /// assert_eq!(board.write(tim2, 0x34, 4, 0, 101)?.len(), 1); // compare 0: low at once
    /// assert_eq!(board.write(tim2, 0x24, 4, 11, 101), Err(Error::CounterAstray { offset: 0x24 }));
    /// assert_eq!(board.write(tim2, 0x24, 3, 0, 101), Err(Error::BadSize(3)));
    /// # Ok::<(), Error>(())
    /// ```
    pub fn write(&mut self, timer: TimerIndex, offset: u32, size: u32, value: u32, cycle: u64) -> Result<&[Entry], Error> {
        self.noted(About { size, offset, ..About::timer(timer, cycle) }, |s, book| s.write(book, timer.0, offset, size, value, cycle))
    }

    /// The register that `offset` is in as it is, whatever the clock gate.
    ///
    /// ```
    /// # use board::{Board, TimerIndex};
    /// let (mut board, tim2) = (Board::example(), TimerIndex(0));
    /// board.enable(3, 0)?;
    /// assert_eq!((board.read(tim2, 0x2c, 4, 0)?, board.peek(tim2, 0x2c, 0)?), (0, 0xffff_ffff));
    /// # Ok::<(), board::Error>(())
    /// ```
    pub fn peek(&self, timer: TimerIndex, offset: u32, cycle: u64) -> Result<u32, Error> {
        self.answered(self.state.peek(timer.0, offset, cycle), About::timer(timer, cycle)).map(|v| v as u32)
    }

    /// Reads a register.
    ///
    /// ```
    /// # use board::{Board, Reg, TimerIndex};
    /// assert_eq!(Board::example_pilot(64).read_reg(TimerIndex(0), Reg::Cnt, 109), Ok(9));
    /// ```
    pub fn read_reg(&self, timer: TimerIndex, reg: Reg, cycle: u64) -> Result<u32, Error> {
        self.read(timer, reg.offset(), 4, cycle)
    }

    /// Writes a register and tells whether the clock gate stopped it.
    ///
    /// ```
    /// # use board::{Board, Entry, Reg, TimerIndex};
    /// let (mut board, tim2) = (Board::example_pilot(64), TimerIndex(0));
    /// let written = board.write_reg(tim2, Reg::Ccr(1), 0, 101)?;
    /// assert_eq!((written.gated, written.entries), (false, &[Entry::new(0, 0, 101)][..]));
    /// board.enable(3, 0)?;
    /// assert!(board.write_reg(tim2, Reg::Ccr(1), 5, 102)?.gated);
    /// # Ok::<(), board::Error>(())
    /// ```
    pub fn write_reg(&mut self, timer: TimerIndex, reg: Reg, value: u32, cycle: u64) -> Result<Written<'_>, Error> {
        // Where this is refused, so is the write.
        let gated = self.is_gated(timer, cycle).unwrap_or(false);
        let entries = self.write(timer, reg.offset(), 4, value, cycle)?;
        Ok(Written { gated, entries })
    }

    /// A register as it is, whatever the clock gate.
    ///
    /// ```
    /// # use board::{Board, Reg, TimerIndex};
    /// assert_eq!(Board::example_pilot(64).peek_reg(TimerIndex(0), Reg::Ccr(1), 100), Ok(3));
    /// ```
    pub fn peek_reg(&self, timer: TimerIndex, reg: Reg, cycle: u64) -> Result<u32, Error> {
        self.peek(timer, reg.offset(), cycle)
    }

    /// Whether the timer's clock gate is closed at this cycle: its enable bit is clear, reads give 0 and writes do nothing.
    ///
    /// The library does not tell it: it is seen by a register that reads otherwise than it is, and where all of them are 0 by a write to a copy.
    ///
    /// ```
    /// # use board::{Board, TimerIndex};
    /// let (mut board, tim2) = (Board::example(), TimerIndex(0));
    /// assert!(!board.is_gated(tim2, 0)?);
    /// board.enable(3, 0b10)?;
    /// assert!(board.is_gated(tim2, 0)?);
    /// # Ok::<(), board::Error>(())
    /// ```
    pub fn is_gated(&self, timer: TimerIndex, cycle: u64) -> Result<bool, Error> {
        for reg in [Reg::Arr].into_iter().chain(Reg::ALL) {
            if self.peek_reg(timer, reg, cycle)? != 0 {
                return Ok(self.read_reg(timer, reg, cycle)? == 0);
            }
        }
        let mut copy = self.copy();
        copy.write(timer, Reg::Arr.offset(), 4, 1, cycle)?;
        Ok(copy.peek_reg(timer, Reg::Arr, cycle)? == 0)
    }

    /// The board with a short book, to try something on.
    pub(crate) fn copy(&self) -> Self {
        let mut copy = Self::new(4);
        copy.state.copy_from(&self.state);
        copy
    }

    /// Timer reset.
    ///
    /// ```
    /// # use board::{Board, Entry, TimerIndex};
    /// let mut board = Board::example_pilot(64);
    /// assert_eq!(board.reset(TimerIndex(0), 102)?, [Entry::new(0, 0, 102)]);
    /// assert_eq!(board.next(), None);
    /// # Ok::<(), board::Error>(())
    /// ```
    pub fn reset(&mut self, timer: TimerIndex, cycle: u64) -> Result<&[Entry], Error> {
        self.noted(About::timer(timer, cycle), |s, book| s.reset(book, timer.0, cycle))
    }

    /// Handles a timer's events that are due at `cycle`. Stopped early it is no error: what it did stands.
    ///
    /// ```
    /// # use board::{Board, TimerIndex};
    /// let mut board = Board::example_pilot(64);
    /// let done = board.deliver(TimerIndex(0), 115)?;
    /// let edges: Vec<_> = done.entries.iter().map(|e| (e.level, e.cycle)).collect();
    /// assert_eq!(edges, [(0, 103), (1, 110), (0, 113)]);
    /// # Ok::<(), board::Error>(())
    /// ```
    pub fn deliver(&mut self, timer: TimerIndex, cycle: u64) -> Result<Delivered<'_>, Error> {
        let a = self.lend(|s, book| s.deliver(book, timer.0, cycle));
        if a.number != 0 && a.number != 8 {
            return Err(self.refused(a, About::timer(timer, cycle)));
        }
        Ok(Delivered { events: a.value, backlog: a.number == 8, entries: self.entries(a.count) })
    }

    /// The cycle of a timer's next event, no earlier than its last delivery.
    ///
    /// ```
    /// # use board::{Board, TimerIndex};
    /// let board = Board::example_pilot(64);
    /// assert_eq!((board.booked(TimerIndex(0)), board.booked(TimerIndex(1))), (Ok(Some(103)), Ok(None)));
    /// ```
    pub fn booked(&self, timer: TimerIndex) -> Result<Option<u64>, Error> {
        self.answered(self.state.booked(timer.0), About::timer(timer, 0)).map(booked)
    }

    /// The least booked cycle of all timers.
    ///
    /// ```
    /// # use board::Board;
    /// assert_eq!((Board::example_pilot(64).next(), Board::example().next()), (Some(103), None));
    /// ```
    pub fn next(&self) -> Option<u64> {
        booked(self.state.next().value)
    }

    // ---- backlogs -------------------------------------------------------------------------

    /// Delivers to a timer until nothing is due at `cycle`, however small the book is. Gives the events handled; the entries go to `record`, those
    /// before an error too.
    ///
    /// It takes as long as there are events; [`deliver`](Self::deliver) stops after 100,001 of them.
    ///
    /// ```
    /// # use board::{Board, Shift, TimerIndex};
    /// let mut board = Board::example_pilot(4);
    /// let mut record = Vec::new();
    /// assert_eq!(board.drain(TimerIndex(0), 199, &mut record)?, 46);
    /// assert_eq!((record.len(), record[0].cycle, record[18].cycle), (19, 103, 193));
    ///
    /// // Into a report, without keeping the record:
    /// let mut shift = Shift::new([1, 0, 0, 0], 200, 1200);
    /// board.drain(TimerIndex(0), 1200, &mut shift)?;
    /// assert_eq!(shift.report()?.pin(0).unwrap().high, 300);
    /// # Ok::<(), board::Error>(())
    /// ```
    pub fn drain(&mut self, timer: TimerIndex, cycle: u64, record: &mut impl Extend<Entry>) -> Result<u64, Error> {
        let mut events = 0;
        loop {
            let done = self.deliver(timer, cycle)?;
            events += done.events;
            record.extend(done.entries.iter().copied());
            if !done.backlog {
                return Ok(events);
            }
        }
    }

    /// Drains every timer that has an event booked at or before `cycle`, in the timers' order. Where none has, it costs one question.
    ///
    /// The entries of a pin come in order; those of two timers come one timer after the other.
    ///
    /// ```
    /// # use board::Board;
    /// let (mut board, mut record) = (Board::example_pilot(16), Vec::new());
    /// assert_eq!(board.poll_all(102, &mut record)?, 0);
    /// assert_eq!(board.poll_all(1000, &mut record)?, 450);
    /// assert!(board.next() > Some(1000));
    /// # Ok::<(), board::Error>(())
    /// ```
    pub fn poll_all(&mut self, cycle: u64, record: &mut impl Extend<Entry>) -> Result<u64, Error> {
        let mut events = 0;
        if self.next().is_some_and(|due| due <= cycle) {
            for timer in self.timers() {
                if self.booked(timer)?.is_some_and(|due| due <= cycle) {
                    events += self.drain(timer, cycle, record)?;
                }
            }
        }
        Ok(events)
    }

    // ---- interrupt lines and time ---------------------------------------------------------

    /// An interrupt line; one that the board does not have is low and not pending.
    ///
    /// ```
    /// # use board::{Board, Line, Reg, TimerIndex};
    /// let (mut board, tim2) = (Board::example_pilot(64), TimerIndex(0));
    /// board.write_reg(tim2, Reg::Dier, 1, 100)?; // UIE
    /// board.deliver(tim2, 110)?;
    /// assert_eq!((board.line(28), board.line(300)), (Line { high: true, pending: true }, Line::default()));
    /// # Ok::<(), board::Error>(())
    /// ```
    pub fn line(&self, irq: u32) -> Line {
        let v = self.state.line(irq).value;
        Line { high: v & 1 != 0, pending: v & 2 != 0 }
    }

    /// Clears a pending interrupt.
    ///
    /// ```
    /// # use board::{Board, Line, Reg, TimerIndex};
    /// # let (mut board, tim2) = (Board::example_pilot(64), TimerIndex(0));
    /// board.write_reg(tim2, Reg::Dier, 1, 100)?;
    /// board.deliver(tim2, 110)?;
    /// board.clear_pending(28);
    /// assert_eq!(board.line(28), Line { high: true, pending: false });
    /// # Ok::<(), board::Error>(())
    /// ```
    pub fn clear_pending(&mut self, irq: u32) {
        self.state.clear_pending(irq);
    }

    /// The time of a cycle in seconds.
    ///
    /// ```
    /// # use board::{Board, Error};
    /// assert_eq!(Board::example().time(8_000_000), Ok(0.5));
    /// assert_eq!(Board::example_pilot(64).time(99), Err(Error::CycleAstray { cycle: 99, last: 100 }));
    /// ```
    pub fn time(&self, cycle: u64) -> Result<f64, Error> {
        self.answered(self.state.time(cycle), About::at(cycle)).map(f64::from_bits)
    }

    // ---- the book -------------------------------------------------------------------------

    fn lend(&mut self, call: impl FnOnce(&mut State, &mut Book) -> Answer) -> Answer {
        call(&mut self.state, &mut Book { pins: &mut self.pins, levels: &mut self.levels, cycles: &mut self.cycles, sources: &mut self.sources })
    }

    fn entries(&mut self, count: u32) -> &[Entry] {
        let places = self.pins.iter().zip(&self.levels).zip(&self.cycles).zip(&self.sources);
        self.entries.clear();
        self.entries.extend(places.take(count as usize).map(|(((&pin, &level), &cycle), &source)| Entry { pin, level, cycle, source: Source::of(source) }));
        &self.entries
    }

    fn noted(&mut self, about: About, call: impl FnOnce(&mut State, &mut Book) -> Answer) -> Result<&[Entry], Error> {
        let a = self.lend(call);
        if a.number != 0 {
            return Err(self.refused(a, about));
        }
        Ok(self.entries(a.count))
    }

    // ---- refusals -------------------------------------------------------------------------

    fn answered(&self, a: Answer, about: About) -> Result<u64, Error> {
        if a.number == 0 { Ok(a.value) } else { Err(self.refused(a, about)) }
    }

    /// What a refusal is about. The number is the library's, and nothing here can change it.
    #[cold]
    fn refused(&self, a: Answer, about: About) -> Error {
        match (a.number, about.index) {
            (2, Asked::Timer(index)) => Error::NoSuchIndex(Index::Timer { index, timers: self.timer_count() }),
            (2, Asked::Pin(pin)) => Error::NoSuchIndex(Index::Pin { pin, pins: self.pins() }),
            (2, Asked::Word(word)) => Error::NoSuchIndex(Index::Word(word)),
            (3, _) => Error::BadSize(about.size),
            (5, _) => Error::CycleAstray { cycle: about.cycle, last: self.last_cycle() },
            (6, _) => Error::BookFull { places: self.places(), needed: if about.all_pins { self.pins() as usize } else { 4 } },
            (11, Asked::Pin(pin)) => Error::SocketTaken { pin },
            (7, _) => Error::CounterAstray { offset: about.offset },
            (8, _) => Error::Backlog,
            _ => other(a),
        }
    }
}

/// What a call asked for.
#[derive(Clone, Copy)]
struct About {
    index: Asked,
    size: u32,
    offset: u32,
    cycle: u64,
    /// It needs a place for each pin.
    all_pins: bool,
}

#[derive(Clone, Copy)]
enum Asked {
    Nothing,
    Timer(TimerIndex),
    Pin(u32),
    Word(u32),
}

impl About {
    fn at(cycle: u64) -> Self {
        Self { index: Asked::Nothing, size: 4, offset: 0, cycle, all_pins: false }
    }

    fn timer(timer: TimerIndex, cycle: u64) -> Self {
        Self { index: Asked::Timer(timer), ..Self::at(cycle) }
    }

    fn pin(pin: u32, cycle: u64) -> Self {
        Self { index: Asked::Pin(pin), ..Self::at(cycle) }
    }
}

/// A number that is not known here, or not of this call.
fn other(a: Answer) -> Error {
    Error::Other(u8::try_from(a.number).unwrap_or(u8::MAX))
}

/// A booked cycle; 2^64 - 1 stands for none.
fn booked(cycle: u64) -> Option<u64> {
    (cycle != u64::MAX).then_some(cycle)
}

/// The first number from `from` on for which `holds`, which then holds of all that follow; `to` if it holds of none before.
fn first(mut from: u64, mut to: u64, holds: impl Fn(u64) -> bool) -> u64 {
    while from < to {
        let middle = from + (to - from) / 2;
        if holds(middle) {
            to = middle;
        } else {
            from = middle + 1;
        }
    }
    from
}
