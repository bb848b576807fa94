//! The numbers of documents 01 and 02, with what each was given for.
//!
//! The library decides whether a call is refused and with which number. It says no more; what a call was refused for is worked out here
//! from the call and from what the library answers to questions, and tests hold it to the number.

use std::fmt::{self, Display, Formatter};

use crate::{Reg, TimerIndex};

/// Why a call was turned away. A refused call has changed nothing.
///
/// [`Display`] gives the documents' word and what it is about; [`word`](Error::word) and [`number`](Error::number) are the documents'.
///
/// ```
/// use board::{Board, Error, Index, Reg, TimerIndex};
///
/// let board = Board::example();
/// let e = board.read_reg(TimerIndex(2), Reg::Cnt, 0).unwrap_err();
/// assert_eq!(e, Error::NoSuchIndex(Index::Timer { index: TimerIndex(2), timers: 2 }));
/// assert_eq!((e.number(), e.word()), (2, "no such post"));
/// assert_eq!(e.to_string(), "no such post: there is no timer at index 2, the board has 2 (an index counts from 0 and is not the n of TIMn)");
/// ```
#[derive(Clone, Copy, Debug, PartialEq, Eq, Hash)]
#[non_exhaustive]
pub enum Error {
    /// 1: a set-up outside the board's sizes or limits.
    WrongBoard(Limit),
    /// 2: no timer, pin or enable word of that index.
    NoSuchIndex(Index),
    /// 3: a read or write of this size; sizes are 1, 2, 4.
    BadSize(u32),
    /// 4: a divider outside 1 to 8,192, or a frequency that is not finite and above 0.
    BadClock(ClockField),
    /// 5: the cycle is above 2^62, or below that of the last changing call.
    CycleAstray {
        /// The cycle given.
        cycle: u64,
        /// That of the last changing call; see [`Board::last_cycle`](crate::Board::last_cycle).
        last: u64,
    },
    /// 6: the call may need more places than the book has.
    BookFull {
        /// The places of the book.
        places: usize,
        /// The places that the call asks for.
        needed: usize,
    },
    /// 7: the write would leave the timer running upward with its counter above the active reload + 1.
    CounterAstray {
        /// The offset written to: CR1's, CNT's or ARR's.
        offset: u32,
    },
    /// 8: a delivery stopped with an event still due. What it did stands; see [`Delivered`](crate::Delivered). Or [`why`](crate::Board::why) was
    /// asked of a pin whose timer has an event due.
    Backlog,
    /// 9: a shift whose end is below its beginning.
    ShiftReversed {
        /// Its beginning.
        from: u64,
        /// Its end.
        to: u64,
    },
    /// 10: an entry's cycle is below that of its pin's entry before it, or its pin is above 127, or its level above 1.
    BookOutOfOrder(Disorder),
    /// 11: the setting of this pin selects a signal that another pin routes. It is looked at after 5 and before 6.
    SocketTaken {
        /// The pin that was to be set.
        pin: u32,
    },
    /// 12: pilots up to a size above 7 were asked for; see [`SmallPilots`](crate::SmallPilots). No call of a board gives it, as none gives 9 or 10.
    TooWide {
        /// The size.
        n: u32,
    },
    /// 13: a record, or the places for one, is cut short. No call of a board gives 13, 14 or 15; see [`TimerSpec::from_record`](crate::TimerSpec::from_record).
    CutShort {
        /// The bytes that there are, or the places that were lent.
        given: usize,
        /// What the record needs; `None` where its length is below 2, so that it has no kind.
        needed: Option<usize>,
    },
    /// 14: a record of a kind that the reader does not know.
    StrangeKind {
        /// Its kind.
        kind: u16,
    },
    /// 15: a record whose length is not its kind's.
    WrongLength {
        /// Its kind.
        kind: u16,
        /// Its length: the bytes behind the first two.
        length: u16,
    },
    /// A number that this crate does not know: the library is newer.
    Other(u8),
}

/// The limit of a set-up that [`Error::WrongBoard`] is about. Timers by their index.
///
/// ```
/// use board::{Board, Error, Limit, Setup, TimerIndex};
///
/// let mut setup = Setup::example();
/// setup.timers[1].number = 2;
/// let e = Board::new(64).set_up(&setup).unwrap_err();
/// assert_eq!(e, Error::WrongBoard(Limit::SameNumber { timer: TimerIndex(0), other: TimerIndex(1), number: 2 }));
/// assert_eq!(e.to_string(), "wrong board: the timers at index 0 and 1 are both TIM2");
/// ```
#[derive(Clone, Copy, Debug, PartialEq, Eq, Hash)]
#[non_exhaustive]
pub enum Limit {
    /// So many timers; 1 to 8.
    Timers(usize),
    /// So many pins; 1 to 128.
    Pins(usize),
    /// So many interrupt lines; 0 to 256.
    Lines(u32),
    /// A timer's number; 1 to 24.
    Number {
        /// Which timer.
        timer: TimerIndex,
        /// Its number.
        number: u32,
    },
    /// A timer's width; 16 or 32.
    Width {
        /// Which timer.
        timer: TimerIndex,
        /// Its width.
        width: u32,
    },
    /// A timer's channels; 0 to 4.
    Channels {
        /// Which timer.
        timer: TimerIndex,
        /// Its channels.
        channels: u32,
    },
    /// A timer's enable word; 0 to 8.
    Word {
        /// Which timer.
        timer: TimerIndex,
        /// Its enable word.
        word: u32,
    },
    /// A timer's enable bit; 0 to 31.
    Bit {
        /// Which timer.
        timer: TimerIndex,
        /// Its enable bit.
        bit: u32,
    },
    /// Two timers of one number.
    SameNumber {
        /// The first of them.
        timer: TimerIndex,
        /// The second.
        other: TimerIndex,
        /// Their number.
        number: u32,
    },
    /// The supply is not finite and above 0.
    Supply,
    /// A setting that no record can hold; it is of a record alone.
    Record(Setting),
    /// A limit that this crate does not know: the library is newer.
    Unknown,
}

/// A setting of a record that is outside its limits; see [`Limit::Record`] and docs/RECORDS.md.
///
/// ```
/// use board::{Error, Limit, Setting, TimerSpec};
///
/// let e = TimerSpec::new(25).to_record().unwrap_err();
/// assert_eq!(e, Error::WrongBoard(Limit::Record(Setting::Number(25))));
/// assert_eq!(e.to_string(), "wrong board: the record's number is 25, not 1 to 24");
/// ```
#[derive(Clone, Copy, Debug, PartialEq, Eq, Hash)]
#[non_exhaustive]
pub enum Setting {
    /// The timer's number; 1 to 24.
    Number(u32),
    /// Its width; 16 or 32.
    Width(u32),
    /// Its channels; 0 to 4.
    Channels(u32),
    /// Its bus; 1 to 4, which is 0 to 3 in the record.
    Bus(u32),
    /// Its enable word; 0 to 8.
    Word(u32),
    /// Its enable bit; 0 to 31.
    Bit(u32),
    /// The byte that kind 2 adds; always 1.
    Added(u8),
}

/// What a board does not have; see [`Error::NoSuchIndex`].
///
/// ```
/// use board::{Board, Error, Index};
///
/// assert_eq!(Board::example().level(8), Err(Error::NoSuchIndex(Index::Pin { pin: 8, pins: 8 })));
/// assert_eq!(Board::example().enable(9, 1), Err(Error::NoSuchIndex(Index::Word(9))));
/// ```
#[derive(Clone, Copy, Debug, PartialEq, Eq, Hash)]
#[non_exhaustive]
pub enum Index {
    /// A timer.
    Timer {
        /// The index given.
        index: TimerIndex,
        /// The timers that there are.
        timers: u32,
    },
    /// A pin.
    Pin {
        /// The pin given.
        pin: u32,
        /// The pins that there are.
        pins: u32,
    },
    /// An enable word; there are 0 to 8.
    Word(u32),
}

/// The frequency or divider that [`Error::BadClock`] is about.
///
/// ```
/// use board::{Board, ClockField, ClockTree, Error, Setup};
///
/// let mut board = Board::example();
/// assert_eq!(board.set_up(&Setup { hz: 0.0, ..Setup::example() }), Err(Error::BadClock(ClockField::Hz)));
/// let tree = ClockTree { ppre3: 8193, ..ClockTree::flat(16e6) };
/// assert_eq!(board.set_clock_tree(&tree, 0), Err(Error::BadClock(ClockField::Ppre3)));
/// ```
#[derive(Clone, Copy, Debug, PartialEq, Eq, Hash)]
#[non_exhaustive]
pub enum ClockField {
    /// The frequency of a set-up.
    Hz,
    /// `sysclk_hz` of a clock tree.
    SysclkHz,
    /// `hclk_hz`.
    HclkHz,
    /// `ppre1`.
    Ppre1,
    /// `ppre2`.
    Ppre2,
    /// `ppre3`.
    Ppre3,
    /// `ppre4`.
    Ppre4,
    /// `tim1`.
    Tim1,
    /// `tim2`.
    Tim2,
    /// A field that this crate does not know: the library is newer.
    Unknown,
}

/// The entry that [`Error::BookOutOfOrder`] is about, the first of its kind.
///
/// docs/DECISIONS.md says what a planner does with it: the cycles from `cycle` to `last` of the pin are told twice.
///
/// ```
/// use board::{Disorder, Entry, Error, Shift};
///
/// let mut shift = Shift::new([0; 4], 0, 100);
/// shift.feed(&[Entry::new(7, 1, 20), Entry::new(7, 0, 12)]);
/// let disorder = Disorder { place: 1, pin: 7, level: 0, cycle: 12, last: 20 };
/// assert_eq!(shift.report(), Err(Error::BookOutOfOrder(disorder)));
/// ```
#[derive(Clone, Copy, Debug, PartialEq, Eq, Hash)]
pub struct Disorder {
    /// How many entries were fed before it.
    pub place: u64,
    /// Its pin.
    pub pin: u8,
    /// Its level.
    pub level: u8,
    /// Its cycle.
    pub cycle: u64,
    /// The cycle of its pin's entry before it; 0 if there is none.
    pub last: u64,
}

/// The documents' word for a number; `None` for one that they do not have.
///
/// ```
/// use board::word;
///
/// assert_eq!((word(0), word(8), word(200)), (Some("served"), Some("backlog"), None));
/// ```
pub const fn word(number: u8) -> Option<&'static str> {
    Some(match number {
        0 => "served",
        1 => "wrong board",
        2 => "no such post",
        3 => "odd plug",
        4 => "bad clock",
        5 => "clock astray",
        6 => "book full",
        7 => "counter astray",
        8 => "backlog",
        9 => "shift reversed",
        10 => "book out of order",
        11 => "socket taken",
        12 => "too wide",
        13 => "cut short",
        14 => "strange kind",
        15 => "wrong length",
        _ => return None,
    })
}

/// Whether an answer's number is a refusal: neither 0, served, nor 8, a backlog. A refused call has changed nothing.
///
/// ```
/// use board::is_refusal;
///
/// assert_eq!([0, 5, 8].map(is_refusal), [false, true, false]);
/// ```
pub const fn is_refusal(number: u8) -> bool {
    number != 0 && number != 8
}

impl Error {
    /// The documents' number.
    ///
    /// ```
    /// # use board::Error;
    /// assert_eq!((Error::BadSize(3).number(), Error::Backlog.number()), (3, 8));
    /// ```
    pub const fn number(self) -> u8 {
        match self {
            Error::WrongBoard(_) => 1,
            Error::NoSuchIndex(_) => 2,
            Error::BadSize(_) => 3,
            Error::BadClock(_) => 4,
            Error::CycleAstray { .. } => 5,
            Error::BookFull { .. } => 6,
            Error::CounterAstray { .. } => 7,
            Error::Backlog => 8,
            Error::ShiftReversed { .. } => 9,
            Error::BookOutOfOrder(_) => 10,
            Error::SocketTaken { .. } => 11,
            Error::TooWide { .. } => 12,
            Error::CutShort { .. } => 13,
            Error::StrangeKind { .. } => 14,
            Error::WrongLength { .. } => 15,
            Error::Other(n) => n,
        }
    }

    /// The documents' word.
    ///
    /// ```
    /// # use board::Error;
    /// assert_eq!(Error::BadSize(3).word(), "odd plug");
    /// ```
    pub fn word(self) -> &'static str {
        word(self.number()).unwrap_or("refused")
    }

    /// Whether the call has changed nothing: true of every number but 8.
    ///
    /// ```
    /// # use board::Error;
    /// assert!(Error::BadSize(3).is_refusal() && !Error::Backlog.is_refusal());
    /// ```
    pub const fn is_refusal(self) -> bool {
        is_refusal(self.number())
    }
}

impl Display for Error {
    fn fmt(&self, f: &mut Formatter) -> fmt::Result {
        write!(f, "{}", self.word())?;
        match *self {
            Error::WrongBoard(limit) => write!(f, ": {limit}"),
            Error::NoSuchIndex(index) => write!(f, ": {index}"),
            Error::BadSize(size) => write!(f, ": {size} bytes, not 1, 2 or 4"),
            Error::BadClock(field) => write!(f, ": {field}"),
            Error::CycleAstray { cycle, last } if cycle < last => write!(f, ": cycle {cycle} is below {last}, that of the last changing call"),
            Error::CycleAstray { cycle, .. } => write!(f, ": cycle {cycle} is above 2^62"),
            Error::BookFull { places, needed } => write!(f, ": the book has {places} places, the call asks for {needed}"),
            Error::SocketTaken { pin } => write!(f, ": another pin routes the signal that this setting of pin {pin} selects"),
            Error::CounterAstray { offset } => match Reg::at(offset) {
                Some(reg) => write!(f, ": this write of {reg} would leave the counter above the active reload + 1"),
                None => write!(f, ": this write at {offset:#x} would leave the counter above the active reload + 1"),
            },
            Error::Backlog => f.write_str(": an event is still due, deliver again"),
            Error::ShiftReversed { from, to } => write!(f, ": from {from} to {to}"),
            Error::BookOutOfOrder(d) => write!(f, ": {d}"),
            Error::TooWide { n } => write!(f, ": pilots up to {n}, not up to 7"),
            Error::CutShort { given, needed: Some(needed) } => write!(f, ": {given} bytes where the record needs {needed}"),
            Error::CutShort { .. } => f.write_str(": the record's length is below 2, so it has no kind"),
            Error::StrangeKind { kind } => write!(f, ": the record is of kind {kind}"),
            Error::WrongLength { kind, length } => write!(f, ": a record of kind {kind} with length {length}"),
            Error::Other(n) => write!(f, " with {n}"),
        }
    }
}

impl std::error::Error for Error {}

impl Display for Limit {
    fn fmt(&self, f: &mut Formatter) -> fmt::Result {
        match *self {
            Limit::Timers(n) => write!(f, "{n} timers, not 1 to 8"),
            Limit::Pins(n) => write!(f, "{n} pins, not 1 to 128"),
            Limit::Lines(n) => write!(f, "{n} interrupt lines, not 0 to 256"),
            Limit::Number { timer, number } => write!(f, "the timer at index {} has number {number}, not 1 to 24", timer.0),
            Limit::Width { timer, width } => write!(f, "the timer at index {} has {width} bits, not 16 or 32", timer.0),
            Limit::Channels { timer, channels } => write!(f, "the timer at index {} has {channels} channels, not 0 to 4", timer.0),
            Limit::Word { timer, word } => write!(f, "the timer at index {} has enable word {word}, not 0 to 8", timer.0),
            Limit::Bit { timer, bit } => write!(f, "the timer at index {} has enable bit {bit}, not 0 to 31", timer.0),
            Limit::SameNumber { timer, other, number } => write!(f, "the timers at index {} and {} are both TIM{number}", timer.0, other.0),
            Limit::Supply => f.write_str("the supply is not finite and above 0"),
            Limit::Record(setting) => write!(f, "the record's {setting}"),
            Limit::Unknown => f.write_str("a limit that this crate does not know"),
        }
    }
}

impl Display for Setting {
    fn fmt(&self, f: &mut Formatter) -> fmt::Result {
        match *self {
            Setting::Number(n) => write!(f, "number is {n}, not 1 to 24"),
            Setting::Width(n) => write!(f, "width is {n}, not 16 or 32"),
            Setting::Channels(n) => write!(f, "channels are {n}, not 0 to 4"),
            Setting::Bus(n) => write!(f, "bus is {n}, not 1 to 4"),
            Setting::Word(n) => write!(f, "enable word is {n}, not 0 to 8"),
            Setting::Bit(n) => write!(f, "enable bit is {n}, not 0 to 31"),
            Setting::Added(n) => write!(f, "added byte is {n}, not 1"),
        }
    }
}

impl Display for Index {
    fn fmt(&self, f: &mut Formatter) -> fmt::Result {
        match *self {
            Index::Timer { index, timers } => {
                write!(f, "there is no timer at index {}, the board has {timers} (an index counts from 0 and is not the n of TIMn)", index.0)
            }
            Index::Pin { pin, pins } => write!(f, "there is no pin {pin}, the board has {pins}, from 0"),
            Index::Word(word) => write!(f, "there is no enable word {word}, there are 0 to 8"),
        }
    }
}

impl Display for ClockField {
    fn fmt(&self, f: &mut Formatter) -> fmt::Result {
        let name = match self {
            ClockField::Hz => "hz",
            ClockField::SysclkHz => "sysclk_hz",
            ClockField::HclkHz => "hclk_hz",
            ClockField::Ppre1 => "ppre1",
            ClockField::Ppre2 => "ppre2",
            ClockField::Ppre3 => "ppre3",
            ClockField::Ppre4 => "ppre4",
            ClockField::Tim1 => "tim1",
            ClockField::Tim2 => "tim2",
            ClockField::Unknown => return f.write_str("a field that this crate does not know"),
        };
        let limits = match self {
            ClockField::Hz | ClockField::SysclkHz | ClockField::HclkHz => "finite and above 0",
            _ => "1 to 8,192",
        };
        write!(f, "{name} is not {limits}")
    }
}

impl Display for Disorder {
    fn fmt(&self, f: &mut Formatter) -> fmt::Result {
        let Disorder { place, pin, level, cycle, last } = *self;
        write!(f, "entry {place}, {pin}:{level}@{cycle}, ")?;
        if pin > 127 {
            f.write_str("has no pin of 0 to 127")
        } else if level > 1 {
            f.write_str("has no level of 0 or 1")
        } else {
            write!(f, "is before its pin's last, {last}")
        }
    }
}
