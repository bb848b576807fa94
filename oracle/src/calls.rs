//! The call list as text (docs/CALLS.md): a line to a call and back, an answer to a line.

use std::fmt::{self, Display, Formatter};

use crate::record;

/// One timer of a set-up. Everything as written, for the board to judge.
#[derive(Clone, Copy, Debug, PartialEq, Eq)]
pub struct TimerSpec {
    pub number: u32,
    pub width: u32,
    pub channels: u32,
    pub bus: u32,
    pub word: u32,
    pub bit: u32,
    pub irq: u32,
}

/// A set-up. The signal table is kept sparse: `len` may be any number, and a wrong one is refused.
#[derive(Clone, Debug, Default, PartialEq, Eq)]
pub struct Setup {
    pub hz: u64,
    pub vcc: u64,
    pub pins: u32,
    pub lines: u32,
    pub timers: Vec<TimerSpec>,
    pub len: u32,
    /// Index and signal; of two pairs with one index the later holds.
    pub signals: Vec<(u32, u32)>,
    /// Timer i is in manual mode where bit i is 1. A bit of no timer cannot be written.
    pub manual: u32,
}

/// A call. Floats are their 64 bits.
#[derive(Clone, Debug, PartialEq, Eq)]
pub enum Call {
    Setup(Setup),
    /// `dividers`: PPRE1 to PPRE4, TIM1, TIM2.
    Clock { sys: u64, hclk: u64, dividers: [u32; 6], cycle: u64 },
    Enable { word: u32, value: u32 },
    Pin { pin: u32, mode: u32, open_drain: u32, out: u32, pullup: u32, pulldown: u32, function: u32, cycle: u64, book: u64 },
    /// `kind`: 0 nothing, 1 low, 2 high, 3 analogue.
    Drive { pin: u32, kind: u32, volts: u64, cycle: u64, book: u64 },
    ResetPins { cycle: u64, book: u64 },
    Read { timer: u32, offset: u32, size: u32, cycle: u64 },
    Write { timer: u32, offset: u32, size: u32, value: u32, cycle: u64, book: u64 },
    Peek { timer: u32, offset: u32, cycle: u64 },
    Reset { timer: u32, cycle: u64, book: u64 },
    Deliver { timer: u32, cycle: u64, book: u64 },
    Booked { timer: u32 },
    Next,
    Level { pin: u32 },
    Volts { pin: u32 },
    Line { irq: u32 },
    Time { cycle: u64 },
    Clear { irq: u32 },
    Why { pin: u32, cycle: u64 },
}

impl Call {
    /// Where the call keeps its cycle.
    pub fn cycle_mut(&mut self) -> Option<&mut u64> {
        match self {
            Call::Clock { cycle, .. }
            | Call::Pin { cycle, .. }
            | Call::Drive { cycle, .. }
            | Call::ResetPins { cycle, .. }
            | Call::Read { cycle, .. }
            | Call::Write { cycle, .. }
            | Call::Peek { cycle, .. }
            | Call::Reset { cycle, .. }
            | Call::Deliver { cycle, .. }
            | Call::Time { cycle }
            | Call::Why { cycle, .. } => Some(cycle),
            _ => None,
        }
    }
}

/// A line that asks the board nothing and changes nothing.
#[derive(Clone, Debug, PartialEq, Eq)]
pub enum Aside {
    /// The setting at place `k` of the pilots up to `n` (document 02, F-9).
    Pilot { n: u32, k: u32 },
    /// The writer of a timer's record into so many places (document 02, F-10).
    Record { timer: record::Fields, places: u64 },
    /// The reader of the kinds up to `latest`.
    Unrecord { latest: u16, bytes: Vec<u8> },
}

/// What a line is.
#[derive(Clone, Debug, PartialEq, Eq)]
pub enum Line {
    Call(Call),
    Aside(Aside),
}

/// One entry of the book.
#[derive(Clone, Copy, Debug, PartialEq, Eq)]
pub struct Entry {
    pub pin: u16,
    pub level: u8,
    pub cycle: u64,
    /// 1 the chip, 2 the outside, 3 a pull.
    pub source: u8,
}

/// An answer; its count is the number of entries.
#[derive(Clone, Debug, PartialEq, Eq)]
pub struct Answer {
    pub number: u8,
    pub value: u64,
    pub entries: Vec<Entry>,
}

/// Why a line is no call.
#[derive(Clone, Copy, Debug, PartialEq, Eq)]
pub enum Malformed {
    UnknownWord,
    Missing,
    Surplus,
    NotANumber,
    TooLarge,
}

impl Display for Malformed {
    fn fmt(&self, f: &mut Formatter) -> fmt::Result {
        f.write_str(match self {
            Malformed::UnknownWord => "unknown word",
            Malformed::Missing => "missing number",
            Malformed::Surplus => "surplus number",
            Malformed::NotANumber => "not a number",
            Malformed::TooLarge => "number too large",
        })
    }
}

/// A number of any size: `None` if the word is none, `Some(None)` if 64 bits do not hold it.
fn number(word: &[u8]) -> Option<Option<u64>> {
    let (digits, base) = match word {
        [b'0', b'x' | b'X', rest @ ..] => (rest, 16),
        _ => (word, 10),
    };
    if digits.is_empty() || !digits.iter().all(|&d| (d as char).is_digit(base)) {
        return None;
    }
    let add = |n: u64, d: &u8| n.checked_mul(base as u64)?.checked_add((*d as char).to_digit(base)? as u64);
    Some(digits.iter().try_fold(0, add))
}

/// A number that is at most `max`.
fn fits(word: &[u8], max: u64) -> Result<u64, Malformed> {
    match number(word).ok_or(Malformed::NotANumber)? {
        Some(n) if n <= max => Ok(n),
        _ => Err(Malformed::TooLarge),
    }
}

/// The words of a line after its first.
struct Words<'a, I: Iterator<Item = &'a [u8]>>(I);

impl<'a, I: Iterator<Item = &'a [u8]>> Words<'a, I> {
    /// The next number, at most `max`; `None` at the end of the line.
    fn at_most(&mut self, max: u64) -> Result<Option<u64>, Malformed> {
        self.0.next().map(|word| fits(word, max)).transpose()
    }

    fn wide(&mut self) -> Result<u64, Malformed> {
        self.at_most(u64::MAX)?.ok_or(Malformed::Missing)
    }

    fn bytes(&mut self) -> Result<Vec<u8>, Malformed> {
        record::bytes(self.0.next().ok_or(Malformed::Missing)?).ok_or(Malformed::NotANumber)
    }

    fn short(&mut self) -> Result<u32, Malformed> {
        Ok(self.at_most(u32::MAX as u64)?.ok_or(Malformed::Missing)? as u32)
    }

    /// The line's end.
    fn end(&mut self, line: Line) -> Result<Option<Line>, Malformed> {
        match self.0.next() {
            Some(_) => Err(Malformed::Surplus),
            None => Ok(Some(line)),
        }
    }

    /// What asks the board nothing; `None` for any other word.
    fn aside(&mut self, first: &[u8]) -> Result<Option<Aside>, Malformed> {
        Ok(Some(match first {
            b"pilot" => Aside::Pilot { n: self.short()?, k: self.short()? },
            b"record" => {
                let mut timer = [0; 8];
                for field in &mut timer {
                    *field = self.wide()?;
                }
                Aside::Record { timer, places: self.wide()? }
            }
            b"unrecord" => Aside::Unrecord { latest: 2, bytes: self.bytes()? },
            b"unrecord1" => Aside::Unrecord { latest: 1, bytes: self.bytes()? },
            _ => return Ok(None),
        }))
    }

    fn timer(&mut self) -> Result<TimerSpec, Malformed> {
        Ok(TimerSpec {
            number: self.short()?,
            width: self.short()?,
            channels: self.short()?,
            bus: self.short()?,
            word: self.short()?,
            bit: self.short()?,
            irq: self.short()?,
        })
    }

    fn setup(&mut self) -> Result<Setup, Malformed> {
        let mut s = Setup { hz: self.wide()?, vcc: self.wide()?, pins: self.short()?, lines: self.short()?, ..Setup::default() };
        for _ in 0..self.short()? {
            s.timers.push(self.timer()?);
        }
        s.len = self.short()?;
        while let Some(word) = self.0.next() {
            if word == b"manual" {
                let last = if s.timers.len() < 32 { (1 << s.timers.len()) - 1 } else { u32::MAX as u64 };
                s.manual = self.at_most(last)?.ok_or(Malformed::Missing)? as u32;
                break;
            }
            // With LEN 0 no index fits.
            let index = fits(word, u32::MAX as u64)?;
            if index >= s.len as u64 {
                return Err(Malformed::TooLarge);
            }
            s.signals.push((index as u32, self.short()?));
        }
        Ok(s)
    }

    fn dividers(&mut self) -> Result<[u32; 6], Malformed> {
        let mut d = [0; 6];
        for x in &mut d {
            *x = self.short()?;
        }
        Ok(d)
    }
}

/// Parses a line without its line end: a call, or `None` if the line has no word or asks the board nothing.
pub fn parse(line: &[u8]) -> Result<Option<Call>, Malformed> {
    Ok(match read(line)? {
        Some(Line::Call(call)) => Some(call),
        _ => None,
    })
}

/// Parses a line without its line end: what it is, or `None` if it has no word.
pub fn read(line: &[u8]) -> Result<Option<Line>, Malformed> {
    let line = line.strip_suffix(b"\r").unwrap_or(line);
    let line = &line[..line.iter().position(|&b| b == b'#').unwrap_or(line.len())];
    let mut words = line.split(|&b| b == b' ' || b == b'\t').filter(|w| !w.is_empty());
    let Some(first) = words.next() else { return Ok(None) };
    let mut w = Words(words);
    if let Some(aside) = w.aside(first)? {
        return w.end(Line::Aside(aside));
    }
    // The fields are read in the order written here, which is the line's.
    let call = match first {
        b"setup" => Call::Setup(w.setup()?),
        b"clock" => Call::Clock { sys: w.wide()?, hclk: w.wide()?, dividers: w.dividers()?, cycle: w.wide()? },
        b"enable" => Call::Enable { word: w.short()?, value: w.short()? },
        b"pin" => Call::Pin {
            pin: w.short()?,
            mode: w.short()?,
            open_drain: w.short()?,
            out: w.short()?,
            pullup: w.short()?,
            pulldown: w.short()?,
            function: w.short()?,
            cycle: w.wide()?,
            book: w.wide()?,
        },
        b"drive" => Call::Drive {
            pin: w.short()?,
            kind: w.at_most(3)?.ok_or(Malformed::Missing)? as u32,
            volts: w.wide()?,
            cycle: w.wide()?,
            book: w.wide()?,
        },
        b"reset-pins" => Call::ResetPins { cycle: w.wide()?, book: w.wide()? },
        b"read" => Call::Read { timer: w.short()?, offset: w.short()?, size: w.short()?, cycle: w.wide()? },
        b"write" => Call::Write {
            timer: w.short()?,
            offset: w.short()?,
            size: w.short()?,
            value: w.short()?,
            cycle: w.wide()?,
            book: w.wide()?,
        },
        b"peek" => Call::Peek { timer: w.short()?, offset: w.short()?, cycle: w.wide()? },
        b"reset" => Call::Reset { timer: w.short()?, cycle: w.wide()?, book: w.wide()? },
        b"deliver" => Call::Deliver { timer: w.short()?, cycle: w.wide()?, book: w.wide()? },
        b"booked" => Call::Booked { timer: w.short()? },
        b"next" => Call::Next,
        b"level" => Call::Level { pin: w.short()? },
        b"volts" => Call::Volts { pin: w.short()? },
        b"line" => Call::Line { irq: w.short()? },
        b"time" => Call::Time { cycle: w.wide()? },
        b"clear" => Call::Clear { irq: w.short()? },
        b"why" => Call::Why { pin: w.short()?, cycle: w.wide()? },
        _ => return Err(Malformed::UnknownWord),
    };
    w.end(Line::Call(call))
}

impl Display for Setup {
    fn fmt(&self, f: &mut Formatter) -> fmt::Result {
        write!(f, "setup {:#x} {:#x} {} {} {}", self.hz, self.vcc, self.pins, self.lines, self.timers.len())?;
        for t in &self.timers {
            write!(f, " {} {} {} {} {} {} {}", t.number, t.width, t.channels, t.bus, t.word, t.bit, t.irq)?;
        }
        write!(f, " {}", self.len)?;
        self.signals.iter().try_for_each(|(i, s)| write!(f, " {i} {s}"))?;
        if self.manual != 0 { write!(f, " manual {}", self.manual) } else { Ok(()) }
    }
}

impl Display for Call {
    fn fmt(&self, f: &mut Formatter) -> fmt::Result {
        match self {
            Call::Setup(s) => s.fmt(f),
            Call::Clock { sys, hclk, dividers: [a, b, c, d, e, g], cycle } => write!(f, "clock {sys:#x} {hclk:#x} {a} {b} {c} {d} {e} {g} {cycle}"),
            Call::Enable { word, value } => write!(f, "enable {word} {value:#x}"),
            Call::Pin { pin, mode, open_drain, out, pullup, pulldown, function, cycle, book } => {
                write!(f, "pin {pin} {mode} {open_drain} {out} {pullup} {pulldown} {function} {cycle} {book}")
            }
            Call::Drive { pin, kind, volts, cycle, book } => write!(f, "drive {pin} {kind} {volts:#x} {cycle} {book}"),
            Call::ResetPins { cycle, book } => write!(f, "reset-pins {cycle} {book}"),
            Call::Read { timer, offset, size, cycle } => write!(f, "read {timer} {offset:#x} {size} {cycle}"),
            Call::Write { timer, offset, size, value, cycle, book } => write!(f, "write {timer} {offset:#x} {size} {value:#x} {cycle} {book}"),
            Call::Peek { timer, offset, cycle } => write!(f, "peek {timer} {offset:#x} {cycle}"),
            Call::Reset { timer, cycle, book } => write!(f, "reset {timer} {cycle} {book}"),
            Call::Deliver { timer, cycle, book } => write!(f, "deliver {timer} {cycle} {book}"),
            Call::Booked { timer } => write!(f, "booked {timer}"),
            Call::Next => write!(f, "next"),
            Call::Level { pin } => write!(f, "level {pin}"),
            Call::Volts { pin } => write!(f, "volts {pin}"),
            Call::Line { irq } => write!(f, "line {irq}"),
            Call::Time { cycle } => write!(f, "time {cycle}"),
            Call::Clear { irq } => write!(f, "clear {irq}"),
            Call::Why { pin, cycle } => write!(f, "why {pin} {cycle}"),
        }
    }
}

impl Display for Aside {
    fn fmt(&self, f: &mut Formatter) -> fmt::Result {
        match self {
            Aside::Pilot { n, k } => write!(f, "pilot {n} {k}"),
            Aside::Record { timer, places } => write!(f, "record {} {places}", timer.map(|n| n.to_string()).join(" ")),
            Aside::Unrecord { latest, bytes } => {
                let hex = if bytes.is_empty() { "-".to_owned() } else { record::hex(bytes) };
                write!(f, "unrecord{} {hex}", if *latest == 1 { "1" } else { "" })
            }
        }
    }
}

impl Display for Answer {
    fn fmt(&self, f: &mut Formatter) -> fmt::Result {
        write!(f, "{} {} {}", self.number, self.value, self.entries.len())?;
        self.entries.iter().try_for_each(|e| write!(f, " {}:{}@{}/{}", e.pin, e.level, e.cycle, e.source))
    }
}
