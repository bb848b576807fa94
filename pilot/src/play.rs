//! The library's board, call by call.

use std::io::{self, Write};

use board::ffi::{self, Book, State};
use board::RECORD;

use crate::list::{Call, SetUp};

/// 100,001 events make at most four entries each: a longer book never matters.
const PLACES: u64 = 400_004;

/// A board with the book that is lent to its calls, and the answer to the last of them.
pub struct Player {
    state: State,
    pins: Vec<u8>,
    levels: Vec<u8>,
    cycles: Vec<u64>,
    sources: Vec<u8>,
    answer: ffi::Answer,
    more: Vec<u32>,
    bytes: Vec<u8>,
}

/// What a call answered.
#[derive(Clone, Copy, Debug)]
pub struct Answer<'a> {
    pub number: u32,
    pub value: u64,
    /// The entries: pin, level, cycle and source of each.
    pub pins: &'a [u8],
    pub levels: &'a [u8],
    pub cycles: &'a [u64],
    pub sources: &'a [u8],
    /// The numbers behind the three, of a call that has no entries.
    pub more: &'a [u32],
    /// The record that was written; its bytes are the count then.
    pub bytes: &'a [u8],
}

impl Player {
    /// The first board.
    pub fn new() -> Self {
        let places = PLACES as usize;
        Self {
            state: State::new(),
            pins: vec![0; places],
            levels: vec![0; places],
            cycles: vec![0; places],
            sources: vec![0; places],
            answer: ffi::Answer { value: 0, number: 0, count: 0 },
            more: Vec::new(),
            bytes: Vec::new(),
        }
    }

    /// Makes a call.
    pub fn play(&mut self, call: &Call) -> Answer<'_> {
        let lent = book(call).min(PLACES) as usize;
        let book = &mut Book {
            pins: &mut self.pins[..lent],
            levels: &mut self.levels[..lent],
            cycles: &mut self.cycles[..lent],
            sources: &mut self.sources[..lent],
        };
        let s = &mut self.state;
        self.more.clear();
        self.bytes.clear();
        self.answer = match *call {
            Call::SetUp(SetUp { hz, vcc, pins, lines, ref timers, ref table, manual }) => {
                s.set_up_manual(hz, vcc, pins, lines, manual, timers, table)
            }
            Call::Clock { sys, hclk, dividers, cycle } => s.set_clock_tree(sys, hclk, dividers, cycle),
            Call::Enable { word, value } => s.enable(word, value),
            Call::Pin { pin, mode, open_drain, out, pullup, pulldown, function, cycle, .. } => {
                s.set_pin(book, pin, mode, open_drain, out, pullup, pulldown, function, cycle)
            }
            Call::Drive { pin, kind, volts, cycle, .. } => s.drive_pin(book, pin, kind, volts, cycle),
            Call::ResetPins { cycle, .. } => s.reset_pins(book, cycle),
            Call::Read { timer, offset, size, cycle } => s.read(timer, offset, size, cycle),
            Call::Write { timer, offset, size, value, cycle, .. } => s.write(book, timer, offset, size, value, cycle),
            Call::Peek { timer, offset, cycle } => s.peek(timer, offset, cycle),
            Call::Reset { timer, cycle, .. } => s.reset(book, timer, cycle),
            Call::Deliver { timer, cycle, .. } => s.deliver(book, timer, cycle),
            Call::Booked { timer } => s.booked(timer),
            Call::Next => s.next(),
            Call::Level { pin } => s.level(pin),
            Call::Volts { pin } => s.volts(pin),
            Call::Line { irq } => s.line(irq),
            Call::Time { cycle } => s.time(cycle),
            Call::Clear { irq } => s.clear_pending(irq),
            Call::Why { pin, cycle } => s.why(pin, cycle),
            Call::SmallPilot { n, k } => small_pilot(n, k, &mut self.more),
            Call::Record { timer, places } => record(timer, places, &mut self.bytes),
            Call::Unrecord { ref bytes } => unrecord(ffi::read_record(bytes), &mut self.more),
            Call::Unrecord1 { ref bytes } => unrecord(ffi::read_record_kind_1(bytes), &mut self.more),
        };
        self.answer()
    }

    /// The answer to the last call.
    pub fn answer(&self) -> Answer<'_> {
        let ffi::Answer { number, value, count } = self.answer;
        let count = count as usize;
        let (pins, levels, cycles, sources) = (&self.pins[..count], &self.levels[..count], &self.cycles[..count], &self.sources[..count]);
        Answer { number, value, pins, levels, cycles, sources, more: &self.more, bytes: &self.bytes }
    }

    /// The cycle of a timer's next event; `None` if it is stopped or there is no such timer.
    pub fn booked(&self, timer: u32) -> Option<u64> {
        let a = self.state.booked(timer);
        (a.number == 0 && a.value != u64::MAX).then_some(a.value)
    }
}

/// The places that a call is lent.
fn book(call: &Call) -> u64 {
    match *call {
        Call::Pin { book, .. }
        | Call::Drive { book, .. }
        | Call::ResetPins { book, .. }
        | Call::Write { book, .. }
        | Call::Reset { book, .. }
        | Call::Deliver { book, .. } => book,
        _ => 0,
    }
}

/// The setting's numbers stand behind the three; a refusal has none.
fn small_pilot(n: u32, k: u32, more: &mut Vec<u32>) -> ffi::Answer {
    let ffi::Listed { number, reload, prescaler, compare, mode, down } = ffi::pilot(n, k);
    if number == 0 {
        more.extend([reload, prescaler, compare, mode, down]);
    }
    ffi::Answer { value: 0, number, count: 0 }
}

/// The record's bytes stand behind the three numbers, the last of which counts them; a refusal has none. No record has more than 15.
fn record(timer: [u64; 8], places: u64, bytes: &mut Vec<u8>) -> ffi::Answer {
    let mut lent = [0; RECORD];
    let stored = ffi::write_record(&mut lent[..places.min(RECORD as u64) as usize], timer);
    bytes.extend(&lent[..stored.count as usize]);
    ffi::Answer { value: 0, number: stored.number, count: 0 }
}

/// The timer's numbers stand behind the three; a refusal has none.
fn unrecord(read: ffi::Read, more: &mut Vec<u32>) -> ffi::Answer {
    let ffi::Settings { number, width, channels, bus, word, bit, irq, manual } = read.timer;
    if read.number == 0 {
        more.extend([number, width, channels, bus, word, bit, irq, manual]);
    }
    ffi::Answer { value: 0, number: read.number, count: 0 }
}

impl Answer<'_> {
    /// The entries' pins, levels and cycles, in order.
    pub fn entries(&self) -> impl Iterator<Item = (u8, u8, u64)> + '_ {
        self.pins.iter().zip(self.levels).zip(self.cycles).map(|((&pin, &level), &cycle)| (pin, level, cycle))
    }

    /// `NUMBER VALUE COUNT`, then ` PIN:LEVEL@CYCLE/SOURCE` for each entry, or the numbers or bytes behind the three, and the line's end.
    pub fn write(&self, out: &mut impl Write) -> io::Result<()> {
        write!(out, "{} {} {}", self.number, self.value, self.cycles.len() + self.bytes.len())?;
        for ((pin, level, cycle), source) in self.entries().zip(self.sources) {
            write!(out, " {pin}:{level}@{cycle}/{source}")?;
        }
        for number in self.more {
            write!(out, " {number}")?;
        }
        for (i, byte) in self.bytes.iter().enumerate() {
            write!(out, "{}{byte:02x}", if i == 0 { " " } else { "" })?;
        }
        out.write_all(b"\n")
    }
}
