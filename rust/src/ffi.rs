//! The library's own interface: every exported function once, safe to call, nothing decided here. [`Board`](crate::Board)
//! is what a server uses; this is for comparisons and benchmarks, which lend books of their own and look at the state.
//!
//! The only `unsafe` of the crate. No exported function asks anything of its arguments. What is left to this file: the
//! pointers are live, do not overlap, and are as long as said. The state's two lengths are the library's own,
//! [`words`] and [`reals`], and a [`State`] cannot be made with others. A shift's two are in the types, [`KEPT`] and [`FIGURES`].
//!
//! ```
//! use board::ffi::{Book, State};
//!
//! // One timer, TIM2, and one pin whose function 1 is its first channel.
//! let mut table = [0; 16];
//! table[1] = 194;
//! let mut state = State::new();
//! assert_eq!(state.set_up(16e6, 3.3, 1, 0, &[2, 32, 4, 1, 3, 0, 0], &table).number, 0);
//!
//! // A pin set to an output that is high: one entry, in place 0 of the lent book.
//! let (mut pins, mut levels, mut cycles, mut sources) = ([0; 4], [0; 4], [0; 4], [0; 4]);
//! let mut book = Book { pins: &mut pins, levels: &mut levels, cycles: &mut cycles, sources: &mut sources };
//! let answer = state.set_pin(&mut book, 0, 1, 0, 1, 0, 0, 0, 20);
//! assert_eq!((answer.number, answer.count), (0, 1));
//! assert_eq!((pins[0], levels[0], cycles[0], sources[0]), (0, 1, 20, 1)); // 1: the chip
//! assert_eq!(state.level(0).value, 1 + 2 * 1);
//!
//! // The duty report of what the book holds, from cycle 0 to 100.
//! use board::ffi::{begin, end, feed, FIGURES, KEPT};
//! let (mut kept, mut figures) = ([0; KEPT], [0; FIGURES]);
//! begin(&mut kept, &[0; 4], 0, 100);
//! feed(&mut kept, &pins[..1], &levels[..1], &cycles[..1]);
//! let summary = end(&kept, &mut figures);
//! assert_eq!((summary.number, summary.high, &figures[..3]), (0, 1, &[80, 20, 1][..]));
//! ```

/// What every call answers.
#[repr(C)]
#[derive(Clone, Copy, Debug, PartialEq, Eq)]
pub struct Answer {
    /// The register, the events handled, what a query asks, else 0.
    pub value: u64,
    /// 0 served, else the number of [`Error`](crate::Error).
    pub number: u32,
    /// Entries made in the book.
    pub count: u32,
}

/// A lent book: four slices, filled from place 0. Its length is the shortest of the four.
pub struct Book<'a> {
    /// The pin of each entry.
    pub pins: &'a mut [u8],
    /// The level it took.
    pub levels: &'a mut [u8],
    /// The cycle it did.
    pub cycles: &'a mut [u64],
    /// Who held the level then: the number of a [`Source`](crate::Source).
    pub sources: &'a mut [u8],
}

/// A board's state, in the library's layout.
#[derive(Clone)]
pub struct State {
    words: Box<[u64]>,
    reals: Box<[f64]>,
}

/// The words that a shift keeps between its pieces.
pub const KEPT: usize = 515;

/// A report's figures: high cycles, low cycles and edges of each of 128 pins.
pub const FIGURES: usize = 384;

/// What the end of a shift answers.
#[repr(C)]
#[derive(Clone, Copy, Debug, PartialEq, Eq)]
pub struct Summary {
    /// 0 served, else the number of [`Error`](crate::Error): 9 or 10.
    pub number: u32,
    /// Pins that are high at the end of the shift.
    pub high: u32,
}

/// A pilot's setting at a place of the list (document 02, F-9).
#[repr(C)]
#[derive(Clone, Copy, Debug, PartialEq, Eq)]
pub struct Listed {
    /// 0 served, else the number of [`Error`](crate::Error): 12. The rest is 0 then, and for a place past the end.
    pub number: u32,
    /// The reload.
    pub reload: u32,
    /// The prescaler.
    pub prescaler: u32,
    /// The compare.
    pub compare: u32,
    /// 6 or 7.
    pub mode: u32,
    /// 0 up, 1 down.
    pub down: u32,
}

/// A timer's settings as a record has them, and set-up takes them: the bus counts from 1.
#[repr(C)]
#[derive(Clone, Copy, Debug, PartialEq, Eq)]
pub struct Settings {
    /// The n of TIMn.
    pub number: u32,
    /// 16 or 32.
    pub width: u32,
    /// 0 to 4.
    pub channels: u32,
    /// 1 to 4.
    pub bus: u32,
    /// The enable word.
    pub word: u32,
    /// Its bit.
    pub bit: u32,
    /// The interrupt.
    pub irq: u32,
    /// 1 in manual mode, else 0.
    pub manual: u32,
}

/// What the writer of a record answers.
#[repr(C)]
#[derive(Clone, Copy, Debug, PartialEq, Eq)]
pub struct Stored {
    /// 0 served, else the number of [`Error`](crate::Error): 13 or 1.
    pub number: u32,
    /// Bytes written.
    pub count: u32,
}

/// What a reader of records answers.
#[repr(C)]
#[derive(Clone, Copy, Debug, PartialEq, Eq)]
pub struct Read {
    /// 0 served, else the number of [`Error`](crate::Error): 13, 14, 15 or 1. The rest is 0 then.
    pub number: u32,
    /// Bytes that the record took.
    pub count: u32,
    /// The timer.
    pub timer: Settings,
}

// The exports of crates/board_c: tests/header.rs holds these declarations to them, and those of include/pilot_timer.h.
unsafe extern "C" {
    safe fn board_words() -> usize;
    safe fn board_reals() -> usize;
    fn board_blank(words: *mut u64, reals: *mut f64);
    fn board_set_up(words: *mut u64, reals: *mut f64, hz: f64, vcc: f64, pins: u32, lines: u32, timers: *const u32, timers_len: usize, table: *const u32, table_len: usize) -> Answer;
    fn board_set_up_manual(words: *mut u64, reals: *mut f64, hz: f64, vcc: f64, pins: u32, lines: u32, manual: u32, timers: *const u32, timers_len: usize, table: *const u32, table_len: usize) -> Answer;
    fn board_set_clock_tree(words: *mut u64, reals: *mut f64, sysclk_hz: f64, hclk_hz: f64, ppre1: u32, ppre2: u32, ppre3: u32, ppre4: u32, tim1: u32, tim2: u32, cycle: u64) -> Answer;
    fn board_enable(words: *mut u64, reals: *const f64, word: u32, value: u32) -> Answer;
    fn board_set_pin(words: *mut u64, reals: *mut f64, pin: u32, mode: u32, open_drain: u32, out: u32, pullup: u32, pulldown: u32, function: u32, cycle: u64, pins: *mut u8, pins_len: usize, levels: *mut u8, levels_len: usize, cycles: *mut u64, cycles_len: usize, sources: *mut u8, sources_len: usize) -> Answer;
    fn board_drive_pin(words: *mut u64, reals: *mut f64, pin: u32, kind: u32, volts: f64, cycle: u64, pins: *mut u8, pins_len: usize, levels: *mut u8, levels_len: usize, cycles: *mut u64, cycles_len: usize, sources: *mut u8, sources_len: usize) -> Answer;
    fn board_reset_pins(words: *mut u64, reals: *mut f64, cycle: u64, pins: *mut u8, pins_len: usize, levels: *mut u8, levels_len: usize, cycles: *mut u64, cycles_len: usize, sources: *mut u8, sources_len: usize) -> Answer;
    fn board_read(words: *const u64, reals: *const f64, timer: u32, offset: u32, size: u32, cycle: u64) -> Answer;
    fn board_write(words: *mut u64, reals: *mut f64, timer: u32, offset: u32, size: u32, value: u32, cycle: u64, pins: *mut u8, pins_len: usize, levels: *mut u8, levels_len: usize, cycles: *mut u64, cycles_len: usize, sources: *mut u8, sources_len: usize) -> Answer;
    fn board_peek(words: *const u64, reals: *const f64, timer: u32, offset: u32, cycle: u64) -> Answer;
    fn board_reset(words: *mut u64, reals: *mut f64, timer: u32, cycle: u64, pins: *mut u8, pins_len: usize, levels: *mut u8, levels_len: usize, cycles: *mut u64, cycles_len: usize, sources: *mut u8, sources_len: usize) -> Answer;
    fn board_deliver(words: *mut u64, reals: *mut f64, timer: u32, cycle: u64, pins: *mut u8, pins_len: usize, levels: *mut u8, levels_len: usize, cycles: *mut u64, cycles_len: usize, sources: *mut u8, sources_len: usize) -> Answer;
    fn board_booked(words: *const u64, reals: *const f64, timer: u32) -> Answer;
    fn board_next(words: *const u64, reals: *const f64) -> Answer;
    fn board_level(words: *const u64, reals: *const f64, pin: u32) -> Answer;
    fn board_volts(words: *const u64, reals: *const f64, pin: u32) -> Answer;
    fn board_line(words: *const u64, reals: *const f64, irq: u32) -> Answer;
    fn board_time(words: *const u64, reals: *const f64, cycle: u64) -> Answer;
    fn board_why(words: *const u64, reals: *const f64, pin: u32, cycle: u64) -> Answer;
    fn board_clear_pending(words: *mut u64, reals: *const f64, irq: u32) -> Answer;
    safe fn small_pilot(n: u32, k: u32) -> Listed;
}

// The exports of crates/shift_c.
unsafe extern "C" {
    fn shift_begin(kept: *mut u64, words: *const u32, from: u64, to: u64);
    fn shift_feed(kept: *mut u64, pins: *const u8, pins_len: usize, levels: *const u8, levels_len: usize, cycles: *const u64, cycles_len: usize);
    fn shift_end(kept: *const u64, figures: *mut u64) -> Summary;
    fn shift_report(figures: *mut u64, words: *const u32, from: u64, to: u64, pins: *const u8, pins_len: usize, levels: *const u8, levels_len: usize, cycles: *const u64, cycles_len: usize) -> Summary;
}

// The exports of crates/settings_c.
unsafe extern "C" {
    fn record_write(out: *mut u8, out_len: usize, number: u64, width: u64, channels: u64, bus: u64, word: u64, bit: u64, irq: u64, manual: u64) -> Stored;
    fn record_read(bytes: *const u8, bytes_len: usize) -> Read;
    fn record_read_kind_1(bytes: *const u8, bytes_len: usize) -> Read;
}

/// A call that reads the state.
macro_rules! ask {
    ($f:ident, $s:ident $(, $arg:expr)*) => {
        // SAFETY: two live arrays of the library's own lengths.
        unsafe { $f($s.words.as_ptr(), $s.reals.as_ptr() $(, $arg)*) }
    };
}

/// A call that changes the state.
macro_rules! change {
    ($f:ident, $s:ident $(, $arg:expr)*) => {
        // SAFETY: as above, held exclusively; other slices are passed with their lengths.
        unsafe { $f($s.words.as_mut_ptr(), $s.reals.as_mut_ptr() $(, $arg)*) }
    };
}

/// A call that changes the state and is lent a book.
macro_rules! lend {
    ($f:ident, $s:ident, $b:ident $(, $arg:expr)*) => {
        change!($f, $s $(, $arg)*, $b.pins.as_mut_ptr(), $b.pins.len(), $b.levels.as_mut_ptr(), $b.levels.len(), $b.cycles.as_mut_ptr(), $b.cycles.len(), $b.sources.as_mut_ptr(), $b.sources.len())
    };
}

/// The words of a state.
pub fn words() -> usize {
    board_words()
}

/// The floats of a state.
pub fn reals() -> usize {
    board_reals()
}

/// The setting at place k of the pilots up to n. [`SmallPilots`](crate::SmallPilots) says more.
///
/// ```
/// use board::ffi::{pilot, Listed};
///
/// assert_eq!(pilot(1, 47), Listed { number: 0, reload: 1, prescaler: 1, compare: 2, mode: 7, down: 1 });
/// assert_eq!((pilot(1, 48).mode, pilot(8, 0).number), (0, 12));
/// ```
pub fn pilot(n: u32, k: u32) -> Listed {
    small_pilot(n, k)
}

impl Default for State {
    fn default() -> Self {
        Self::new()
    }
}

/// The exported functions, as they are. [`Board`](crate::Board) says what each does.
#[allow(clippy::too_many_arguments)]
impl State {
    /// The first board: no timers, pins or lines.
    pub fn new() -> Self {
        let mut s = Self { words: vec![0; words()].into(), reals: vec![0.0; reals()].into() };
        s.blank();
        s
    }

    /// A state of these words and floats; `None` if they are not as many as the library has. Every content is a board.
    pub fn of(words: Box<[u64]>, reals: Box<[f64]>) -> Option<Self> {
        (words.len() == self::words() && reals.len() == self::reals()).then_some(Self { words, reals })
    }

    /// The state's words, in a layout that is the library's alone.
    pub fn words(&self) -> &[u64] {
        &self.words
    }

    /// The state's floats.
    pub fn reals(&self) -> &[f64] {
        &self.reals
    }

    /// Takes over another board's state.
    pub fn copy_from(&mut self, other: &State) {
        self.words.copy_from_slice(&other.words);
        self.reals.copy_from_slice(&other.reals);
    }

    /// The same to the last bit.
    pub fn same(&self, other: &State) -> bool {
        self.words == other.words && self.reals.iter().zip(&other.reals).all(|(a, b)| a.to_bits() == b.to_bits())
    }

    /// The first board again.
    #[inline]
    pub fn blank(&mut self) {
        change!(board_blank, self)
    }

    /// Set up, no timer in manual mode. `timers`: seven numbers each, as in [`TimerSpec`](crate::TimerSpec). `table`: 16 signals a pin.
    #[inline]
    pub fn set_up(&mut self, hz: f64, vcc: f64, pins: u32, lines: u32, timers: &[u32], table: &[u32]) -> Answer {
        change!(board_set_up, self, hz, vcc, pins, lines, timers.as_ptr(), timers.len(), table.as_ptr(), table.len())
    }

    /// Set up with timer i in manual mode where bit i of `manual` is 1; a bit of no timer says nothing.
    #[inline]
    pub fn set_up_manual(&mut self, hz: f64, vcc: f64, pins: u32, lines: u32, manual: u32, timers: &[u32], table: &[u32]) -> Answer {
        change!(board_set_up_manual, self, hz, vcc, pins, lines, manual, timers.as_ptr(), timers.len(), table.as_ptr(), table.len())
    }

    /// Changes the clock tree. `dividers`: PPRE1 to PPRE4, TIM1, TIM2.
    #[inline]
    pub fn set_clock_tree(&mut self, sysclk_hz: f64, hclk_hz: f64, dividers: [u32; 6], cycle: u64) -> Answer {
        let [ppre1, ppre2, ppre3, ppre4, tim1, tim2] = dividers;
        change!(board_set_clock_tree, self, sysclk_hz, hclk_hz, ppre1, ppre2, ppre3, ppre4, tim1, tim2, cycle)
    }

    /// Writes an enable word.
    #[inline]
    pub fn enable(&mut self, word: u32, value: u32) -> Answer {
        change!(board_enable, self, word, value)
    }

    /// Sets a pin; `mode` 0 to 3, `function` mod 16, the others yes or no.
    #[inline]
    pub fn set_pin(&mut self, book: &mut Book, pin: u32, mode: u32, open_drain: u32, out: u32, pullup: u32, pulldown: u32, function: u32, cycle: u64) -> Answer {
        lend!(board_set_pin, self, book, pin, mode, open_drain, out, pullup, pulldown, function, cycle)
    }

    /// Drives a pin from outside. `kind`: 1 low, 2 high, 3 analogue, else nothing.
    #[inline]
    pub fn drive_pin(&mut self, book: &mut Book, pin: u32, kind: u32, volts: f64, cycle: u64) -> Answer {
        lend!(board_drive_pin, self, book, pin, kind, volts, cycle)
    }

    /// Pin reset.
    #[inline]
    pub fn reset_pins(&mut self, book: &mut Book, cycle: u64) -> Answer {
        lend!(board_reset_pins, self, book, cycle)
    }

    /// Reads a register.
    #[inline]
    pub fn read(&self, timer: u32, offset: u32, size: u32, cycle: u64) -> Answer {
        ask!(board_read, self, timer, offset, size, cycle)
    }

    /// Writes a register.
    #[inline]
    pub fn write(&mut self, book: &mut Book, timer: u32, offset: u32, size: u32, value: u32, cycle: u64) -> Answer {
        lend!(board_write, self, book, timer, offset, size, value, cycle)
    }

    /// A register, whatever the clock gate.
    #[inline]
    pub fn peek(&self, timer: u32, offset: u32, cycle: u64) -> Answer {
        ask!(board_peek, self, timer, offset, cycle)
    }

    /// Timer reset.
    #[inline]
    pub fn reset(&mut self, book: &mut Book, timer: u32, cycle: u64) -> Answer {
        lend!(board_reset, self, book, timer, cycle)
    }

    /// Delivers what is due.
    #[inline]
    pub fn deliver(&mut self, book: &mut Book, timer: u32, cycle: u64) -> Answer {
        lend!(board_deliver, self, book, timer, cycle)
    }

    /// A timer's booked cycle, 2^64 - 1 if none.
    #[inline]
    pub fn booked(&self, timer: u32) -> Answer {
        ask!(board_booked, self, timer)
    }

    /// The least booked cycle, 2^64 - 1 if none.
    #[inline]
    pub fn next(&self) -> Answer {
        ask!(board_next, self)
    }

    /// A pin's level, 0 or 1, plus twice its source, 1 to 4.
    #[inline]
    pub fn level(&self, pin: u32) -> Answer {
        ask!(board_level, self, pin)
    }

    /// A pin's volts, as bits.
    #[inline]
    pub fn volts(&self, pin: u32) -> Answer {
        ask!(board_volts, self, pin)
    }

    /// An interrupt line: 1 if high plus 2 if pending.
    #[inline]
    pub fn line(&self, irq: u32) -> Answer {
        ask!(board_line, self, irq)
    }

    /// The time of a cycle in seconds, as bits.
    #[inline]
    pub fn time(&self, cycle: u64) -> Answer {
        ask!(board_time, self, cycle)
    }

    /// Why a pin is low at a cycle, 0 to 10; see [`Reason`](crate::Reason).
    #[inline]
    pub fn why(&self, pin: u32, cycle: u64) -> Answer {
        ask!(board_why, self, pin, cycle)
    }

    /// Clears a pending interrupt.
    #[inline]
    pub fn clear_pending(&mut self, irq: u32) -> Answer {
        change!(board_clear_pending, self, irq)
    }
}

/// A shift begins: `levels` before the first entry, pin i at bit i mod 32 of word i div 32.
#[inline]
pub fn begin(kept: &mut [u64; KEPT], levels: &[u32; 4], from: u64, to: u64) {
    // SAFETY: live arrays of the library's lengths, the first held exclusively.
    unsafe { shift_begin(kept.as_mut_ptr(), levels.as_ptr(), from, to) }
}

/// The entries of a book more, as many as its shortest slice has.
#[inline]
pub fn feed(kept: &mut [u64; KEPT], pins: &[u8], levels: &[u8], cycles: &[u64]) {
    // SAFETY: as above; slices are passed with their lengths.
    unsafe { shift_feed(kept.as_mut_ptr(), pins.as_ptr(), pins.len(), levels.as_ptr(), levels.len(), cycles.as_ptr(), cycles.len()) }
}

/// The report: high, low and edges of pin i at the places 3 i, 3 i + 1, 3 i + 2. Refused, it writes nothing.
#[inline]
pub fn end(kept: &[u64; KEPT], figures: &mut [u64; FIGURES]) -> Summary {
    // SAFETY: as above.
    unsafe { shift_end(kept.as_ptr(), figures.as_mut_ptr()) }
}

/// Begin, one feed and end.
#[inline]
pub fn report(figures: &mut [u64; FIGURES], words: &[u32; 4], from: u64, to: u64, pins: &[u8], levels: &[u8], cycles: &[u64]) -> Summary {
    // SAFETY: as above.
    unsafe { shift_report(figures.as_mut_ptr(), words.as_ptr(), from, to, pins.as_ptr(), pins.len(), levels.as_ptr(), levels.len(), cycles.as_ptr(), cycles.len()) }
}

/// Writes a timer's record to the front of `places`: number, width, channels, bus, enable word, enable bit, interrupt, manual mode.
/// [`TimerSpec::write_record`](crate::TimerSpec::write_record) says more; here an interrupt may be above 2^32 − 1, and is refused.
///
/// ```
/// use board::ffi::{write_record, Stored};
///
/// let mut places = [0; 15];
/// assert_eq!(write_record(&mut places, [2, 32, 4, 1, 3, 0, 5, 0]), Stored { number: 0, count: 14 });
/// assert_eq!(places, [12, 0, 1, 0, 2, 32, 4, 0, 3, 0, 5, 0, 0, 0, 0]);
/// assert_eq!(write_record(&mut places, [2, 32, 4, 1, 3, 0, 1 << 32, 0]), Stored { number: 1, count: 0 });
/// ```
#[inline]
pub fn write_record(places: &mut [u8], [number, width, channels, bus, word, bit, irq, manual]: [u64; 8]) -> Stored {
    // SAFETY: a live slice with its length, held exclusively.
    unsafe { record_write(places.as_mut_ptr(), places.len(), number, width, channels, bus, word, bit, irq, manual) }
}

/// Reads the record at the front; see [`TimerSpec::from_record`](crate::TimerSpec::from_record).
#[inline]
pub fn read_record(bytes: &[u8]) -> Read {
    // SAFETY: a live slice with its length.
    unsafe { record_read(bytes.as_ptr(), bytes.len()) }
}

/// The same of kind 1 alone; see [`TimerSpec::from_record_kind_1`](crate::TimerSpec::from_record_kind_1).
#[inline]
pub fn read_record_kind_1(bytes: &[u8]) -> Read {
    // SAFETY: as above.
    unsafe { record_read_kind_1(bytes.as_ptr(), bytes.len()) }
}
