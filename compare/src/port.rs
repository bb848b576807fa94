//! The library behind the oracle's `Call`, watched: what it may not touch is looked at after every call.

use std::fmt::{self, Display, Formatter};

use board::ffi::{self, Book, State};
use oracle::record::Fields;
use oracle::{Answer, Aside, Call, Entry, Setup};

/// A book of this many places is as good as any larger one: 100,001 events of 4 entries each, and room for a next.
pub const MOST: u64 = 400_008;
/// A table of this many entries is as wrong as any longer one.
const LONGEST: u32 = 1 << 16;
/// Places behind the lent ones, looked at as well.
const BEHIND: usize = 16;
/// Of a book longer than this, mostly its ends alone are looked at.
const SHORT: usize = 2048;

// No entry has a pin above 127, a level above 1, a cycle above 2^62 or a source above 4.
const PIN: u8 = 0xee;
const LEVEL: u8 = 0xdd;
const CYCLE: u64 = 0xcccc_cccc_cccc_cccc;
const SOURCE: u8 = 0xbb;

/// What a call got wrong, whatever the oracle says of it.
#[derive(Clone, Debug, PartialEq, Eq)]
pub enum Fault {
    /// The answer is not the oracle's.
    Answer { oracle: Answer, port: Answer },
    /// More entries than places.
    Count { count: usize, places: u64 },
    /// A place after the count, or behind the book, was written.
    Place { slice: &'static str, place: usize },
    /// A refused call, a read, a peek or a query changed the state.
    State { word: usize },
}

impl Display for Fault {
    fn fmt(&self, f: &mut Formatter) -> fmt::Result {
        match self {
            Fault::Answer { oracle, port } => write!(f, "oracle {oracle} | port {port}"),
            Fault::Count { count, places } => write!(f, "{count} entries in {places} places"),
            Fault::Place { slice, place } => write!(f, "place {place} of the {slice} was written"),
            Fault::State { word } => write!(f, "a call that may not change the state changed word {word}"),
        }
    }
}

pub struct Port {
    state: State,
    /// The state after the last call that may change it.
    kept: State,
    pins: Vec<u8>,
    levels: Vec<u8>,
    cycles: Vec<u64>,
    sources: Vec<u8>,
    /// Places may be left written.
    dirty: bool,
    calls: usize,
}

impl Default for Port {
    fn default() -> Self {
        Self::new()
    }
}

impl Port {
    /// The first board.
    pub fn new() -> Self {
        let places = MOST as usize + 3 + BEHIND;
        let state = State::new();
        let (pins, levels, cycles, sources) = (vec![PIN; places], vec![LEVEL; places], vec![CYCLE; places], vec![SOURCE; places]);
        Self { kept: state.clone(), state, pins, levels, cycles, sources, dirty: false, calls: 0 }
    }

    /// The first board again.
    pub fn restart(&mut self) {
        self.state.blank();
        self.kept.copy_from(&self.state);
        self.calls = 0;
        if std::mem::take(&mut self.dirty) {
            self.pins.fill(PIN);
            self.levels.fill(LEVEL);
            self.cycles.fill(CYCLE);
            self.sources.fill(SOURCE);
        }
    }

    /// Makes a call and looks at everything around it.
    pub fn call(&mut self, call: &Call) -> Result<Answer, Fault> {
        let answer = self.ask(call)?;
        if changes(call) && matches!(answer.number, 0 | 8) {
            self.kept.copy_from(&self.state);
        } else {
            self.unchanged()?;
        }
        Ok(answer)
    }

    /// Makes a call and looks at the book alone.
    pub fn ask(&mut self, call: &Call) -> Result<Answer, Fault> {
        self.calls += 1;
        let lent = lent(call).min(MOST) as usize;
        let lengths = self.lengths(lent);
        self.dirty = true;
        let a = self.make(call, lengths);
        let count = a.count as usize;
        if count > lent {
            return Err(Fault::Count { count, places: lent as u64 });
        }
        let entry = |i: usize| Entry { pin: self.pins[i] as u16, level: self.levels[i], cycle: self.cycles[i], source: self.sources[i] };
        let entries = (0..count).map(entry).collect();
        self.places(count, lengths)?;
        // A number that is too large is not the oracle's either.
        Ok(Answer { number: u8::try_from(a.number).unwrap_or(u8::MAX), value: a.value, entries })
    }

    /// The board as it stands.
    pub fn state(&self) -> &State {
        &self.state
    }

    /// The state is what it was after the last call that may change it.
    pub fn unchanged(&self) -> Result<(), Fault> {
        if self.state.same(&self.kept) {
            return Ok(());
        }
        let word = self.state.words().iter().zip(self.kept.words()).position(|(a, b)| a != b);
        Err(Fault::State { word: word.unwrap_or(ffi::words()) })
    }

    /// The four slices' lengths: `lent` is the shortest of them, not always the same one.
    fn lengths(&self, lent: usize) -> [usize; 4] {
        let more = [[0, 0, 0, 0], [0, 1, 2, 1], [1, 0, 3, 2], [3, 2, 0, 1], [2, 3, 1, 0], [1, 1, 0, 0], [2, 0, 0, 3]][self.calls % 7];
        more.map(|m| lent + m)
    }

    fn make(&mut self, call: &Call, [p, l, c, o]: [usize; 4]) -> ffi::Answer {
        let book = &mut Book { pins: &mut self.pins[..p], levels: &mut self.levels[..l], cycles: &mut self.cycles[..c], sources: &mut self.sources[..o] };
        let s = &mut self.state;
        match *call {
            Call::Setup(ref set) => set_up(s, set),
            Call::Clock { sys, hclk, dividers, cycle } => s.set_clock_tree(f64::from_bits(sys), f64::from_bits(hclk), dividers, cycle),
            Call::Enable { word, value } => s.enable(word, value),
            Call::Pin { pin, mode, open_drain, out, pullup, pulldown, function, cycle, .. } => {
                s.set_pin(book, pin, mode, open_drain, out, pullup, pulldown, function, cycle)
            }
            Call::Drive { pin, kind, volts, cycle, .. } => s.drive_pin(book, pin, kind, f64::from_bits(volts), cycle),
            Call::ResetPins { cycle, .. } => s.reset_pins(book, cycle),
            Call::Read { timer, offset, size, cycle } => s.read(timer, offset, size, cycle),
            Call::Write { timer, offset, size, value, cycle, .. } => s.write(book, timer, offset, size, value, cycle),
            Call::Peek { timer, offset, cycle } => s.peek(timer, offset, cycle),
            Call::Reset { timer, cycle, .. } => s.reset(book, timer, cycle),
            Call::Deliver { timer, cycle, .. } => s.deliver(book, timer, cycle),
            Call::Booked { timer } => s.booked(timer),
            Call::Next => s.next(),
            Call::Level { pin } => s.level(pin),
            Call::Volts { pin } => s.volts(pin),
            Call::Line { irq } => s.line(irq),
            Call::Time { cycle } => s.time(cycle),
            Call::Clear { irq } => s.clear_pending(irq),
            Call::Why { pin, cycle } => s.why(pin, cycle),
        }
    }

    /// Nothing was written from `count` on; then the places used are made untouched again.
    fn places(&mut self, count: usize, [p, l, c, o]: [usize; 4]) -> Result<(), Fault> {
        let all = self.calls.is_multiple_of(16);
        let touched = |slice, place| Err(Fault::Place { slice, place });
        if let Some(i) = written(&self.pins, PIN, count, p, all) {
            return touched("pins", i);
        }
        if let Some(i) = written(&self.levels, LEVEL, count, l, all) {
            return touched("levels", i);
        }
        if let Some(i) = written(&self.cycles, CYCLE, count, c, all) {
            return touched("cycles", i);
        }
        if let Some(i) = written(&self.sources, SOURCE, count, o, all) {
            return touched("sources", i);
        }
        self.pins[..count].fill(PIN);
        self.levels[..count].fill(LEVEL);
        self.cycles[..count].fill(CYCLE);
        self.sources[..count].fill(SOURCE);
        self.dirty = false;
        Ok(())
    }
}

/// The first place from `count` on, up to some behind `len`, that is not `blank`. Of a long book the middle is looked
/// at only if `all`.
fn written<T: Copy + PartialEq>(slice: &[T], blank: T, count: usize, len: usize, all: bool) -> Option<usize> {
    let end = len + BEHIND;
    let look = |from: usize, to: usize| slice[from..to].iter().position(|&x| x != blank).map(|i| from + i);
    if all || end - count <= SHORT {
        look(count, end)
    } else {
        look(count, count + SHORT / 2).or_else(|| look(end - SHORT / 2, end))
    }
}

fn set_up(s: &mut State, set: &Setup) -> ffi::Answer {
    let timers: Vec<u32> = set.timers.iter().flat_map(|t| [t.number, t.width, t.channels, t.bus, t.word, t.bit, t.irq]).collect();
    let mut table = vec![0; set.len.min(LONGEST) as usize];
    for &(i, signal) in &set.signals {
        if let Some(entry) = table.get_mut(i as usize) {
            *entry = signal;
        }
    }
    let (hz, vcc) = (f64::from_bits(set.hz), f64::from_bits(set.vcc));
    match set.manual {
        0 => s.set_up(hz, vcc, set.pins, set.lines, &timers, &table),
        manual => s.set_up_manual(hz, vcc, set.pins, set.lines, manual, &timers, &table),
    }
}

/// The places lent to a call; those that are lent none get 0 of them.
fn lent(call: &Call) -> u64 {
    match *call {
        Call::Pin { book, .. }
        | Call::Drive { book, .. }
        | Call::ResetPins { book, .. }
        | Call::Write { book, .. }
        | Call::Reset { book, .. }
        | Call::Deliver { book, .. } => book,
        _ => 0,
    }
}

/// The call may change the state, if it is served.
fn changes(call: &Call) -> bool {
    !matches!(
        call,
        Call::Read { .. } | Call::Peek { .. } | Call::Booked { .. } | Call::Next | Call::Level { .. } | Call::Volts { .. } | Call::Line { .. } | Call::Time { .. }
            | Call::Why { .. }
    )
}

/// What the library answers to a line that asks the board nothing, as a line.
pub fn aside(aside: &Aside) -> String {
    match *aside {
        Aside::Record { timer, places } => oracle::record::write_line(write_record(&timer, places)),
        Aside::Unrecord { latest, ref bytes } => oracle::record::read_line(read_record(bytes, latest)),
        Aside::Pilot { n, k } => match ffi::pilot(n, k) {
            ffi::Listed { number: 0, reload, prescaler, compare, mode, down } => format!("0 0 0 {reload} {prescaler} {compare} {mode} {down}"),
            refused => format!("{} 0 0", refused.number),
        },
    }
}

/// The library's writer as the oracle's: the record's bytes, or a number. A place behind them that is touched is told.
pub fn write_record(timer: &Fields, places: u64) -> Result<Vec<u8>, u8> {
    const UNTOUCHED: u8 = 0xa5;
    let mut lent = vec![UNTOUCHED; places.min(64) as usize];
    let stored = ffi::write_record(&mut lent, *timer);
    let count = stored.count as usize;
    assert!(lent[count..].iter().all(|&b| b == UNTOUCHED), "{timer:?} with {places} places touches {lent:?} behind {count}");
    if stored.number == 0 { Ok(lent[..count].to_vec()) } else { Err(stored.number as u8) }
}

/// The library's readers as the oracle's.
pub fn read_record(bytes: &[u8], latest: u16) -> Result<(Fields, usize), u8> {
    let read = if latest == 1 { ffi::read_record_kind_1(bytes) } else { ffi::read_record(bytes) };
    let ffi::Settings { number, width, channels, bus, word, bit, irq, manual } = read.timer;
    let fields = [number, width, channels, bus, word, bit, irq, manual].map(u64::from);
    if read.number == 0 {
        return Ok((fields, read.count as usize));
    }
    assert_eq!((fields, read.count), ([0; 8], 0), "{bytes:?} is refused with {} and has settings", read.number);
    Err(read.number as u8)
}
