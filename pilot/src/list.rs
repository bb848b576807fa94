//! The call list as text (docs/CALLS.md): a line to a call. A later request's call is a row of [`FORMS`] more.

use std::fmt::{self, Display, Formatter};

/// A set-up as it is written, for the board to judge.
#[derive(Clone, Debug, Default, PartialEq)]
pub struct SetUp {
    pub hz: f64,
    pub vcc: f64,
    pub pins: u32,
    pub lines: u32,
    /// Seven numbers each.
    pub timers: Vec<u32>,
    /// LEN, cut off at [`LONGEST`], and its entries.
    pub table: Vec<u32>,
    /// MASK: timer i is in manual mode where bit i is 1.
    pub manual: u32,
}

/// A call. Numbers are as they are written.
#[derive(Clone, Debug, PartialEq)]
pub enum Call {
    SetUp(SetUp),
    /// `dividers`: PPRE1 to PPRE4, TIM1, TIM2.
    Clock { sys: f64, hclk: f64, dividers: [u32; 6], cycle: u64 },
    Enable { word: u32, value: u32 },
    Pin { pin: u32, mode: u32, open_drain: u32, out: u32, pullup: u32, pulldown: u32, function: u32, cycle: u64, book: u64 },
    Drive { pin: u32, kind: u32, volts: f64, cycle: u64, book: u64 },
    ResetPins { cycle: u64, book: u64 },
    Read { timer: u32, offset: u32, size: u32, cycle: u64 },
    Write { timer: u32, offset: u32, size: u32, value: u32, cycle: u64, book: u64 },
    Peek { timer: u32, offset: u32, cycle: u64 },
    Reset { timer: u32, cycle: u64, book: u64 },
    Deliver { timer: u32, cycle: u64, book: u64 },
    Booked { timer: u32 },
    Next,
    Level { pin: u32 },
    Volts { pin: u32 },
    Line { irq: u32 },
    Time { cycle: u64 },
    Clear { irq: u32 },
    Why { pin: u32, cycle: u64 },
    /// The setting at place `k` of the pilots up to `n`: no board is asked.
    SmallPilot { n: u32, k: u32 },
    /// A timer's record written; the bytes of one read, and read by the reader of kind 1 alone. No board is asked either.
    Record { timer: [u64; 8], places: u64 },
    Unrecord { bytes: Vec<u8> },
    Unrecord1 { bytes: Vec<u8> },
}

/// How the numbers behind a call's word make the call.
type Form = fn(&mut Numbers) -> Result<Call, Malformed>;

/// The calls' words. Numbers are read in the order written here, which is the line's.
const FORMS: &[(&str, Form)] = &[
    ("setup", |n| n.set_up()),
    ("clock", |n| Ok(Call::Clock { sys: n.float()?, hclk: n.float()?, dividers: n.dividers()?, cycle: n.wide()? })),
    ("enable", |n| Ok(Call::Enable { word: n.short()?, value: n.short()? })),
    ("pin", |n| {
        Ok(Call::Pin {
            pin: n.short()?,
            mode: n.short()?,
            open_drain: n.short()?,
            out: n.short()?,
            pullup: n.short()?,
            pulldown: n.short()?,
            function: n.short()?,
            cycle: n.wide()?,
            book: n.wide()?,
        })
    }),
    ("drive", |n| Ok(Call::Drive { pin: n.short()?, kind: n.below(4)?, volts: n.float()?, cycle: n.wide()?, book: n.wide()? })),
    ("reset-pins", |n| Ok(Call::ResetPins { cycle: n.wide()?, book: n.wide()? })),
    ("read", |n| Ok(Call::Read { timer: n.short()?, offset: n.short()?, size: n.short()?, cycle: n.wide()? })),
    ("write", |n| {
        Ok(Call::Write {
            timer: n.short()?,
            offset: n.short()?,
            size: n.short()?,
            value: n.short()?,
            cycle: n.wide()?,
            book: n.wide()?,
        })
    }),
    ("peek", |n| Ok(Call::Peek { timer: n.short()?, offset: n.short()?, cycle: n.wide()? })),
    ("reset", |n| Ok(Call::Reset { timer: n.short()?, cycle: n.wide()?, book: n.wide()? })),
    ("deliver", |n| Ok(Call::Deliver { timer: n.short()?, cycle: n.wide()?, book: n.wide()? })),
    ("booked", |n| Ok(Call::Booked { timer: n.short()? })),
    ("next", |_| Ok(Call::Next)),
    ("level", |n| Ok(Call::Level { pin: n.short()? })),
    ("volts", |n| Ok(Call::Volts { pin: n.short()? })),
    ("line", |n| Ok(Call::Line { irq: n.short()? })),
    ("time", |n| Ok(Call::Time { cycle: n.wide()? })),
    ("clear", |n| Ok(Call::Clear { irq: n.short()? })),
    ("why", |n| Ok(Call::Why { pin: n.short()?, cycle: n.wide()? })),
    ("pilot", |n| Ok(Call::SmallPilot { n: n.short()?, k: n.short()? })),
    ("record", |n| Ok(Call::Record { timer: n.timer()?, places: n.wide()? })),
    ("unrecord", |n| Ok(Call::Unrecord { bytes: n.bytes()? })),
    ("unrecord1", |n| Ok(Call::Unrecord1 { bytes: n.bytes()? })),
];

/// A table of this many entries is as wrong as any longer one: the most that is right is 128 pins of 16.
const LONGEST: u64 = 2049;

/// Why a line is no call.
#[derive(Clone, Copy, Debug, PartialEq, Eq)]
pub enum Malformed {
    UnknownWord,
    Missing,
    Surplus,
    NotANumber,
    TooLarge,
}

impl Display for Malformed {
    fn fmt(&self, f: &mut Formatter) -> fmt::Result {
        f.write_str(match self {
            Malformed::UnknownWord => "unknown word",
            Malformed::Missing => "missing number",
            Malformed::Surplus => "surplus number",
            Malformed::NotANumber => "not a number",
            Malformed::TooLarge => "number too large",
        })
    }
}

/// A line without its line feed: a call, or `None` if it has no word.
pub fn parse(line: &[u8]) -> Result<Option<Call>, Malformed> {
    // A carriage return is white space right before the line's end only.
    let line = line.strip_suffix(b"\r").unwrap_or(line);
    let line = line.split(|&b| b == b'#').next().unwrap_or_default();
    let mut words = Words(line);
    let Some(first) = words.next() else { return Ok(None) };
    let (_, form) = FORMS.iter().find(|(word, _)| word.as_bytes() == first).ok_or(Malformed::UnknownWord)?;
    let mut numbers = Numbers(words);
    let call = form(&mut numbers)?;
    match numbers.0.next() {
        Some(_) => Err(Malformed::Surplus),
        None => Ok(Some(call)),
    }
}

/// The words of a line that has no comment.
struct Words<'a>(&'a [u8]);

impl<'a> Iterator for Words<'a> {
    type Item = &'a [u8];

    fn next(&mut self) -> Option<&'a [u8]> {
        let space = |&b: &u8| b == b' ' || b == b'\t';
        let from = self.0.iter().position(|b| !space(b))?;
        let rest = &self.0[from..];
        let (word, rest) = rest.split_at(rest.iter().position(space).unwrap_or(rest.len()));
        self.0 = rest;
        Some(word)
    }
}

/// What a word in a number's place is.
fn number(word: &[u8]) -> Result<u64, Malformed> {
    let (base, digits) = match word {
        [b'0', b'x' | b'X', digits @ ..] => (16, digits),
        digits => (10, digits),
    };
    let mut value = (!digits.is_empty()).then_some(0u64).ok_or(Malformed::NotANumber)?;
    let mut fits = true;
    for &b in digits {
        let digit = char::from(b).to_digit(base).ok_or(Malformed::NotANumber)?;
        match value.checked_mul(base.into()).and_then(|v| v.checked_add(digit.into())) {
            Some(more) => value = more,
            // What is not written as a number is never too large: the rest is looked at first.
            None => fits = false,
        }
    }
    if fits { Ok(value) } else { Err(Malformed::TooLarge) }
}

/// The numbers behind a call's word.
struct Numbers<'a>(Words<'a>);

impl Numbers<'_> {
    /// The next number; `None` at the end of the line.
    fn next(&mut self) -> Result<Option<u64>, Malformed> {
        self.0.next().map(number).transpose()
    }

    /// 64 bits.
    fn wide(&mut self) -> Result<u64, Malformed> {
        self.next()?.ok_or(Malformed::Missing)
    }

    /// A float's 64 bits.
    fn float(&mut self) -> Result<f64, Malformed> {
        self.wide().map(f64::from_bits)
    }

    /// 32 bits.
    fn short(&mut self) -> Result<u32, Malformed> {
        fit(self.wide()?)
    }

    fn below(&mut self, end: u32) -> Result<u32, Malformed> {
        Some(self.short()?).filter(|&n| n < end).ok_or(Malformed::TooLarge)
    }

    fn dividers(&mut self) -> Result<[u32; 6], Malformed> {
        let mut dividers = [0; 6];
        for d in &mut dividers {
            *d = self.short()?;
        }
        Ok(dividers)
    }

    /// The eight numbers of a record.
    fn timer(&mut self) -> Result<[u64; 8], Malformed> {
        let mut timer = [0; 8];
        for field in &mut timer {
            *field = self.wide()?;
        }
        Ok(timer)
    }

    /// An even number of hexadecimal digits, or `-` for no byte.
    fn bytes(&mut self) -> Result<Vec<u8>, Malformed> {
        let word = self.0.next().ok_or(Malformed::Missing)?;
        if word == b"-" {
            return Ok(Vec::new());
        }
        let digit = |b: u8| char::from(b).to_digit(16).ok_or(Malformed::NotANumber);
        let mut bytes = Vec::with_capacity(word.len() / 2);
        for pair in word.chunks(2) {
            let [high, low] = *pair else { return Err(Malformed::NotANumber) };
            bytes.push((digit(high)? << 4 | digit(low)?) as u8);
        }
        Ok(bytes)
    }

    fn set_up(&mut self) -> Result<Call, Malformed> {
        let (hz, vcc) = (self.float()?, self.float()?);
        let (pins, lines) = (self.short()?, self.short()?);
        let mut timers = Vec::new();
        let n = self.short()?;
        for _ in 0..7 * u64::from(n) {
            timers.push(self.short()?);
        }
        let len = u64::from(self.short()?);
        let mut table = vec![0; len.min(LONGEST) as usize];
        let mut manual = 0;
        while let Some(word) = self.0.next() {
            if word == b"manual" {
                manual = self.mask(n)?;
                break;
            }
            let index = number(word)?;
            if index >= len {
                return Err(Malformed::TooLarge);
            }
            let signal = self.short()?;
            if let Some(entry) = table.get_mut(index as usize) {
                *entry = signal;
            }
        }
        Ok(Call::SetUp(SetUp { hz, vcc, pins, lines, timers, table, manual }))
    }

    /// A bit for each of `n` timers.
    fn mask(&mut self, n: u32) -> Result<u32, Malformed> {
        Some(self.short()?).filter(|&mask| u64::from(mask) >> n.min(32) == 0).ok_or(Malformed::TooLarge)
    }
}

fn fit(n: u64) -> Result<u32, Malformed> {
    u32::try_from(n).map_err(|_| Malformed::TooLarge)
}

#[cfg(test)]
mod tests {
    use super::*;

    #[test]
    fn the_words_are_those_of_the_papers_table() {
        let paper = std::fs::read_to_string(concat!(env!("CARGO_MANIFEST_DIR"), "/../docs/CALLS.md")).unwrap();
        let table = paper.split("\n| line | call |\n|---|---|\n").nth(1).unwrap();
        let rows = table.lines().take_while(|l| l.starts_with("| `"));
        let words: Vec<&str> = rows.map(|l| l[3..].split([' ', '`']).next().unwrap()).collect();
        assert_eq!(FORMS.iter().map(|f| f.0).collect::<Vec<_>>(), words);
    }

    #[test]
    fn numbers_go_to_their_places() {
        let read = |line: &str| parse(line.as_bytes()).unwrap().unwrap();
        assert_eq!(
            read("pin 1 2 3 4 5 6 7 8 9"),
            Call::Pin { pin: 1, mode: 2, open_drain: 3, out: 4, pullup: 5, pulldown: 6, function: 7, cycle: 8, book: 9 }
        );
        assert_eq!(read("clock 0x3ff0000000000000 0 1 2 3 4 5 6 7"), Call::Clock { sys: 1.0, hclk: 0.0, dividers: [1, 2, 3, 4, 5, 6], cycle: 7 });
        assert_eq!(read("write 1 2 3 4 5 6"), Call::Write { timer: 1, offset: 2, size: 3, value: 4, cycle: 5, book: 6 });
        assert_eq!(read("drive 1 3 0x4000000000000000 4 5"), Call::Drive { pin: 1, kind: 3, volts: 2.0, cycle: 4, book: 5 });
        assert_eq!(read("\ttime 0XfFfFfFfFfFfFfFfF# all\r"), Call::Time { cycle: u64::MAX });
        assert_eq!(read("pilot 1 2"), Call::SmallPilot { n: 1, k: 2 });
        assert_eq!(read("record 1 2 3 4 5 6 7 8 9"), Call::Record { timer: [1, 2, 3, 4, 5, 6, 7, 8], places: 9 });
        assert_eq!(read("unrecord 0fF0"), Call::Unrecord { bytes: vec![0x0f, 0xf0] });
        assert_eq!(read("unrecord1 -"), Call::Unrecord1 { bytes: vec![] });
        assert_eq!(read("level 00000000000000000000004294967295"), Call::Level { pin: u32::MAX });
    }

    #[test]
    fn a_set_ups_table_has_its_pairs() {
        let Ok(Some(Call::SetUp(s))) = parse(b"setup 0x3ff0000000000000 0 3 4 1 2 32 4 1 3 5 6 48 1 194 1 195 47 7") else { panic!() };
        assert_eq!((s.hz, s.pins, s.lines, s.timers.as_slice()), (1.0, 3, 4, [2, 32, 4, 1, 3, 5, 6].as_slice()));
        // Of two pairs with one index the later holds.
        assert_eq!((s.table.len(), s.table[1], s.table[47], s.table.iter().sum::<u32>()), (48, 195, 7, 202));
        // A table that is too long for every board is kept as one that is.
        let Ok(Some(Call::SetUp(s))) = parse(b"setup 0 0 0 0 0 4294967295 4294967294 1") else { panic!() };
        assert_eq!((s.timers.len(), s.table.len()), (0, 2049));
    }

    #[test]
    fn manual_mode_stands_behind_the_pairs() {
        let read = |rest: &str| match parse(format!("setup 0 0 1 0 2 2 32 4 1 3 0 0 3 16 4 1 3 1 0 16 {rest}").as_bytes()) {
            Ok(Some(Call::SetUp(s))) => Ok((s.manual, s.table[1])),
            Err(e) => Err(e),
            other => panic!("{other:?}"),
        };
        assert_eq!([read(""), read("manual 0"), read("manual 0x3"), read("1 194 manual 2")], [Ok((0, 0)), Ok((0, 0)), Ok((3, 0)), Ok((2, 194))]);
        assert_eq!(read("manual 4"), Err(Malformed::TooLarge));
        assert_eq!(read("manual 4294967296"), Err(Malformed::TooLarge));
        assert_eq!([read("manual"), read("1 manual 1")], [Err(Malformed::Missing), Err(Malformed::NotANumber)]);
        assert_eq!([read("manually 1"), read("Manual 1"), read("manual manual")], [Err(Malformed::NotANumber); 3]);
        assert_eq!([read("manual 1 1"), read("manual 1 manual 1")], [Err(Malformed::Surplus); 2]);
    }

    #[test]
    fn bytes_are_pairs_of_digits() {
        for word in ["0", "000", "0g", "g0", "0x00", "--", "-0", "+1", "0_"] {
            assert_eq!(parse(format!("unrecord {word}").as_bytes()), Err(Malformed::NotANumber), "{word}");
        }
        assert_eq!(parse(b"unrecord"), Err(Malformed::Missing));
        assert_eq!(parse(b"unrecord1 00 -"), Err(Malformed::Surplus));
        assert_eq!(parse(b"record 1 2 3 4 5 6 18446744073709551616 8 9"), Err(Malformed::TooLarge));
    }

    #[test]
    fn lines_without_a_word() {
        for line in ["", " \t", "#", "  # setup", "\r", "\t\r"] {
            assert_eq!(parse(line.as_bytes()), Ok(None), "{line:?}");
        }
    }
}
