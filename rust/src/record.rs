//! A timer's settings as bytes, to be kept (document 02, F-10). docs/RECORDS.md has the format, byte by byte.

use crate::ffi::{self, Settings};
use crate::{Error, Limit, Setting, TimerSpec};

/// Bytes of the longest record, kind 2's.
pub const RECORD: usize = 15;

impl TimerSpec {
    /// The timer's record: kind 2, 15 bytes, for a timer in manual mode, else kind 1, 14 bytes.
    ///
    /// Refused with 1 for a setting that no board takes, and for a bus other than 1 to 4, which a board takes and a record cannot hold.
    ///
    /// ```
    /// use board::{Error, Limit, Setting, TimerSpec};
    ///
    /// let spec = TimerSpec::new(2).width(32).enable(3, 0).irq(28);
    /// assert_eq!(spec.to_record()?, [12, 0, 1, 0, 2, 32, 4, 0, 3, 0, 28, 0, 0, 0]);
    /// assert_eq!(spec.manual(true).to_record()?, [13, 0, 2, 0, 2, 32, 4, 0, 3, 0, 28, 0, 0, 0, 1]);
    /// assert_eq!(spec.bus(5).to_record(), Err(Error::WrongBoard(Limit::Record(Setting::Bus(5)))));
    /// # Ok::<(), Error>(())
    /// ```
    pub fn to_record(&self) -> Result<Vec<u8>, Error> {
        let mut places = [0; RECORD];
        let count = self.write_record(&mut places)?;
        Ok(places[..count].to_vec())
    }

    /// Writes the record to the front of `places` and gives its length; the places behind it stay as they were. Refused with 13 where they are too few, then
    /// as [`to_record`](Self::to_record); nothing is written then.
    ///
    /// ```
    /// use board::{Error, TimerSpec};
    ///
    /// let mut places = [0xff; 16];
    /// assert_eq!(TimerSpec::new(2).write_record(&mut places), Ok(14));
    /// assert_eq!(places[13..], [0xff; 3]); // the last byte of the interrupt, and two that are not the record's
    /// assert_eq!(TimerSpec::new(2).write_record(&mut places[..13]), Err(Error::CutShort { given: 13, needed: Some(14) }));
    /// ```
    pub fn write_record(&self, places: &mut [u8]) -> Result<usize, Error> {
        let TimerSpec { number, width, channels, bus, word, bit, irq, manual } = *self;
        let stored = ffi::write_record(places, [number, width, channels, bus, word, bit, irq, manual.into()].map(u64::from));
        match stored.number {
            0 => Ok(stored.count as usize),
            1 => Err(wrong(Setting::first([number, width, channels, bus, word, bit]))),
            13 => Err(Error::CutShort { given: places.len(), needed: Some(if manual { 15 } else { 14 }) }),
            n => Err(Error::Other(n as u8)),
        }
    }

    /// The timer whose record stands at the front of `bytes`, and the record's length. What stands behind it is passed over.
    ///
    /// ```
    /// use board::{Error, TimerSpec};
    ///
    /// let spec = TimerSpec::new(3).manual(true);
    /// let mut bytes = spec.to_record()?;
    /// bytes.push(7);
    /// assert_eq!(TimerSpec::from_record(&bytes), Ok((spec, 15)));
    /// assert_eq!(TimerSpec::from_record(&bytes[..14]), Err(Error::CutShort { given: 14, needed: Some(15) }));
    /// bytes[2] = 9;
    /// assert_eq!(TimerSpec::from_record(&bytes), Err(Error::StrangeKind { kind: 9 }));
    /// # Ok::<(), Error>(())
    /// ```
    pub fn from_record(bytes: &[u8]) -> Result<(Self, usize), Error> {
        taken(ffi::read_record(bytes), bytes)
    }

    /// The same of kind 1 alone, as it was before there was manual mode: kind 2 is strange to it.
    ///
    /// ```
    /// use board::{Error, TimerSpec};
    ///
    /// let spec = TimerSpec::new(3);
    /// assert_eq!(TimerSpec::from_record_kind_1(&spec.to_record()?), Ok((spec, 14)));
    /// assert_eq!(TimerSpec::from_record_kind_1(&spec.manual(true).to_record()?), Err(Error::StrangeKind { kind: 2 }));
    /// # Ok::<(), Error>(())
    /// ```
    pub fn from_record_kind_1(bytes: &[u8]) -> Result<(Self, usize), Error> {
        taken(ffi::read_record_kind_1(bytes), bytes)
    }

    /// The timers of records that stand one behind the other, as in a file.
    ///
    /// ```
    /// use board::{Error, Setup, TimerSpec};
    ///
    /// let mut file = Vec::new();
    /// for timer in &Setup::example().timers {
    ///     file.extend(timer.to_record()?);
    /// }
    /// let timers: Result<Vec<TimerSpec>, Error> = TimerSpec::records(&file).collect();
    /// assert_eq!(timers?, Setup::example().timers);
    /// # Ok::<(), Error>(())
    /// ```
    pub fn records(bytes: &[u8]) -> Records<'_> {
        Records { bytes }
    }
}

/// The records of a file, one behind the other; see [`TimerSpec::records`].
///
/// A record that is refused with 14, 15 or 1 has a length of its own, and the next one stands behind it: a program of today passes over the kinds of
/// later years. Behind one that is cut short nothing can be found, and it is the last.
///
/// ```
/// use board::{Error, TimerSpec};
///
/// let mut file = vec![4, 0, 99, 0, 1, 2]; // a kind that is not known
/// file.extend(TimerSpec::new(5).to_record()?);
/// file.extend([12, 0, 1]); // cut short
/// let mut records = TimerSpec::records(&file);
/// assert_eq!(records.next(), Some(Err(Error::StrangeKind { kind: 99 })));
/// assert_eq!(records.next(), Some(Ok(TimerSpec::new(5))));
/// assert_eq!(records.next(), Some(Err(Error::CutShort { given: 3, needed: Some(14) })));
/// assert_eq!(records.next(), None);
/// # Ok::<(), Error>(())
/// ```
#[derive(Clone, Debug)]
pub struct Records<'a> {
    bytes: &'a [u8],
}

impl Iterator for Records<'_> {
    type Item = Result<TimerSpec, Error>;

    fn next(&mut self) -> Option<Self::Item> {
        if self.bytes.is_empty() {
            return None;
        }
        let read = TimerSpec::from_record(self.bytes);
        let taken = match read {
            Ok((_, taken)) => taken,
            Err(Error::CutShort { .. }) => self.bytes.len(),
            Err(_) => 2 + usize::from(two(self.bytes, 0)),
        };
        self.bytes = self.bytes.get(taken..).unwrap_or_default();
        Some(read.map(|(timer, _)| timer))
    }
}

impl std::iter::FusedIterator for Records<'_> {}

fn two(bytes: &[u8], at: usize) -> u16 {
    u16::from_le_bytes([bytes[at], bytes[at + 1]])
}

fn wrong(setting: Option<Setting>) -> Error {
    Error::WrongBoard(setting.map_or(Limit::Unknown, Limit::Record))
}

/// What a reader answered, and what it was refused for.
fn taken(read: ffi::Read, bytes: &[u8]) -> Result<(TimerSpec, usize), Error> {
    let Settings { number, width, channels, bus, word, bit, irq, manual } = read.timer;
    match read.number {
        0 => Ok((TimerSpec { number, width, channels, bus, word, bit, irq, manual: manual != 0 }, read.count as usize)),
        // A kind that is known, and its length: the settings are all there.
        1 => {
            let [number, width, channels, bus, word, bit] = [4, 5, 6, 7, 8, 9].map(|i| u32::from(bytes[i]));
            let added = (two(bytes, 2) == 2 && bytes[14] != 1).then(|| Setting::Added(bytes[14]));
            Err(wrong(added.or(Setting::first([number, width, channels, bus + 1, word, bit]))))
        }
        13 => {
            let needed = match bytes {
                [low, high, ..] => Some(2 + usize::from(u16::from_le_bytes([*low, *high]))).filter(|&n| n >= 4),
                _ => Some(2),
            };
            Err(Error::CutShort { given: bytes.len(), needed })
        }
        14 => Err(Error::StrangeKind { kind: two(bytes, 2) }),
        15 => Err(Error::WrongLength { kind: two(bytes, 2), length: two(bytes, 0) }),
        n => Err(Error::Other(n as u8)),
    }
}

impl Setting {
    /// The first of number, width, channels, bus, word and bit that is outside its limits.
    fn first([number, width, channels, bus, word, bit]: [u32; 6]) -> Option<Self> {
        let wrong = [
            (!(1..=24).contains(&number), Setting::Number(number)),
            (width != 16 && width != 32, Setting::Width(width)),
            (channels > 4, Setting::Channels(channels)),
            (!(1..=4).contains(&bus), Setting::Bus(bus)),
            (word > 8, Setting::Word(word)),
            (bit > 31, Setting::Bit(bit)),
        ];
        wrong.into_iter().find(|w| w.0).map(|w| w.1)
    }
}
