//! Cycles as times of a file that has a decimal unit.

use std::fmt::{self, Display, Formatter};

/// A clock from a cycle on.
#[derive(Clone, Copy, Debug, PartialEq)]
pub struct Clock {
    pub from: u64,
    pub hz: f64,
}

/// A file's unit of time.
#[derive(Clone, Copy, Debug, PartialEq, Eq)]
pub enum Unit {
    Cycle,
    /// 10^-k seconds, k at most 15.
    Tenths(u32),
}

const FINEST: u32 = 15;
/// Exact times are looked for down to here, 1 ps.
const FINE: u32 = 12;
const SECONDS: [&str; 6] = ["s", "ms", "us", "ns", "ps", "fs"];
const MULTIPLES: [&str; 3] = ["1", "10", "100"];

impl Unit {
    /// `cycle`, or as `100ns`.
    pub fn parse(word: &str) -> Option<Self> {
        if word == "cycle" {
            return Some(Unit::Cycle);
        }
        (0..=FINEST).map(Unit::Tenths).find(|u| u.to_string().replace(' ', "") == word)
    }
}

/// As the file has it: `100 ns`. A file has to name a time for a cycle, too.
impl Display for Unit {
    fn fmt(&self, f: &mut Formatter) -> fmt::Result {
        match *self {
            Unit::Cycle => f.write_str("1 ns"),
            Unit::Tenths(k) => {
                let up = k.next_multiple_of(3);
                write!(f, "{} {}", MULTIPLES[(up - k) as usize], SECONDS[(up / 3) as usize])
            }
        }
    }
}

/// A stretch of one clock: where it begins, and a cycle's units as a fraction.
#[derive(Clone, Copy, Debug, PartialEq, Eq)]
struct Stretch {
    cycle: u64,
    time: u64,
    num: u128,
    den: u128,
}

/// How cycles become times.
#[derive(Debug)]
pub struct Scale {
    unit: Unit,
    clocks: Vec<Clock>,
    stretches: Vec<Stretch>,
    exact: bool,
}

impl Scale {
    /// `clocks`: at least one, the first from cycle 0 on, in the order of their cycles. `cycles`: those that get a time, the last of them
    /// being `end`.
    pub fn of(clocks: &[Clock], cycles: impl Iterator<Item = u64> + Clone, end: u64, unit: Option<Unit>) -> Result<Self, String> {
        let made = |unit: Unit| Self::made(clocks, cycles.clone(), end, unit);
        if let Some(unit) = unit {
            return made(unit).ok_or_else(|| format!("63 bits do not hold the wave's end in this unit ({unit})"));
        }
        let exact = (0..=FINE).filter_map(|k| made(Unit::Tenths(k))).find(|s| s.exact);
        // No longer than a cycle, so that each cycle still has a time of its own; or coarser, to fit.
        let close = |k: &u32| clocks.iter().all(|c| units(c.hz, *k).is_some_and(|(num, den)| num >= den));
        let close = (0..=FINEST).find(close).unwrap_or(FINEST);
        let near = || (0..=close).rev().find_map(|k| made(Unit::Tenths(k)));
        exact.or_else(near).ok_or_else(|| "no unit of time holds the wave at this clock: --unit cycle does".into())
    }

    /// `None` if the end does not fit, or a clock is beyond what 128 bits hold.
    fn made(clocks: &[Clock], cycles: impl Iterator<Item = u64>, end: u64, unit: Unit) -> Option<Self> {
        let mut stretches: Vec<Stretch> = Vec::new();
        let mut exact = true;
        for clock in clocks {
            let (num, den) = match unit {
                Unit::Cycle => (1, 1),
                Unit::Tenths(k) => units(clock.hz, k)?,
            };
            let time = match stretches.last() {
                Some(last) => {
                    exact &= last.is_whole(clock.from);
                    last.time(clock.from)?
                }
                None => 0,
            };
            stretches.push(Stretch { cycle: clock.from, time, num, den });
        }
        let mut scale = Self { unit, clocks: clocks.to_vec(), stretches, exact };
        // Viewers count in 64 bits with a sign.
        scale.stretch(end).time(end).filter(|&t| t <= i64::MAX as u64)?;
        scale.exact &= cycles.chain([end]).all(|c| scale.stretch(c).is_whole(c));
        Some(scale)
    }

    pub fn unit(&self) -> Unit {
        self.unit
    }

    /// The time of a cycle, at most the end's.
    pub fn time(&self, cycle: u64) -> u64 {
        self.stretch(cycle).time(cycle).unwrap_or(u64::MAX)
    }

    /// The last stretch that has begun.
    fn stretch(&self, cycle: u64) -> &Stretch {
        let begun = self.stretches.partition_point(|s| s.cycle <= cycle);
        &self.stretches[begun - 1]
    }
}

impl Stretch {
    /// The nearest unit; of two the later.
    fn time(&self, cycle: u64) -> Option<u64> {
        let twice = u128::from(cycle - self.cycle).checked_mul(self.num)?.checked_mul(2)?.checked_add(self.den)?;
        self.time.checked_add(u64::try_from(twice / (2 * self.den)).ok()?)
    }

    /// Whether a cycle has a whole time. The fraction is in lowest terms.
    fn is_whole(&self, cycle: u64) -> bool {
        u128::from(cycle - self.cycle).is_multiple_of(self.den)
    }
}

/// What a reader of the file has to know, clock by clock.
impl Display for Scale {
    fn fmt(&self, f: &mut Formatter) -> fmt::Result {
        if self.unit == Unit::Cycle {
            return f.write_str("A unit is a cycle, whatever it lasts.");
        }
        for (i, (clock, s)) in self.clocks.iter().zip(&self.stretches).enumerate() {
            match i {
                0 => f.write_str("A cycle is ")?,
                _ => write!(f, "From cycle {} on it is ", clock.from)?,
            }
            match s.den {
                1 => write!(f, "{} units", s.num)?,
                _ => write!(f, "{}/{} units", s.num, s.den)?,
            }
            write!(f, " ({} Hz). ", clock.hz)?;
        }
        f.write_str(if self.exact { "Every time is exact." } else { "Times are rounded to the nearest unit." })
    }
}

/// How many units of 10^-k seconds a cycle lasts, in lowest terms: 10^k / hz, of the float as it is. `None` beyond what is counted here.
fn units(hz: f64, k: u32) -> Option<(u128, u128)> {
    let (num, den) = fraction(hz)?;
    let units = 10u128.pow(k).checked_mul(den)?;
    let common = gcd(units, num);
    Some((units / common, num / common))
}

/// A float as a fraction of whole numbers, from 2^-64 to 2^64.
fn fraction(x: f64) -> Option<(u128, u128)> {
    let limit = 2f64.powi(64);
    if !(x >= 1.0 / limit && x <= limit) {
        return None;
    }
    // Neither a zero nor so small that the bit before the point is missing.
    let mantissa = u128::from(x.to_bits() & ((1 << 52) - 1) | 1 << 52);
    let power = (x.to_bits() >> 52) as i32 - 1075;
    if power >= 0 {
        return Some((mantissa << power, 1));
    }
    // x is at least 2^-64, so a mantissa without its zeros has at most 116 places behind the point.
    let shift = (power.unsigned_abs()).min(mantissa.trailing_zeros());
    Some((mantissa >> shift, 1 << (power.unsigned_abs() - shift)))
}

fn gcd(a: u128, b: u128) -> u128 {
    if b == 0 { a } else { gcd(b, a % b) }
}

#[cfg(test)]
mod tests {
    use super::*;

    fn scale(hz: f64, cycles: &[u64]) -> Scale {
        Scale::of(&[Clock { from: 0, hz }], cycles.iter().copied(), cycles.iter().copied().max().unwrap_or(0), None).unwrap()
    }

    #[test]
    fn units_have_their_words() {
        let words: Vec<String> = (0..=FINEST).map(|k| Unit::Tenths(k).to_string()).collect();
        assert_eq!(
            words,
            [
                "1 s", "100 ms", "10 ms", "1 ms", "100 us", "10 us", "1 us", "100 ns", "10 ns", "1 ns", "100 ps", "10 ps", "1 ps", "100 fs", "10 fs",
                "1 fs"
            ]
        );
        assert_eq!(Unit::parse("100ns"), Some(Unit::Tenths(7)));
        assert_eq!(Unit::parse("1s"), Some(Unit::Tenths(0)));
        assert_eq!(Unit::parse("cycle"), Some(Unit::Cycle));
        for word in ["", "ns", "2ns", "10s", "1000ns", "1 ns", "1NS", "1as"] {
            assert_eq!(Unit::parse(word), None, "{word}");
        }
    }

    #[test]
    fn the_coarsest_exact_unit() {
        // A single cycle, and its units.
        for (hz, unit, units) in [(16e6, "100 ps", 625), (1e6, "1 us", 1), (1.0, "1 s", 1), (8e6, "1 ns", 125), (64e6, "1 ps", 15625)] {
            let s = scale(hz, &[1, 1000]);
            assert_eq!((s.unit().to_string().as_str(), s.time(1), s.time(1000)), (unit, units, 1000 * units), "{hz}");
            assert_eq!(s.to_string(), format!("A cycle is {units} units ({hz} Hz). Every time is exact."));
        }
        assert_eq!(scale(0.5, &[1]).time(3), 6);
        // The edges of a pilot of 1 kHz with 30 % at 16 MHz, and at 170 MHz.
        for (hz, cycle) in [(16e6, 1600), (170e6, 17_000)] {
            let s = scale(hz, &[0, 3 * cycle, 10 * cycle, 13 * cycle]);
            assert_eq!((s.unit().to_string().as_str(), s.time(3 * cycle), s.time(13 * cycle)), ("100 us", 3, 13));
            assert_eq!(s.to_string(), format!("A cycle is 1/{cycle} units ({hz} Hz). Every time is exact."));
        }
        // The end counts too.
        assert_eq!(scale(16e6, &[0, 4800, 16_001]).unit(), Unit::Tenths(10));
    }

    #[test]
    fn else_a_cycle_has_a_time_of_its_own() {
        let s = scale(170e6, &[1, 2, 3, 1 << 40]);
        assert_eq!(s.unit().to_string(), "1 ns");
        assert_eq!((s.time(1), s.time(2), s.time(3), s.time(17)), (6, 12, 18, 100));
        assert_eq!(s.time(170_000_000_000), 1_000_000_000_000);
        assert_eq!(s.to_string(), "A cycle is 100/17 units (170000000 Hz). Times are rounded to the nearest unit.");
        // Each by itself: half a unit away at most, however late.
        for cycle in (1 << 39..).take(1000) {
            assert_eq!((s.time(cycle) as f64 * 0.17).round() as u64, cycle);
        }
        let s = scale(32768.0, &[1, 2]);
        assert_eq!((s.unit().to_string().as_str(), s.time(1), s.time(2)), ("10 us", 3, 6));
        // Three cycles a unit: there is no finer one.
        assert_eq!(scale(3e15, &[1, 1 << 40]).unit().to_string(), "1 fs");
    }

    #[test]
    fn a_wave_that_is_too_long_takes_a_coarser_unit() {
        let year = 31_536_000 * 16_000_000;
        // A year at 16 MHz in units of 100 ps holds; thirty do not.
        assert_eq!(scale(16e6, &[1, year]).unit(), Unit::Tenths(10));
        let s = scale(16e6, &[1, 30 * year]);
        assert_eq!((s.unit().to_string().as_str(), s.time(16), s.time(1), s.time(0)), ("10 ns", 100, 6, 0));
        // The last cycle that a call can have.
        assert_eq!(scale(16e6, &[1, 1 << 62]).unit().to_string(), "100 ns");
        let slow = [Clock { from: 0, hz: 1e-3 }];
        assert!(Scale::of(&slow, [].into_iter(), 1 << 62, None).is_err());
        assert_eq!(Scale::of(&slow, [].into_iter(), 1 << 62, Some(Unit::Cycle)).unwrap().time(1 << 62), 1 << 62);
        assert!(Scale::of(&[Clock { from: 0, hz: 16e6 }], [].into_iter(), 1 << 62, Some(Unit::Tenths(12))).is_err());
    }

    #[test]
    fn a_change_of_the_clock_begins_a_stretch() {
        let clocks = [Clock { from: 0, hz: 16e6 }, Clock { from: 160, hz: 8e6 }, Clock { from: 160, hz: 4e6 }];
        let cycles = [159, 160, 161];
        let s = Scale::of(&clocks, cycles.into_iter(), 1000, None).unwrap();
        assert_eq!(s.unit(), Unit::Tenths(10));
        assert_eq!(cycles.map(|c| s.time(c)), [99_375, 100_000, 102_500]);
        assert_eq!(
            s.to_string(),
            "A cycle is 625 units (16000000 Hz). From cycle 160 on it is 1250 units (8000000 Hz). From cycle 160 on it is 2500 units \
             (4000000 Hz). Every time is exact."
        );
        let s = Scale::of(&clocks, cycles.into_iter(), 1000, Some(Unit::Cycle)).unwrap();
        assert_eq!((s.time(161), s.unit().to_string().as_str(), s.to_string().as_str()), (161, "1 ns", "A unit is a cycle, whatever it lasts."));
        // A stretch that begins between two units.
        let clocks = [Clock { from: 0, hz: 3.0 }, Clock { from: 1, hz: 1.0 }];
        let s = Scale::of(&clocks, [2, 3].into_iter(), 3, None).unwrap();
        assert_eq!((s.unit().to_string().as_str(), s.time(1), s.time(2), s.time(3)), ("100 ms", 3, 13, 23));
        assert!(!s.exact);
    }

    #[test]
    fn clocks_at_the_ends_of_the_floats() {
        for hz in [f64::MIN_POSITIVE, 5e-324, 1e-300, 1e300, f64::MAX] {
            assert!(Scale::of(&[Clock { from: 0, hz }], [].into_iter(), 1, None).is_err(), "{hz}");
        }
        for hz in [0.1, 1.0 / 3.0, 1e-9, 123456.789, 2f64.powi(64), 2f64.powi(-64)] {
            let (n, d) = fraction(hz).unwrap();
            assert_eq!(n as f64 / d as f64, hz);
            for unit in (0..=FINEST).map(Unit::Tenths) {
                let _ = Scale::of(&[Clock { from: 0, hz }], [].into_iter(), 1 << 62, Some(unit));
            }
        }
    }
}
