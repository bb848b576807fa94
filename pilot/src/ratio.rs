//! Plain words as exact numbers: `16MHz`, `30%`, `0.06`.

use std::fmt::{self, Display, Formatter};

/// A number from 0 on, as a fraction.
#[derive(Clone, Copy, Debug, PartialEq, Eq)]
pub struct Ratio {
    pub num: u128,
    pub den: u128,
}

/// More digits are no plain word, and 128 bits would not hold what is made of them.
const DIGITS: usize = 15;

impl Ratio {
    /// Digits with or without a point: `16`, `0.5`.
    pub fn decimal(word: &str) -> Option<Self> {
        let (whole, part) = word.split_once('.').unwrap_or((word, "0"));
        let digits = |s: &str| !s.is_empty() && s.bytes().all(|b| b.is_ascii_digit());
        if !digits(whole) || !digits(part) || whole.len() + part.len() > DIGITS {
            return None;
        }
        let num = format!("{whole}{part}").parse().ok()?;
        Some(Self { num, den: 10u128.pow(part.len() as u32) })
    }

    /// Hertz: `16MHz`, `1.5 kHz`, `50`. Large and small letters are the same.
    pub fn hertz(word: &str) -> Option<Self> {
        let word = word.to_ascii_lowercase();
        let units = [("ghz", 1_000_000_000), ("mhz", 1_000_000), ("khz", 1_000), ("hz", 1), ("", 1)];
        let (number, times) = units.iter().find_map(|&(unit, times)| Some((word.strip_suffix(unit)?, times)))?;
        let Self { num, den } = Self::decimal(number.trim_end())?;
        Some(Self { num: num * times, den })
    }

    /// A part of a whole: `30%`, `12.5 %` or `3/10`, at most the whole.
    pub fn share(word: &str) -> Option<Self> {
        let share = match (word.strip_suffix('%'), word.split_once('/')) {
            (Some(percent), None) => {
                let Self { num, den } = Self::decimal(percent.trim_end())?;
                Self { num, den: den * 100 }
            }
            (None, Some((part, whole))) => Self { num: Self::whole(part)?, den: Self::whole(whole)? },
            _ => return None,
        };
        (share.den != 0 && share.num <= share.den).then_some(share)
    }

    fn whole(word: &str) -> Option<u128> {
        Self::decimal(word).filter(|r| r.num % r.den == 0).map(|r| r.num / r.den)
    }
}

/// A few digits, for a reader: `16 MHz`.
pub struct Hertz(pub f64);

impl Display for Hertz {
    fn fmt(&self, f: &mut Formatter) -> fmt::Result {
        let units = [(1e9, "GHz"), (1e6, "MHz"), (1e3, "kHz")];
        let (times, unit) = units.into_iter().find(|u| self.0 >= u.0).unwrap_or((1.0, "Hz"));
        write!(f, "{} {unit}", short(self.0 / times))
    }
}

/// At most nine digits behind the point, and no zeros at its end.
pub fn short(x: f64) -> String {
    let digits = format!("{x:.9}");
    digits.trim_end_matches('0').trim_end_matches('.').to_string()
}

#[cfg(test)]
mod tests {
    use super::*;

    fn is(r: Option<Ratio>, num: u128, den: u128) -> bool {
        r.is_some_and(|r| r.num * den == num * r.den)
    }

    #[test]
    fn words_are_exact() {
        assert!(is(Ratio::hertz("16MHz"), 16_000_000, 1));
        assert!(is(Ratio::hertz("16 mhz"), 16_000_000, 1));
        assert!(is(Ratio::hertz("1.5kHz"), 1_500, 1));
        assert!(is(Ratio::hertz("0.1Hz"), 1, 10));
        assert!(is(Ratio::hertz("50"), 50, 1));
        assert!(is(Ratio::hertz("1GHz"), 1_000_000_000, 1));
        assert!(is(Ratio::share("30%"), 3, 10));
        assert!(is(Ratio::share("12.5 %"), 1, 8));
        assert!(is(Ratio::share("1/3"), 1, 3));
        assert!(is(Ratio::share("100%"), 1, 1));
        assert!(is(Ratio::share("0%"), 0, 1));
        assert!(is(Ratio::decimal("0.06"), 6, 100));
    }

    #[test]
    fn words_that_are_none() {
        for word in ["", "MHz", "x", "1.2.3", "1e3", "-1", "+1", ".5", "5.", "1 000", "1kk", "12345678901234567890"] {
            assert_eq!(Ratio::hertz(word), None, "{word}");
        }
        for word in ["30", "0.3", "101%", "4/3", "1/0", "1/2%", "%", "/", "1.5/3"] {
            assert_eq!(Ratio::share(word), None, "{word}");
        }
    }

    #[test]
    fn hertz_are_short() {
        let words = [(16e6, "16 MHz"), (1e3, "1 kHz"), (999.0, "999 Hz"), (0.5, "0.5 Hz"), (1.0 / 3.0, "0.333333333 Hz"), (170e6, "170 MHz"), (0.0, "0 Hz")];
        for (hz, word) in words {
            assert_eq!(Hertz(hz).to_string(), word);
        }
    }
}
