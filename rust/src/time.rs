//! Hertz and seconds as cycles, a period as prescaler and reload, a duty as a compare.

use std::time::Duration;

use crate::Duty;

/// The last cycle that a call may have, 2^62: after some 9,100 years at 16 MHz, 860 at 170 MHz.
///
/// ```
/// use board::{Board, LAST_CYCLE};
///
/// assert!(Board::example().time(LAST_CYCLE).is_ok() && Board::example().time(LAST_CYCLE + 1).is_err());
/// ```
pub const LAST_CYCLE: u64 = 1 << 62;

/// A clock: what [`Setup::hz`](crate::Setup) says, or that divided for a timer.
///
/// A board's own time across changes of the tree is [`Board::time`](crate::Board::time).
///
/// ```
/// use board::Clock;
///
/// let clock = Clock::new(16e6).unwrap();
/// assert_eq!(clock.cycles(0.5), Some(8_000_000));
/// assert_eq!(clock.period(1000.0), Some(16_000));
/// assert_eq!(clock.seconds(16_000), 0.001);
/// ```
#[derive(Clone, Copy, Debug, PartialEq)]
pub struct Clock {
    hz: f64,
}

impl Clock {
    /// A clock of so many hertz; `None` if that is not finite and above 0.
    ///
    /// ```
    /// # use board::Clock;
    /// assert!(Clock::new(170e6).is_some() && Clock::new(0.0).is_none() && Clock::new(f64::NAN).is_none());
    /// ```
    pub fn new(hz: f64) -> Option<Self> {
        (hz.is_finite() && hz > 0.0).then_some(Self { hz })
    }

    /// Its hertz.
    ///
    /// ```
    /// # use board::Clock;
    /// assert_eq!(Clock::new(16e6).unwrap().hz(), 16e6);
    /// ```
    pub fn hz(self) -> f64 {
        self.hz
    }

    /// The clock behind a divider of the tree, as a timer of that bus has it; `None` for a divider of 0.
    ///
    /// ```
    /// # use board::Clock;
    /// assert_eq!(Clock::new(16e6).unwrap().divided(4), Clock::new(4e6));
    /// ```
    pub fn divided(self, divider: u32) -> Option<Self> {
        Self::new(self.hz / divider as f64)
    }

    /// The cycles in so many seconds, to the nearest; `None` below 0 and above [`LAST_CYCLE`]. From 2^53 cycles on, 17 years at 16 MHz, a float has no
    /// single cycles any more: [`cycles_in`](Self::cycles_in) has.
    ///
    /// ```
    /// # use board::Clock;
    /// let clock = Clock::new(16e6).unwrap();
    /// assert_eq!((clock.cycles(0.001), clock.cycles(-1.0), clock.cycles(1e300)), (Some(16_000), None, None));
    /// ```
    pub fn cycles(self, seconds: f64) -> Option<u64> {
        whole(seconds * self.hz)
    }

    /// The cycles in a duration, to the nearest: exact for a clock of whole hertz. `None` above [`LAST_CYCLE`].
    ///
    /// ```
    /// # use board::Clock;
    /// use std::time::Duration;
    ///
    /// let clock = Clock::new(16e6).unwrap();
    /// assert_eq!(clock.cycles_in(Duration::from_millis(250)), Some(4_000_000));
    /// // A cycle more after a hundred years:
    /// let years = Duration::from_secs(100 * 365 * 86_400);
    /// assert_eq!(clock.cycles_in(years + Duration::from_nanos(63)), clock.cycles_in(years).map(|c| c + 1));
    /// ```
    pub fn cycles_in(self, duration: Duration) -> Option<u64> {
        if self.hz.fract() != 0.0 || self.hz >= 9007199254740992.0 {
            return self.cycles(duration.as_secs_f64());
        }
        const NANOS: u128 = 1_000_000_000;
        let cycles = duration.as_nanos().checked_mul(self.hz as u128)?.checked_add(NANOS / 2)? / NANOS;
        u64::try_from(cycles).ok().filter(|&c| c <= LAST_CYCLE)
    }

    /// The cycles in a period of so many hertz, to the nearest; `None` if there is none, or above [`LAST_CYCLE`].
    ///
    /// ```
    /// # use board::Clock;
    /// let clock = Clock::new(16e6).unwrap();
    /// assert_eq!((clock.period(1000.0), clock.period(3.0), clock.period(1e9)), (Some(16_000), Some(5_333_333), None));
    /// ```
    pub fn period(self, hertz: f64) -> Option<u64> {
        whole(self.hz / hertz).filter(|&c| c > 0)
    }

    /// The seconds that so many cycles take.
    ///
    /// ```
    /// # use board::Clock;
    /// assert_eq!(Clock::new(16e6).unwrap().seconds(4_000_000), 0.25);
    /// ```
    pub fn seconds(self, cycles: u64) -> f64 {
        cycles as f64 / self.hz
    }

    /// Prescaler and reload for a frequency, of a timer of 16 or 32 bits that has this clock; see [`Timing::of_clocks`].
    ///
    /// ```
    /// # use board::{Clock, Timing};
    /// let clock = Clock::new(16e6).unwrap();
    /// assert_eq!(clock.timing(1000.0, 16), Some(Timing { prescaler: 0, reload: 15_999 }));
    /// assert_eq!(clock.timing(50.0, 16), Some(Timing { prescaler: 4, reload: 63_999 }));
    /// ```
    pub fn timing(self, hertz: f64, width: u32) -> Option<Timing> {
        Timing::of_clocks(self.period(hertz)?, width)
    }
}

/// The nearest whole number, 0 to [`LAST_CYCLE`].
fn whole(x: f64) -> Option<u64> {
    let x = x.round();
    (x >= 0.0 && x <= LAST_CYCLE as f64).then_some(x as u64)
}

/// A pilot's period: prescaler and reload, as the registers PSC and ARR have them.
///
/// ```
/// use board::{Duty, Timing};
///
/// // A step of 16 clocks, a period of 1000 steps.
/// let timing = Timing { prescaler: 15, reload: 999 };
/// assert_eq!(timing.clocks(), 16_000);
/// assert_eq!(timing.compare(Duty::percent(30).unwrap()), Some(300));
/// ```
#[derive(Clone, Copy, Debug, PartialEq, Eq, Hash)]
pub struct Timing {
    /// A step is one clock more than this; 0 to 65,535.
    pub prescaler: u32,
    /// A period is one step more than this.
    pub reload: u32,
}

impl Timing {
    /// The timing whose period is nearest to so many clocks of the timer, of 16 or 32 bits; `None` if there is none. Of prescalers up to twice the
    /// smallest that will do it takes the one that comes nearest, then the smallest, for a fine duty. The reload leaves room for a compare of
    /// reload + 1, which is a duty of 100 %.
    ///
    /// ```
    /// # use board::Timing;
    /// // A prescaler of 2 would do and miss by a clock; 3 is exact.
    /// assert_eq!(Timing::of_clocks(170_000, 16), Some(Timing { prescaler: 3, reload: 42_499 }));
    /// assert_eq!(Timing::of_clocks(170_000, 32), Some(Timing { prescaler: 0, reload: 169_999 }));
    /// assert_eq!((Timing::of_clocks(0, 16), Timing::of_clocks(1, 8)), (None, None));
    /// ```
    pub fn of_clocks(clocks: u64, width: u32) -> Option<Self> {
        let most = match width {
            16 => 0xffff,
            32 => 0xffff_ffff,
            _ => return None,
        };
        let least = clocks.div_ceil(most);
        if clocks == 0 || least > 0x1_0000 {
            return None;
        }
        let steps = |k: u64| ((clocks + k / 2) / k).min(most);
        let k = (least..=(2 * least).min(0x1_0000)).min_by_key(|&k| (k * steps(k)).abs_diff(clocks))?;
        Some(Self { prescaler: k as u32 - 1, reload: steps(k) as u32 - 1 })
    }

    /// The clocks of a period.
    ///
    /// ```
    /// # use board::Timing;
    /// assert_eq!(Timing { prescaler: 3, reload: 42_499 }.clocks(), 170_000);
    /// ```
    pub fn clocks(self) -> u64 {
        (self.prescaler as u64 + 1) * (self.reload as u64 + 1)
    }

    /// The compare whose duty is nearest; half a step is rounded up. `None` where reload + 1 steps are needed and do not fit a register of the
    /// reload's own width.
    ///
    /// ```
    /// # use board::{Duty, Timing};
    /// let timing = Timing { prescaler: 0, reload: 2 };
    /// let compare = |percent| timing.compare(Duty::percent(percent).unwrap());
    /// assert_eq!([0, 16, 17, 50, 100].map(compare), [Some(0), Some(0), Some(1), Some(2), Some(3)]);
    /// // In 16 bits nothing is above this reload.
    /// assert_eq!(Timing { prescaler: 0, reload: 0xffff }.compare(Duty::percent(100).unwrap()), None);
    /// ```
    pub fn compare(self, duty: Duty) -> Option<u32> {
        let (steps, high, cycles) = (self.reload as u128 + 1, duty.high() as u128, duty.cycles());
        // At most 2^32 x 2^64 doubled.
        let compare = (2 * steps * high + cycles) / (2 * cycles);
        let most = if self.reload > 0xffff { 0xffff_ffff } else { 0xffff };
        u32::try_from(compare).ok().filter(|&c| c <= most)
    }
}
