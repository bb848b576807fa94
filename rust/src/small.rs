//! Every small pilot (document 02, F-9), for a test desk.

use std::iter::FusedIterator;

use crate::{ffi, Error, OutputMode};

/// A pilot's setting, as [`SmallPilots`] lists it: what goes into PSC, ARR, a CCRx, its mode, and CR1's DIR.
#[derive(Clone, Copy, Debug, PartialEq, Eq)]
pub struct SmallPilot {
    /// The reload, 0 to n. Of 0 a period is one step.
    pub reload: u32,
    /// The prescaler, 0 to n.
    pub prescaler: u32,
    /// The compare, 0 to n + 1.
    pub compare: u32,
    /// [`Pwm1`](OutputMode::Pwm1), mode 6, or [`Pwm2`](OutputMode::Pwm2), mode 7.
    pub mode: OutputMode,
    /// Counts downward.
    pub down: bool,
}

/// Every pilot up to a size n, 0 to 7, each a single time: reload and prescaler from 0 to n, compare from 0 to n + 1, mode 6 or 7, up or down. They are
/// ordered by reload, then prescaler, compare, mode, then up before down; there are 4 × (n + 1)² × (n + 2).
///
/// That the list is this one is proved (crates/small). Of its pilots demand 3's bound speaks of every fourth: mode 6, upward
/// ([`has_bound`](SmallPilot::has_bound)). Mode 7 and downward are listed too, and it says nothing of them.
///
/// ```
/// use board::{Error, OutputMode, SmallPilot, SmallPilots};
///
/// let pilots = SmallPilots::new(1)?;
/// assert_eq!(pilots.len(), 48);
/// let first = SmallPilot { reload: 0, prescaler: 0, compare: 0, mode: OutputMode::Pwm1, down: false };
/// let last = SmallPilot { reload: 1, prescaler: 1, compare: 2, mode: OutputMode::Pwm2, down: true };
/// assert_eq!((pilots.clone().next(), pilots.clone().last()), (Some(first), Some(last)));
/// assert_eq!(pilots.filter(SmallPilot::has_bound).count(), 12);
/// assert_eq!(SmallPilots::new(8), Err(Error::TooWide { n: 8 }));
/// # Ok::<(), Error>(())
/// ```
#[derive(Clone, Debug, PartialEq, Eq)]
pub struct SmallPilots {
    n: u32,
    /// The places that are left, the first included.
    next: u32,
    end: u32,
}

impl SmallPilot {
    /// Whether demand 3's bound speaks of it: PWM mode 1, upward. In manual mode it does not speak of a reload of 0 (document 02, F-6).
    ///
    /// ```
    /// # use board::SmallPilots;
    /// assert!(SmallPilots::new(1)?.step_by(4).all(|p| p.has_bound()));
    /// # Ok::<(), board::Error>(())
    /// ```
    pub fn has_bound(&self) -> bool {
        self.mode == OutputMode::Pwm1 && !self.down
    }
}

impl SmallPilots {
    /// The pilots up to `n`. Refused with 12 above 7.
    ///
    /// ```
    /// # use board::SmallPilots;
    /// assert_eq!(SmallPilots::new(7)?.len(), 2304);
    /// # Ok::<(), board::Error>(())
    /// ```
    pub fn new(n: u32) -> Result<Self, Error> {
        match ffi::pilot(n, 0).number {
            0 => Ok(Self { n, next: 0, end: 4 * (n + 1) * (n + 1) * (n + 2) }),
            12 => Err(Error::TooWide { n }),
            other => Err(Error::Other(other as u8)),
        }
    }

    fn at(&self, k: u32) -> SmallPilot {
        let ffi::Listed { reload, prescaler, compare, mode, down, .. } = ffi::pilot(self.n, k);
        let mode = if mode == 6 { OutputMode::Pwm1 } else { OutputMode::Pwm2 };
        SmallPilot { reload, prescaler, compare, mode, down: down == 1 }
    }
}

impl Iterator for SmallPilots {
    type Item = SmallPilot;

    fn next(&mut self) -> Option<SmallPilot> {
        self.nth(0)
    }

    /// Any place at once: they are handed out by their number.
    fn nth(&mut self, skipped: usize) -> Option<SmallPilot> {
        let left = self.len();
        let k = self.next + skipped.min(left) as u32;
        self.next = (k + 1).min(self.end);
        (skipped < left).then(|| self.at(k))
    }

    fn size_hint(&self) -> (usize, Option<usize>) {
        let left = (self.end - self.next) as usize;
        (left, Some(left))
    }
}

impl ExactSizeIterator for SmallPilots {}

impl FusedIterator for SmallPilots {}
