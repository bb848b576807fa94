//! A pilot: one channel in PWM mode 1 on one pin.

use std::fmt::{self, Display, Formatter};

use crate::{Board, Ccer, Ccmr, Channel, Cr1, Duty, Entry, Error, OutputMode, PinConfig, Reg, TimerIndex, Timing, UG};

/// A pilot's place on a board: the timer, its channel, the pin and the pin's function for that channel. It holds nothing else, so that it can be
/// made again after a restore; the registers say whether the pilot runs.
///
/// Each method delivers what is due before each of its writes, however long ago that was, so that no edge and no change is lost; the entries go to
/// `record`, in order. The methods ask for a cycle no lower than any before, as the calls do.
///
/// A changed duty is preloaded: it acts from the next period on, and the running one keeps its duty. [`immediate`](Self::immediate) leaves that out.
///
/// Demand 3's theorem speaks of a pilot from its start to the next write to its timer that is not one of SR, DIER, CR2 or SMCR.
/// [`set_duty`](Self::set_duty) is such a write, and so is another pilot's start or stop on the same timer: what comes after it is tested, not
/// proved. A pilot that starts alone on its timer is the theorem's again.
///
/// ```
/// use board::{Board, Channel, Duty, Pilot, TimerIndex, Timing};
///
/// let mut board = Board::example();
/// let mut record = Vec::new();
/// let pilot = Pilot::new(TimerIndex(0), Channel::Ch1, 0, 1);
/// pilot.start(&mut board, Timing { prescaler: 0, reload: 9 }, Duty::percent(30).unwrap(), 100, &mut record)?;
/// pilot.set_duty(&mut board, Duty::percent(50).unwrap(), 111, &mut record)?;
/// pilot.stop(&mut board, 127, &mut record)?;
///
/// let edges: Vec<_> = record.iter().map(|e| (e.level, e.cycle)).collect();
/// assert_eq!(edges, [(1, 100), (0, 103), (1, 110), (0, 113), (1, 120), (0, 125)]);
/// # Ok::<(), board::PilotError>(())
/// ```
#[derive(Clone, Copy, Debug, PartialEq, Eq, Hash)]
pub struct Pilot {
    timer: TimerIndex,
    channel: Channel,
    pin: u32,
    function: u8,
    preload: bool,
}

/// Why a pilot did not do as it was told. Nothing was written; what was delivered is in the record.
///
/// ```
/// use board::{Board, Channel, Duty, Pilot, PilotError, TimerIndex, Timing};
///
/// let mut board = Board::example();
/// // Pin 1's function 1 is channel 2.
/// let pilot = Pilot::new(TimerIndex(0), Channel::Ch1, 1, 1);
/// let started = pilot.start(&mut board, Timing { prescaler: 0, reload: 9 }, Duty::percent(30).unwrap(), 0, &mut Vec::new());
/// assert_eq!(started, Err(PilotError::NoSignal { pin: 1, function: 1 }));
/// ```
#[derive(Clone, Copy, Debug, PartialEq, Eq, Hash)]
#[non_exhaustive]
pub enum PilotError {
    /// A call was refused.
    Refused(Error),
    /// The timer's clock gate is closed: see [`Board::enable`].
    Gated,
    /// The pin's function is not that channel, or the timer has no such channel or drives none.
    NoSignal {
        /// The pin.
        pin: u32,
        /// Its function.
        function: u8,
    },
    /// The channel is on: a pilot is there already.
    InUse,
    /// The timer runs already, with another period, downward, in one-pulse mode or without updates.
    Busy,
    /// The prescaler or the reload does not fit the timer.
    TooWide,
    /// The duty asks for a compare above what fits beside the reload: 100 % of the widest reload.
    TooFull,
    /// The channel is off or in another mode, or its timer stands: there is no pilot.
    Stopped,
}

impl From<Error> for PilotError {
    fn from(e: Error) -> Self {
        PilotError::Refused(e)
    }
}

impl Display for PilotError {
    fn fmt(&self, f: &mut Formatter) -> fmt::Result {
        match self {
            PilotError::Refused(e) => write!(f, "{e}"),
            PilotError::Gated => f.write_str("the timer's clock is not enabled"),
            PilotError::NoSignal { pin, function } => write!(f, "function {function} of pin {pin} does not follow the channel"),
            PilotError::InUse => f.write_str("the channel is on already"),
            PilotError::Busy => f.write_str("the timer runs already, and otherwise"),
            PilotError::TooWide => f.write_str("the period does not fit the timer"),
            PilotError::TooFull => f.write_str("the duty does not fit beside the reload"),
            PilotError::Stopped => f.write_str("there is no pilot on the channel"),
        }
    }
}

impl std::error::Error for PilotError {
    fn source(&self) -> Option<&(dyn std::error::Error + 'static)> {
        match self {
            PilotError::Refused(e) => Some(e),
            _ => None,
        }
    }
}

impl Pilot {
    /// A pilot on a pin whose alternate function is that channel.
    ///
    /// ```
    /// # use board::{Channel, Pilot, TimerIndex};
    /// let pilot = Pilot::new(TimerIndex(0), Channel::Ch2, 1, 1);
    /// assert_eq!((pilot.timer(), pilot.channel(), pilot.pin()), (TimerIndex(0), Channel::Ch2, 1));
    /// ```
    pub const fn new(timer: TimerIndex, channel: Channel, pin: u32, function: u8) -> Self {
        Self { timer, channel, pin, function, preload: true }
    }

    /// The same without preload: a changed duty acts at once, inside the running period, whose duty is then neither.
    ///
    /// ```
    /// use board::{Board, Channel, Duty, Entry, Pilot, TimerIndex, Timing};
    ///
    /// let (mut board, mut record) = (Board::example(), Vec::new());
    /// let pilot = Pilot::new(TimerIndex(0), Channel::Ch1, 0, 1).immediate();
    /// pilot.start(&mut board, Timing { prescaler: 0, reload: 9 }, Duty::percent(50).unwrap(), 0, &mut record)?;
    /// pilot.set_duty(&mut board, Duty::percent(10).unwrap(), 3, &mut record)?;
    /// assert_eq!(record, [Entry::new(0, 1, 0), Entry::new(0, 0, 3)]);
    /// # Ok::<(), board::PilotError>(())
    /// ```
    pub const fn immediate(self) -> Self {
        Self { preload: false, ..self }
    }

    /// Its timer.
    ///
    /// ```
    /// # use board::{Channel, Pilot, TimerIndex};
    /// assert_eq!(Pilot::new(TimerIndex(1), Channel::Ch1, 4, 1).timer(), TimerIndex(1));
    /// ```
    pub const fn timer(self) -> TimerIndex {
        self.timer
    }

    /// Its channel.
    ///
    /// ```
    /// # use board::{Channel, Pilot, TimerIndex};
    /// assert_eq!(Pilot::new(TimerIndex(1), Channel::Ch1, 4, 1).channel(), Channel::Ch1);
    /// ```
    pub const fn channel(self) -> Channel {
        self.channel
    }

    /// Its pin.
    ///
    /// ```
    /// # use board::{Channel, Pilot, TimerIndex};
    /// assert_eq!(Pilot::new(TimerIndex(1), Channel::Ch1, 4, 1).pin(), 4);
    /// ```
    pub const fn pin(self) -> u32 {
        self.pin
    }

    /// Starts the pilot. A timer that stands starts with it at this cycle, from the counter 0. One that runs goes on, if its period is the same, and
    /// the pilot begins with the next period, low until then.
    ///
    /// The timer's other channels stay as they are; of CR1 it sets CEN and ARPE and clears UDIS, OPM and DIR.
    ///
    /// ```
    /// use board::{Board, Channel, Duty, Pilot, TimerIndex, Timing};
    ///
    /// // Two pilots of one timer.
    /// let (mut board, mut record) = (Board::example(), Vec::new());
    /// let (a, b) = (Pilot::new(TimerIndex(0), Channel::Ch1, 0, 1), Pilot::new(TimerIndex(0), Channel::Ch2, 1, 1));
    /// let timing = Timing { prescaler: 0, reload: 9 };
    /// a.start(&mut board, timing, Duty::percent(30).unwrap(), 100, &mut record)?;
    /// b.start(&mut board, timing, Duty::percent(60).unwrap(), 104, &mut record)?;
    /// board.poll_all(119, &mut record)?;
    /// let edges: Vec<_> = record.iter().filter(|e| e.pin == 1).map(|e| (e.level, e.cycle)).collect();
    /// assert_eq!(edges, [(1, 110), (0, 116)]);
    /// # Ok::<(), Box<dyn std::error::Error>>(())
    /// ```
    pub fn start(self, board: &mut Board, timing: Timing, duty: Duty, cycle: u64, record: &mut impl Extend<Entry>) -> Result<(), PilotError> {
        let compare = timing.compare(duty).ok_or(PilotError::TooFull)?;
        board.poll_all(cycle, record)?;
        let ccer = Ccer::from_bits(self.peek(board, Reg::Ccer, cycle)?);
        let cr1 = Cr1::from_bits(self.peek(board, Reg::Cr1, cycle)?);
        let ccmr = Ccmr::from_bits(self.peek(board, self.channel.ccmr(), cycle)?).mode(self.channel, OutputMode::Pwm1);
        if board.is_gated(self.timer, cycle)? {
            return Err(PilotError::Gated);
        }
        if ccer.is_on(self.channel) {
            return Err(PilotError::InUse);
        }
        // After one-pulse CEN can be set and nothing counts.
        let runs = cr1.is_cen() && board.booked(self.timer)?.is_some();
        if runs {
            let period = (self.peek(board, Reg::Psc, cycle)?, self.peek(board, Reg::Arr, cycle)?);
            if period != (timing.prescaler, timing.reload) || cr1.is_dir() || cr1.is_opm() || cr1.is_udis() {
                return Err(PilotError::Busy);
            }
        }
        self.tried(board, timing, cycle)?;

        let ccer = ccer.on(self.channel, true).inverted(self.channel, false);
        record.extend(board.set_pin(self.pin, &PinConfig::alternate(self.function), cycle)?.iter().copied());
        // What an earlier pilot left in the compare would act until the next period.
        self.write(board, self.channel.ccmr(), ccmr.preload(self.channel, false).bits(), cycle, record)?;
        self.write(board, self.channel.ccr(), 0, cycle, record)?;
        self.write(board, self.channel.ccmr(), ccmr.preload(self.channel, true).bits(), cycle, record)?;
        self.write(board, self.channel.ccr(), compare, cycle, record)?;
        let ready = cr1.cen(false).arpe(true).udis(false).opm(false).dir(false);
        if !runs {
            // URS: this update is no event that a program waits for.
            self.write(board, Reg::Cr1, ready.urs(true).bits(), cycle, record)?;
            self.write(board, Reg::Psc, timing.prescaler, cycle, record)?;
            self.write(board, Reg::Arr, timing.reload, cycle, record)?;
            self.write(board, Reg::Egr, UG, cycle, record)?;
        }
        if !self.preload {
            // What waits in the compare is loaded all the same.
            self.write(board, self.channel.ccmr(), ccmr.preload(self.channel, false).bits(), cycle, record)?;
        }
        self.write(board, Reg::Ccer, ccer.bits(), cycle, record)?;
        if !runs {
            // The last write: from here on it is demand 3's pilot.
            self.write(board, Reg::Cr1, ready.cen(true).bits(), cycle, record)?;
        }
        Ok(())
    }

    /// Changes the duty, from the next period on, or at once for an [`immediate`](Self::immediate) pilot. The compare is the nearest that the
    /// reload has.
    ///
    /// ```
    /// use board::{Board, Channel, Duty, Pilot, PilotError, TimerIndex};
    ///
    /// let pilot = Pilot::new(TimerIndex(0), Channel::Ch1, 0, 1);
    /// let set = pilot.set_duty(&mut Board::example(), Duty::percent(30).unwrap(), 0, &mut Vec::new());
    /// assert_eq!(set, Err(PilotError::Stopped));
    /// ```
    pub fn set_duty(self, board: &mut Board, duty: Duty, cycle: u64, record: &mut impl Extend<Entry>) -> Result<(), PilotError> {
        self.present(board, cycle, record)?;
        if board.booked(self.timer)?.is_none() {
            return Err(PilotError::Stopped);
        }
        let timing = Timing { prescaler: self.peek(board, Reg::Psc, cycle)?, reload: self.peek(board, Reg::Arr, cycle)? };
        let compare = timing.compare(duty).ok_or(PilotError::TooFull)?;
        let ccmr = self.peek(board, self.channel.ccmr(), cycle)?;
        let wanted = Ccmr::from_bits(ccmr).preload(self.channel, self.preload).bits();
        if ccmr != wanted {
            self.write(board, self.channel.ccmr(), wanted, cycle, record)?;
        }
        self.write(board, self.channel.ccr(), compare, cycle, record)
    }

    /// Ends the pilot: the channel is off and the pin low from this cycle on. The timer stops with its last channel.
    ///
    /// ```
    /// use board::{Board, Channel, Entry, Pilot, TimerIndex};
    ///
    /// let (mut board, mut record) = (Board::example_pilot(64), Vec::new());
    /// Pilot::new(TimerIndex(0), Channel::Ch1, 0, 1).stop(&mut board, 111, &mut record)?;
    /// assert_eq!(record, [Entry::new(0, 0, 103), Entry::new(0, 1, 110), Entry::new(0, 0, 111)]);
    /// assert_eq!(board.next(), None);
    /// # Ok::<(), board::PilotError>(())
    /// ```
    pub fn stop(self, board: &mut Board, cycle: u64, record: &mut impl Extend<Entry>) -> Result<(), PilotError> {
        let ccer = self.present(board, cycle, record)?.on(self.channel, false);
        self.write(board, Reg::Ccer, ccer.bits(), cycle, record)?;
        if !Channel::ALL.into_iter().any(|c| ccer.is_on(c)) {
            let cr1 = Cr1::from_bits(self.peek(board, Reg::Cr1, cycle)?).cen(false);
            self.write(board, Reg::Cr1, cr1.bits(), cycle, record)?;
        }
        Ok(())
    }

    /// What is due is delivered, and the channel is on as a pilot's.
    fn present(self, board: &mut Board, cycle: u64, record: &mut impl Extend<Entry>) -> Result<Ccer, PilotError> {
        board.drain(self.timer, cycle, record)?;
        if board.is_gated(self.timer, cycle)? {
            return Err(PilotError::Gated);
        }
        let ccer = Ccer::from_bits(self.peek(board, Reg::Ccer, cycle)?);
        let ccmr = Ccmr::from_bits(self.peek(board, self.channel.ccmr(), cycle)?);
        if !ccer.is_on(self.channel) || ccmr != ccmr.mode(self.channel, OutputMode::Pwm1) {
            return Err(PilotError::Stopped);
        }
        Ok(ccer)
    }

    /// On a copy of the board: the period fits the timer, and the pin follows the channel to both levels. So nothing of it is on the record.
    fn tried(self, board: &Board, timing: Timing, cycle: u64) -> Result<(), PilotError> {
        let mut copy = board.copy();
        copy.reset(self.timer, cycle)?;
        for (reg, value) in [(Reg::Psc, timing.prescaler), (Reg::Arr, timing.reload)] {
            copy.write_reg(self.timer, reg, value, cycle)?;
            if copy.peek_reg(self.timer, reg, cycle)? != value {
                return Err(PilotError::TooWide);
            }
        }
        copy.set_pin(self.pin, &PinConfig::alternate(self.function), cycle)?;
        copy.write_reg(self.timer, Reg::Ccer, Ccer::new().on(self.channel, true).bits(), cycle)?;
        for (mode, level) in [(OutputMode::ForcedHigh, 1), (OutputMode::ForcedLow, 0)] {
            copy.write_reg(self.timer, self.channel.ccmr(), Ccmr::new().mode(self.channel, mode).bits(), cycle)?;
            if copy.level(self.pin)? != level {
                return Err(PilotError::NoSignal { pin: self.pin, function: self.function });
            }
        }
        Ok(())
    }

    fn peek(self, board: &Board, reg: Reg, cycle: u64) -> Result<u32, Error> {
        board.peek_reg(self.timer, reg, cycle)
    }

    fn write(self, board: &mut Board, reg: Reg, value: u32, cycle: u64, record: &mut impl Extend<Entry>) -> Result<(), PilotError> {
        board.drain(self.timer, cycle, record)?;
        record.extend(board.write(self.timer, reg.offset(), 4, value, cycle)?.iter().copied());
        Ok(())
    }
}
