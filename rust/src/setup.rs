//! What a board is made of, and what the calls are told.

use crate::{Channel, ClockField, Limit};

/// A timer's place in its [`Setup`], from 0. Every call of a timer takes it.
///
/// It is not the n of TIMn: a board whose first timer is TIM2 has TIM2 at place 0. [`Setup::add_timer`] gives it, and
/// [`Setup::index_of`] finds it by the timer's number.
///
/// ```
/// use board::{Setup, TimerIndex, TimerSpec};
///
/// let mut setup = Setup::new(16e6, 3.3);
/// let tim2 = setup.add_timer(TimerSpec::new(2));
/// let tim4 = setup.add_timer(TimerSpec::new(4));
/// assert_eq!((tim2, tim4), (TimerIndex(0), TimerIndex(1)));
/// assert_eq!(setup.index_of(4), Some(tim4));
/// ```
#[derive(Clone, Copy, Debug, PartialEq, Eq, PartialOrd, Ord, Hash)]
pub struct TimerIndex(pub u32);

/// One timer of a [`Setup`].
///
/// Make it by [`new`](Self::new) and the methods behind it, or with `..TimerSpec::default()`: a later version may have more fields.
///
/// ```
/// use board::TimerSpec;
///
/// // TIM2 of 32 bits behind bit 0 of enable word 3, with interrupt 28.
/// let spec = TimerSpec::new(2).width(32).enable(3, 0).irq(28);
/// assert_eq!(spec, TimerSpec { number: 2, width: 32, word: 3, bit: 0, irq: 28, ..TimerSpec::default() });
/// ```
#[derive(Clone, Copy, Debug, PartialEq, Eq)]
pub struct TimerSpec {
    /// The n of TIMn, 1 to 24. Timers 2, 3 and 4 drive their channels.
    pub number: u32,
    /// 16 or 32 bits.
    pub width: u32,
    /// 0 to 4.
    pub channels: u32,
    /// The bus, which chooses the divider of the clock tree: 1 TIM1, 2 TIM2, 3 PPRE3, any other PPRE4.
    pub bus: u32,
    /// The enable word, 0 to 8, and its bit, 0 to 31.
    pub word: u32,
    /// See `word`.
    pub bit: u32,
    /// The interrupt line; at or above the board's lines it is ignored.
    pub irq: u32,
    /// Manual mode: the end of a pulse clears CEN, so that a write of CEN fires the next one; see [`manual`](Self::manual).
    pub manual: bool,
}

impl TimerSpec {
    /// TIMn with 16 bits and 4 channels on bus 1, behind bit 0 of enable word 0, without an interrupt and not in manual mode.
    ///
    /// ```
    /// # use board::TimerSpec;
    /// let spec = TimerSpec::new(3);
    /// assert_eq!(spec, TimerSpec { number: 3, width: 16, channels: 4, bus: 1, word: 0, bit: 0, irq: u32::MAX, manual: false });
    /// ```
    pub const fn new(number: u32) -> Self {
        Self { number, width: 16, channels: 4, bus: 1, word: 0, bit: 0, irq: u32::MAX, manual: false }
    }

    /// 16 or 32 bits.
    ///
    /// ```
    /// # use board::TimerSpec;
    /// assert_eq!(TimerSpec::new(2).width(32).width, 32);
    /// ```
    pub const fn width(self, width: u32) -> Self {
        Self { width, ..self }
    }

    /// 0 to 4 channels.
    ///
    /// ```
    /// # use board::TimerSpec;
    /// assert_eq!(TimerSpec::new(6).channels(0).channels, 0);
    /// ```
    pub const fn channels(self, channels: u32) -> Self {
        Self { channels, ..self }
    }

    /// The bus; see the field.
    ///
    /// ```
    /// # use board::TimerSpec;
    /// assert_eq!(TimerSpec::new(1).bus(2).bus, 2);
    /// ```
    pub const fn bus(self, bus: u32) -> Self {
        Self { bus, ..self }
    }

    /// The bit of the enable word that opens the timer's registers.
    ///
    /// ```
    /// # use board::TimerSpec;
    /// let spec = TimerSpec::new(3).enable(3, 1);
    /// assert_eq!((spec.word, spec.bit), (3, 1));
    /// ```
    pub const fn enable(self, word: u32, bit: u32) -> Self {
        Self { word, bit, ..self }
    }

    /// The interrupt line.
    ///
    /// ```
    /// # use board::TimerSpec;
    /// assert_eq!(TimerSpec::new(2).irq(28).irq, 28);
    /// ```
    pub const fn irq(self, irq: u32) -> Self {
        Self { irq, ..self }
    }

    /// Manual mode. As in the published Rust a timer in one-pulse mode stops at its update; in manual mode that clears CEN too, as ST's manual has it,
    /// so a write of CEN starts the timer again. Without it CEN stays set, and has to be written 0 before it starts a timer. A reload of 0 holds a
    /// timer in manual mode: it keeps its number and has no event. Without the mode it is a period of one step. UDIS goes before one-pulse in manual
    /// mode: no update, so no stop.
    ///
    /// ```
    /// use board::{Board, Reg, Setup, TimerSpec};
    ///
    /// let mut setup = Setup::new(16e6, 3.3);
    /// let lock = setup.add_timer(TimerSpec::new(2).manual(true));
    /// let pilot = setup.add_timer(TimerSpec::new(3).enable(0, 1));
    /// setup.add_pin(&[]);
    /// let mut board = Board::new(4);
    /// board.set_up(&setup)?;
    /// board.enable(0, 3)?;
    /// for timer in [lock, pilot] {
    ///     board.write_reg(timer, Reg::Arr, 9, 0)?;
    ///     board.write_reg(timer, Reg::Cr1, 0b1001, 0)?; // OPM and CEN
    /// }
    /// board.deliver(lock, 10)?;
    /// board.deliver(pilot, 10)?;
    /// assert_eq!((board.read_reg(lock, Reg::Cr1, 10)?, board.read_reg(pilot, Reg::Cr1, 10)?), (0b1000, 0b1001));
    ///
    /// // The same write fires the one and not the other.
    /// for timer in [lock, pilot] {
    ///     board.write_reg(timer, Reg::Cr1, 0b1001, 50)?;
    /// }
    /// assert_eq!((board.booked(lock)?, board.booked(pilot)?), (Some(60), None));
    /// # Ok::<(), board::Error>(())
    /// ```
    pub const fn manual(self, manual: bool) -> Self {
        Self { manual, ..self }
    }
}

impl Default for TimerSpec {
    /// TIM2 as [`new`](Self::new) has it.
    fn default() -> Self {
        Self::new(2)
    }
}

/// A board: 1 to 8 timers, 1 to 128 pins, 0 to 256 interrupt lines.
///
/// ```
/// use board::{Board, Channel, Setup, TimerSpec};
///
/// let mut setup = Setup::new(16e6, 3.3);
/// let tim2 = setup.add_timer(TimerSpec::new(2).width(32).enable(3, 0));
/// let pin = setup.add_pin(&[(1, Channel::Ch1.signal(2))]); // function 1 is TIM2_CH1
///
/// let mut board = Board::new(64);
/// board.set_up(&setup)?;
/// assert_eq!((board.timers().count(), board.pins()), (1, 1));
/// assert_eq!((board.booked(tim2), board.level(pin)), (Ok(None), Ok(0)));
/// # Ok::<(), board::Error>(())
/// ```
#[derive(Clone, Debug, Default, PartialEq)]
pub struct Setup {
    /// The clock in hertz; the tree starts flat.
    pub hz: f64,
    /// The supply in volts.
    pub vcc: f64,
    /// Interrupt lines.
    pub lines: u32,
    /// The timers, all of different numbers.
    pub timers: Vec<TimerSpec>,
    /// For each pin the signals of its 16 alternate functions, 0 for none; see [`signal`].
    pub pins: Vec<[u8; 16]>,
}

impl Setup {
    /// A clock and a supply; timers and pins are to be added, and `lines` to be set where interrupts are wanted.
    ///
    /// ```
    /// # use board::Setup;
    /// let setup = Setup { lines: 8, ..Setup::new(16e6, 3.3) };
    /// assert_eq!((setup.hz, setup.vcc, setup.timers.len()), (16e6, 3.3, 0));
    /// ```
    pub fn new(hz: f64, vcc: f64) -> Self {
        Self { hz, vcc, ..Self::default() }
    }

    /// The board of the examples: 16 MHz, 3.3 V, 64 lines; TIM2 of 32 bits with interrupt 28 and TIM3 of 16 bits with interrupt 29, behind the bits
    /// 0 and 1 of enable word 3; eight pins, whose function 1 is TIM2_CH1 to TIM2_CH4, then TIM3_CH1 to TIM3_CH4.
    ///
    /// ```
    /// # use board::{signal, Setup};
    /// let setup = Setup::example();
    /// assert_eq!((setup.timers[0].number, setup.timers[1].number), (2, 3));
    /// assert_eq!(setup.pins[5][1], signal(3, 1));
    /// ```
    pub fn example() -> Self {
        let mut s = Self { lines: 64, ..Self::new(16e6, 3.3) };
        s.add_timer(TimerSpec::new(2).width(32).enable(3, 0).irq(28));
        s.add_timer(TimerSpec::new(3).enable(3, 1).irq(29));
        for number in [2, 3] {
            for channel in Channel::ALL {
                s.add_pin(&[(1, channel.signal(number))]);
            }
        }
        s
    }

    /// A timer more. Its index is what the calls take.
    ///
    /// ```
    /// # use board::{Setup, TimerIndex, TimerSpec};
    /// let mut setup = Setup::example();
    /// assert_eq!(setup.add_timer(TimerSpec::new(4)), TimerIndex(2));
    /// ```
    pub fn add_timer(&mut self, spec: TimerSpec) -> TimerIndex {
        self.timers.push(spec);
        TimerIndex(self.timers.len() as u32 - 1)
    }

    /// A pin more, with pairs of a function, mod 16, and its signal. Gives the pin's number.
    ///
    /// ```
    /// # use board::{Channel, Setup};
    /// let mut setup = Setup::example();
    /// assert_eq!(setup.add_pin(&[(2, Channel::Ch1.signal(2)), (10, Channel::Ch3.signal(4))]), 8);
    /// assert_eq!((setup.pins[8][2], setup.pins[8][10]), (194, 228));
    /// ```
    pub fn add_pin(&mut self, functions: &[(u8, u8)]) -> u32 {
        let mut pin = [0; 16];
        for &(function, signal) in functions {
            pin[function as usize % 16] = signal;
        }
        self.pins.push(pin);
        self.pins.len() as u32 - 1
    }

    /// Where TIMn stands.
    ///
    /// ```
    /// # use board::{Setup, TimerIndex};
    /// assert_eq!(Setup::example().index_of(3), Some(TimerIndex(1)));
    /// assert_eq!(Setup::example().index_of(1), None);
    /// ```
    pub fn index_of(&self, number: u32) -> Option<TimerIndex> {
        self.timers.iter().position(|t| t.number == number).map(|i| TimerIndex(i as u32))
    }

    /// The first limit that the set-up is outside of, in document 01's order. The library decides; this says what
    /// [`Error::WrongBoard`](crate::Error) is about, and tests hold the two together.
    ///
    /// ```
    /// use board::{Limit, Setup, TimerIndex};
    ///
    /// let mut setup = Setup::example();
    /// assert_eq!(setup.limit(), None);
    /// setup.timers[1].width = 24;
    /// assert_eq!(setup.limit(), Some(Limit::Width { timer: TimerIndex(1), width: 24 }));
    /// ```
    pub fn limit(&self) -> Option<Limit> {
        if !(1..=8).contains(&self.timers.len()) {
            return Some(Limit::Timers(self.timers.len()));
        }
        if !(1..=128).contains(&self.pins.len()) {
            return Some(Limit::Pins(self.pins.len()));
        }
        if self.lines > 256 {
            return Some(Limit::Lines(self.lines));
        }
        for (t, i) in self.timers.iter().zip(0..) {
            let timer = TimerIndex(i);
            if !(1..=24).contains(&t.number) {
                return Some(Limit::Number { timer, number: t.number });
            }
            if t.width != 16 && t.width != 32 {
                return Some(Limit::Width { timer, width: t.width });
            }
            if t.channels > 4 {
                return Some(Limit::Channels { timer, channels: t.channels });
            }
            if t.word > 8 {
                return Some(Limit::Word { timer, word: t.word });
            }
            if t.bit > 31 {
                return Some(Limit::Bit { timer, bit: t.bit });
            }
            if let Some(j) = self.timers[i as usize + 1..].iter().position(|u| u.number == t.number) {
                return Some(Limit::SameNumber { timer, other: TimerIndex(i + 1 + j as u32), number: t.number });
            }
        }
        (!positive(self.vcc)).then_some(Limit::Supply)
    }
}

/// The signal of a channel (0 to 3) of TIMn, n 2 to 5; 0 for any other. [`Channel::signal`] is the same by the channel's name.
///
/// ```
/// use board::signal;
///
/// assert_eq!((signal(2, 0), signal(4, 3)), (194, 229)); // TIM2_CH1, TIM4_CH4
/// assert_eq!(signal(6, 0), 0);
/// ```
pub const fn signal(number: u32, channel: u32) -> u8 {
    if number < 2 || number > 5 || channel > 3 {
        return 0;
    }
    (16 * (number + 10) + channel + 2) as u8
}

/// The clock tree: frequencies in hertz, dividers 1 to 8,192.
///
/// ```
/// use board::{Board, ClockTree, Reg, TimerIndex};
///
/// // From cycle 1000 on the timers of bus 1 take a step every other cycle.
/// let mut board = Board::example();
/// board.set_clock_tree(&ClockTree { tim1: 2, ..ClockTree::flat(16e6) }, 1000)?;
/// board.write_reg(TimerIndex(0), Reg::Cr1, 1, 1000)?;
/// assert_eq!(board.read_reg(TimerIndex(0), Reg::Cnt, 1100)?, 50);
/// # Ok::<(), board::Error>(())
/// ```
#[derive(Clone, Copy, Debug, PartialEq)]
pub struct ClockTree {
    /// The system clock. It is kept and decides nothing.
    pub sysclk_hz: f64,
    /// The clock that cycles count.
    pub hclk_hz: f64,
    /// Cycles to a clock of APB1.
    pub ppre1: u32,
    /// Cycles to a clock of APB2.
    pub ppre2: u32,
    /// Cycles to a clock of APB3, its timers' too.
    pub ppre3: u32,
    /// Cycles to a clock of APB4, its timers' too, and of every other bus.
    pub ppre4: u32,
    /// Cycles to a clock of APB1's timers.
    pub tim1: u32,
    /// Cycles to a clock of APB2's timers.
    pub tim2: u32,
}

impl ClockTree {
    /// Everything from one clock, as after a set-up.
    ///
    /// ```
    /// # use board::ClockTree;
    /// let tree = ClockTree::flat(16e6);
    /// assert_eq!((tree.sysclk_hz, tree.hclk_hz, tree.tim1, tree.ppre4), (16e6, 16e6, 1, 1));
    /// ```
    pub fn flat(hz: f64) -> Self {
        Self { sysclk_hz: hz, hclk_hz: hz, ppre1: 1, ppre2: 1, ppre3: 1, ppre4: 1, tim1: 1, tim2: 1 }
    }

    /// The first field that is outside the limits. As with [`Setup::limit`] the library decides.
    ///
    /// ```
    /// use board::{ClockField, ClockTree};
    ///
    /// assert_eq!(ClockTree::flat(16e6).limit(), None);
    /// assert_eq!(ClockTree { tim2: 0, ..ClockTree::flat(16e6) }.limit(), Some(ClockField::Tim2));
    /// ```
    pub fn limit(&self) -> Option<ClockField> {
        use ClockField::*;
        if !positive(self.sysclk_hz) {
            return Some(SysclkHz);
        }
        if !positive(self.hclk_hz) {
            return Some(HclkHz);
        }
        let dividers = [(self.ppre1, Ppre1), (self.ppre2, Ppre2), (self.ppre3, Ppre3), (self.ppre4, Ppre4), (self.tim1, Tim1), (self.tim2, Tim2)];
        dividers.into_iter().find(|(n, _)| !(1..=8192).contains(n)).map(|(_, field)| field)
    }
}

/// Finite and above 0.
fn positive(x: f64) -> bool {
    x.is_finite() && x > 0.0
}

/// A pin's mode.
///
/// ```
/// use board::{Board, Mode, PinConfig};
///
/// let mut board = Board::example();
/// let entries = board.set_pin(0, &PinConfig { mode: Mode::Output, out: true, ..PinConfig::default() }, 5)?;
/// assert_eq!((entries[0].level, entries[0].cycle), (1, 5));
/// # Ok::<(), board::Error>(())
/// ```
#[derive(Clone, Copy, Debug, Default, PartialEq, Eq)]
pub enum Mode {
    /// An input: its level follows the outside and the pulls.
    #[default]
    Input = 0,
    /// A plain output: the output bit.
    Output = 1,
    /// An alternate function: the signal that the set-up gave it.
    Alternate = 2,
    /// Analogue; its level follows the outside as an input's does.
    Analog = 3,
}

/// A pin's setting.
///
/// ```
/// use board::{Mode, PinConfig};
///
/// assert_eq!(PinConfig::alternate(1), PinConfig { mode: Mode::Alternate, function: 1, ..PinConfig::default() });
/// ```
#[derive(Clone, Copy, Debug, Default, PartialEq, Eq)]
pub struct PinConfig {
    /// Input, output, alternate function or analogue.
    pub mode: Mode,
    /// An output that only pulls low.
    pub open_drain: bool,
    /// The output bit.
    pub out: bool,
    /// Pull-up.
    pub pullup: bool,
    /// Pull-down.
    pub pulldown: bool,
    /// The alternate function; its number counts mod 16.
    pub function: u8,
}

impl PinConfig {
    /// A push-pull pin with an alternate function, as a pilot needs it.
    ///
    /// ```
    /// # use board::{Board, PinConfig};
    /// Board::example().set_pin(0, &PinConfig::alternate(1), 0)?;
    /// # Ok::<(), board::Error>(())
    /// ```
    pub fn alternate(function: u8) -> Self {
        Self { mode: Mode::Alternate, function, ..Self::default() }
    }
}

/// What drives a pin from outside.
///
/// ```
/// use board::{Board, Drive};
///
/// let mut board = Board::example();
/// assert_eq!(board.drive_pin(7, Drive::Analog(3.0), 0)?.len(), 1);
/// assert_eq!((board.level(7)?, board.volts(7)?), (1, 3.0));
/// assert_eq!(board.drive_pin(7, Drive::Analog(1.5), 0)?.len(), 0); // settles neither level
/// # Ok::<(), board::Error>(())
/// ```
#[derive(Clone, Copy, Debug, Default, PartialEq)]
pub enum Drive {
    /// Nothing.
    #[default]
    Nothing,
    /// Low.
    Low,
    /// High.
    High,
    /// A voltage. Between the thresholds, and for not-a-number, the level is held.
    Analog(f64),
}
