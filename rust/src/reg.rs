//! A timer's registers by their names, and the values of those that have fields.

use std::fmt::{self, Display, Formatter};

use crate::signal;

/// A register of a timer. [`Display`] gives the manual's name.
///
/// ```
/// use board::{Board, Reg, TimerIndex};
///
/// let (mut board, tim2) = (Board::example(), TimerIndex(0));
/// board.write_reg(tim2, Reg::Ccr(1), 300, 0)?;
/// assert_eq!(board.read_reg(tim2, Reg::Ccr(1), 0)?, 300);
/// assert_eq!((Reg::Ccr(1).offset(), Reg::Ccr(1).to_string().as_str()), (0x34, "CCR1"));
/// # Ok::<(), board::Error>(())
/// ```
#[derive(Clone, Copy, Debug, PartialEq, Eq, Hash)]
pub enum Reg {
    /// Control: start, direction, one-pulse, preload; see [`Cr1`].
    Cr1,
    /// Kept and not used.
    Cr2,
    /// Kept and not used.
    Smcr,
    /// Interrupt enables.
    Dier,
    /// Flags: a written 0 clears one.
    Sr,
    /// Event generation; reads 0. See [`UG`].
    Egr,
    /// Modes of the channels 1 and 2; see [`Ccmr`].
    Ccmr1,
    /// Modes of the channels 3 and 4.
    Ccmr2,
    /// Channel enables and polarities; see [`Ccer`].
    Ccer,
    /// The counter.
    Cnt,
    /// The prescaler; a written one waits for an update.
    Psc,
    /// The reload.
    Arr,
    /// The compare of a channel, 1 to 4. Any other number is no register: it reads 0 and takes nothing.
    Ccr(u8),
}

/// UG of [`Reg::Egr`]: an update by hand, which loads prescaler, reload and compares and restarts the counter.
///
/// ```
/// use board::{Board, Reg, TimerIndex, UG};
///
/// let (mut board, tim2) = (Board::example(), TimerIndex(0));
/// board.write_reg(tim2, Reg::Psc, 15, 0)?;
/// board.write_reg(tim2, Reg::Egr, UG, 0)?; // the prescaler acts from here on
/// board.write_reg(tim2, Reg::Cr1, 1, 0)?;
/// assert_eq!(board.read_reg(tim2, Reg::Cnt, 1600)?, 100);
/// # Ok::<(), board::Error>(())
/// ```
pub const UG: u32 = 1;

impl Reg {
    /// Every register, by its offset.
    ///
    /// ```
    /// # use board::Reg;
    /// assert!(Reg::ALL.is_sorted_by_key(|r| r.offset()));
    /// ```
    pub const ALL: [Reg; 16] = {
        use Reg::*;
        [Cr1, Cr2, Smcr, Dier, Sr, Egr, Ccmr1, Ccmr2, Ccer, Cnt, Psc, Arr, Ccr(1), Ccr(2), Ccr(3), Ccr(4)]
    };

    /// The register's offset.
    ///
    /// ```
    /// # use board::Reg;
    /// assert_eq!((Reg::Cr1.offset(), Reg::Arr.offset(), Reg::Ccr(4).offset()), (0, 0x2c, 0x40));
    /// ```
    pub const fn offset(self) -> u32 {
        match self {
            Reg::Cr1 => 0x00,
            Reg::Cr2 => 0x04,
            Reg::Smcr => 0x08,
            Reg::Dier => 0x0c,
            Reg::Sr => 0x10,
            Reg::Egr => 0x14,
            Reg::Ccmr1 => 0x18,
            Reg::Ccmr2 => 0x1c,
            Reg::Ccer => 0x20,
            Reg::Cnt => 0x24,
            Reg::Psc => 0x28,
            Reg::Arr => 0x2c,
            Reg::Ccr(n) => 0x30 + 4 * n as u32,
        }
    }

    /// The register that an offset is in: its low two bits do not count. `None` where the timer has none.
    ///
    /// ```
    /// # use board::Reg;
    /// assert_eq!((Reg::at(0x26), Reg::at(0x30), Reg::at(0x44)), (Some(Reg::Cnt), None, None));
    /// ```
    pub fn at(offset: u32) -> Option<Self> {
        Self::ALL.into_iter().find(|r| r.offset() == offset & !3)
    }
}

impl Display for Reg {
    fn fmt(&self, f: &mut Formatter) -> fmt::Result {
        match self {
            Reg::Ccr(n) => write!(f, "CCR{n}"),
            other => f.write_str(&format!("{other:?}").to_uppercase()),
        }
    }
}

/// A channel of a timer, by the manual's number.
///
/// ```
/// use board::{Channel, Reg};
///
/// assert_eq!((Channel::Ch3.ccmr(), Channel::Ch3.ccr()), (Reg::Ccmr2, Reg::Ccr(3)));
/// ```
#[derive(Clone, Copy, Debug, PartialEq, Eq, PartialOrd, Ord, Hash)]
pub enum Channel {
    /// CH1, document 01's channel 0.
    Ch1,
    /// CH2.
    Ch2,
    /// CH3.
    Ch3,
    /// CH4.
    Ch4,
}

impl Channel {
    /// The four.
    ///
    /// ```
    /// # use board::Channel;
    /// assert_eq!(Channel::ALL[1], Channel::Ch2);
    /// ```
    pub const ALL: [Channel; 4] = [Channel::Ch1, Channel::Ch2, Channel::Ch3, Channel::Ch4];

    /// Its signal on TIMn, for a pin's function in a [`Setup`](crate::Setup); 0 if the timer is none of 2 to 5.
    ///
    /// ```
    /// # use board::Channel;
    /// assert_eq!((Channel::Ch1.signal(2), Channel::Ch4.signal(4)), (194, 229));
    /// ```
    pub const fn signal(self, number: u32) -> u8 {
        signal(number, self as u32)
    }

    /// The register of its mode.
    ///
    /// ```
    /// # use board::{Channel, Reg};
    /// assert_eq!((Channel::Ch2.ccmr(), Channel::Ch3.ccmr()), (Reg::Ccmr1, Reg::Ccmr2));
    /// ```
    pub const fn ccmr(self) -> Reg {
        match self {
            Channel::Ch1 | Channel::Ch2 => Reg::Ccmr1,
            Channel::Ch3 | Channel::Ch4 => Reg::Ccmr2,
        }
    }

    /// The register of its compare.
    ///
    /// ```
    /// # use board::{Channel, Reg};
    /// assert_eq!(Channel::Ch2.ccr(), Reg::Ccr(2));
    /// ```
    pub const fn ccr(self) -> Reg {
        Reg::Ccr(self as u8 + 1)
    }
}

/// What a channel's output does (OCxM).
///
/// ```
/// use board::{Ccmr, Channel, OutputMode};
///
/// assert_eq!(Ccmr::new().mode(Channel::Ch1, OutputMode::Pwm1).bits(), 0x60);
/// ```
#[derive(Clone, Copy, Debug, PartialEq, Eq)]
pub enum OutputMode {
    /// A match leaves the level.
    Frozen = 0,
    /// High on a match.
    Active = 1,
    /// Low on a match.
    Inactive = 2,
    /// Toggles on a match.
    Toggle = 3,
    /// Low.
    ForcedLow = 4,
    /// High.
    ForcedHigh = 5,
    /// Upward: high while the counter is below the compare. A pilot.
    Pwm1 = 6,
    /// The inverse of PWM mode 1.
    Pwm2 = 7,
}

/// A value of [`Reg::Cr1`].
///
/// ```
/// use board::{Board, Cr1, Reg, TimerIndex};
///
/// let (mut board, tim2) = (Board::example(), TimerIndex(0));
/// board.write_reg(tim2, Reg::Cr1, Cr1::new().arpe(true).cen(true).bits(), 100)?; // starts with the reload preloaded
/// assert_eq!(board.read_reg(tim2, Reg::Cr1, 100)?, 0x81);
/// // From what is there, all but the start bit:
/// let cr1 = Cr1::from_bits(board.peek_reg(tim2, Reg::Cr1, 100)?);
/// assert_eq!(cr1.cen(false).bits(), 0x80);
/// # Ok::<(), board::Error>(())
/// ```
#[derive(Clone, Copy, Debug, Default, PartialEq, Eq)]
pub struct Cr1(u32);

/// The methods of every value: none of its bits, a value as it is, the value to write.
macro_rules! value {
    ($name:ident, $clear:literal, $from:literal, $to:literal) => {
        #[doc = concat!($clear, "\n\n```\n# use board::", stringify!($name), ";\nassert_eq!(", stringify!($name), "::new().bits(), 0);\n```")]
        pub const fn new() -> Self {
            Self(0)
        }

        #[doc = concat!("A register's value as it is.\n\n```\n# use board::*;\n", $from, "\n```")]
        pub const fn from_bits(bits: u32) -> Self {
            Self(bits)
        }

        #[doc = concat!("The value to write.\n\n```\n# use board::*;\n", $to, "\n```")]
        pub const fn bits(self) -> u32 {
            self.0
        }

        const fn put(self, bit: u32, on: bool) -> Self {
            Self(if on { self.0 | bit } else { self.0 & !bit })
        }
    };
}

/// The methods of a bit: one that sets or clears it, one that asks.
macro_rules! bits {
    ($($bit:expr, $set:ident, $is:ident, $what:literal, $example:literal;)*) => {
        $(
            #[doc = concat!($what, "\n\n```\n# use board::Cr1;\nassert_eq!(Cr1::new().", stringify!($set), "(true).bits(), ", $example, ");\n```")]
            pub const fn $set(self, on: bool) -> Self {
                self.put($bit, on)
            }

            #[doc = concat!("Whether it is set: ", $what, "\n\n```\n# use board::Cr1;\nassert!(Cr1::from_bits(", $example, ").", stringify!($is), "());\n```")]
            pub const fn $is(self) -> bool {
                self.0 & $bit != 0
            }
        )*
    };
}

impl Cr1 {
    value! {
        Cr1, "All bits clear.",
        "assert!(Cr1::from_bits(0x81).is_arpe());",
        "assert_eq!(Cr1::new().cen(true).dir(true).bits(), 0x11);"
    }

    bits! {
        0x01, cen, is_cen, "CEN, the counter runs.", "0x01";
        0x02, udis, is_udis, "UDIS, an overflow makes no update.", "0x02";
        0x04, urs, is_urs, "URS, UG sets no update flag.", "0x04";
        0x08, opm, is_opm, "OPM, one-pulse.", "0x08";
        0x10, dir, is_dir, "DIR, downward.", "0x10";
        0x80, arpe, is_arpe, "ARPE, a written reload waits for an update.", "0x80";
    }
}

/// A value of [`Reg::Ccmr1`], for the channels 1 and 2, or of [`Reg::Ccmr2`], for 3 and 4; [`Channel::ccmr`] says which.
///
/// ```
/// use board::{Board, Ccmr, Channel, OutputMode, Reg, TimerIndex};
///
/// let (mut board, tim2) = (Board::example(), TimerIndex(0));
/// let both = Ccmr::new().mode(Channel::Ch1, OutputMode::Pwm1).mode(Channel::Ch2, OutputMode::Pwm2).preload(Channel::Ch2, true);
/// assert_eq!(both.bits(), 0x7860);
/// board.write_reg(tim2, Reg::Ccmr1, both.bits(), 0)?;
/// # Ok::<(), board::Error>(())
/// ```
#[derive(Clone, Copy, Debug, Default, PartialEq, Eq)]
pub struct Ccmr(u32);

impl Ccmr {
    value! {
        Ccmr, "All bits clear: outputs, frozen, without preload.",
        "assert_eq!(Ccmr::from_bits(0x6868).preload(Channel::Ch1, false).bits(), 0x6860);",
        "assert_eq!(Ccmr::from_bits(0x60).bits(), 0x60);"
    }

    /// Makes the channel an output (CCxS 0) of a mode (OCxM, its fourth bit clear).
    ///
    /// ```
    /// # use board::{Ccmr, Channel, OutputMode};
    /// assert_eq!(Ccmr::new().mode(Channel::Ch4, OutputMode::Pwm1).bits(), 0x6000);
    /// ```
    pub const fn mode(self, channel: Channel, mode: OutputMode) -> Self {
        let at = Self::at(channel);
        Self(self.0 & !(0x1_0073 << at) | (mode as u32) << (at + 4))
    }

    /// OCxPE: a written compare waits for an update, so that a duty changes between two periods.
    ///
    /// ```
    /// # use board::{Ccmr, Channel};
    /// assert_eq!(Ccmr::new().preload(Channel::Ch1, true).bits(), 0x08);
    /// ```
    pub const fn preload(self, channel: Channel, on: bool) -> Self {
        self.put(0x08 << Self::at(channel), on)
    }

    /// The lowest bit of the channel's byte.
    const fn at(channel: Channel) -> u32 {
        channel as u32 % 2 * 8
    }
}

/// A value of [`Reg::Ccer`].
///
/// ```
/// use board::{Board, Ccer, Channel, Reg, TimerIndex};
///
/// let (mut board, tim2) = (Board::example(), TimerIndex(0));
/// board.write_reg(tim2, Reg::Ccer, Ccer::new().on(Channel::Ch1, true).on(Channel::Ch3, true).bits(), 0)?;
/// let ccer = Ccer::from_bits(board.peek_reg(tim2, Reg::Ccer, 0)?);
/// assert_eq!(Channel::ALL.map(|c| ccer.is_on(c)), [true, false, true, false]);
/// # Ok::<(), board::Error>(())
/// ```
#[derive(Clone, Copy, Debug, Default, PartialEq, Eq)]
pub struct Ccer(u32);

impl Ccer {
    value! {
        Ccer, "Every channel off.",
        "assert_eq!(Ccer::from_bits(0x11).on(Channel::Ch1, false).bits(), 0x10);",
        "assert_eq!(Ccer::from_bits(0x1).bits(), 1);"
    }

    /// CCxE: the channel drives its signal; off, the signal is low.
    ///
    /// ```
    /// # use board::{Ccer, Channel};
    /// assert_eq!(Ccer::new().on(Channel::Ch2, true).bits(), 0x10);
    /// ```
    pub const fn on(self, channel: Channel, on: bool) -> Self {
        self.put(0x1 << Self::at(channel), on)
    }

    /// Whether the channel is on.
    ///
    /// ```
    /// # use board::{Ccer, Channel};
    /// assert!(Ccer::from_bits(0x1000).is_on(Channel::Ch4));
    /// ```
    pub const fn is_on(self, channel: Channel) -> bool {
        self.0 & 0x1 << Self::at(channel) != 0
    }

    /// CCxP: the output is inverted.
    ///
    /// ```
    /// # use board::{Ccer, Channel};
    /// assert_eq!(Ccer::new().inverted(Channel::Ch1, true).bits(), 0x2);
    /// ```
    pub const fn inverted(self, channel: Channel, on: bool) -> Self {
        self.put(0x2 << Self::at(channel), on)
    }

    /// Whether the output is inverted.
    ///
    /// ```
    /// # use board::{Ccer, Channel};
    /// assert!(!Ccer::from_bits(0x1).is_inverted(Channel::Ch1));
    /// ```
    pub const fn is_inverted(self, channel: Channel) -> bool {
        self.0 & 0x2 << Self::at(channel) != 0
    }

    const fn at(channel: Channel) -> u32 {
        4 * channel as u32
    }
}
