//! Why a pin is low (document 02, F-12).

use std::fmt::{self, Display, Formatter};

/// The first true reason why a pin is low, by [`Board::why`](crate::Board::why). [`Display`] is a sentence for a person.
///
/// ```
/// use board::Reason;
///
/// assert_eq!(Reason::Off.to_string(), "the channel is off or no output");
/// assert_eq!((Reason::Off.number(), Reason::of(7), Reason::of(11)), (7, Some(Reason::Off), None));
/// assert!(Reason::ALL.iter().enumerate().all(|(i, r)| r.number() as usize == i));
/// ```
#[derive(Clone, Copy, Debug, PartialEq, Eq, Hash, PartialOrd, Ord)]
#[non_exhaustive]
pub enum Reason {
    /// 0: it is high.
    High,
    /// 1: the pin is an input or analogue.
    Input,
    /// 2: it is a plain output with bit 0.
    OutputZero,
    /// 3: it is in alternate mode, but signal 0 is selected.
    NoSignal,
    /// 4: an open-drain 1 has released it.
    Released,
    /// 5: the signal belongs to no channel of a driving timer (TIM2, TIM3, TIM4) on this board.
    NoChannel,
    /// 6: this pin does not route its signal. Proved never to be given of a board that calls lead to; a restored one may be any.
    NotRouted,
    /// 7: the channel is off (CCxE is 0) or no output (CCxS is not 0).
    Off,
    /// 8: the channel was last driven low at a forced or latched level, modes 0 to 5.
    Held,
    /// 9: the channel was last driven low in PWM mode 1 or 2, and the counter's side of the compare is low.
    Count,
    /// 10: none of these. Such is a channel that was driven low and not since, though the counter's side is high by now: a write that does not
    /// drive turned the counter or passed an update.
    Other,
}

impl Reason {
    /// The reasons by their numbers.
    pub const ALL: [Reason; 11] = [
        Reason::High,
        Reason::Input,
        Reason::OutputZero,
        Reason::NoSignal,
        Reason::Released,
        Reason::NoChannel,
        Reason::NotRouted,
        Reason::Off,
        Reason::Held,
        Reason::Count,
        Reason::Other,
    ];

    /// The reason of a number.
    pub fn of(number: u8) -> Option<Reason> {
        Reason::ALL.get(number as usize).copied()
    }

    /// Document 02's number.
    pub fn number(self) -> u8 {
        self as u8
    }
}

impl Display for Reason {
    fn fmt(&self, f: &mut Formatter<'_>) -> fmt::Result {
        f.write_str(match self {
            Reason::High => "the pin is high",
            Reason::Input => "the pin is an input or analogue",
            Reason::OutputZero => "the pin is a plain output and its bit is 0",
            Reason::NoSignal => "the pin is in alternate mode, but no signal is selected",
            Reason::Released => "an open-drain 1 has released the pin",
            Reason::NoChannel => "the pin's signal belongs to no channel of a driving timer on this board",
            Reason::NotRouted => "the pin does not route its signal",
            Reason::Off => "the channel is off or no output",
            Reason::Held => "the channel's level is forced or latched low",
            Reason::Count => "the counter is on the low side of the compare",
            Reason::Other => "none of the known reasons",
        })
    }
}
