//! `pilot new`: a list for a pilot, from plain words.

use std::fmt::Write as _;
use std::io::{self, Write as _};

use board::signal;

use crate::args::{Args, Spec};
use crate::fault::{warn, Fault};
use crate::ratio::{short, Hertz, Ratio};

pub const HELP: &str = "\
usage: pilot new --clock HZ --frequency HZ --duty PERCENT --pin PIN [--timer N] [--channel N] [--cycles N | --seconds S]

Writes a list (docs/CALLS.md) on standard output: a board with one timer, its channel on the pin in PWM mode 1, started at
cycle 0, and deliveries. `pilot new --clock 16MHz --frequency 1kHz --duty 30% --pin 0 | pilot run -` shows the pilot.

  --clock HZ       the board's clock, whole hertz: 16MHz, 170MHz, 32768
  --frequency HZ   of the pilot: 1kHz, 0.5Hz
  --duty PERCENT   how long the pin is high: 30%, 12.5%, or a fraction as 1/3
  --pin PIN        0 to 127; the board has the pins up to it
  --timer N        2, 3 or 4, the timers that drive pins; 2 counts to 32 bits, 3 and 4 to 16. 2 if it is not said
  --channel N      1 to 4; 1 if it is not said
  --cycles N       how long the pilot is delivered, at most 2^62 cycles; ten periods if neither is said
  --seconds S      the same in seconds: 0.06

Prescaler, reload and compare are whole numbers. The period is the nearest to the one asked for, and with it the duty; where
either is not exact, standard error says what the list has instead.

Exit status: 0, also where the duty is not exact; 1 for a failed write; 2 for wrong usage.
";

pub const OPTIONS: &[Spec] = &[
    Spec::Value("--clock"),
    Spec::Value("--frequency"),
    Spec::Value("--duty"),
    Spec::Value("--pin"),
    Spec::Value("--timer"),
    Spec::Value("--channel"),
    Spec::Value("--cycles"),
    Spec::Value("--seconds"),
];

/// A clock above this is none, and its cycles would not be counted in 128 bits.
const CLOCK: u128 = 1_000_000_000_000;
/// Deliveries of a list, and periods of a delivery: with five events a period it stays below 100,001.
const DELIVERIES: u64 = 100;
const PERIODS: u64 = 10_000;
const LAST_CYCLE: u64 = 1 << 62;

// Offsets of the registers.
const CR1: u32 = 0x00;
const EGR: u32 = 0x14;
const CCMR1: u32 = 0x18;
const CCER: u32 = 0x20;
const PSC: u32 = 0x28;
const ARR: u32 = 0x2c;
const CCR1: u32 = 0x34;

pub fn new(args: &Args) -> Result<(), Fault> {
    args.no_words()?;
    let post = Post::of(args)?;
    for note in post.notes() {
        warn(note);
    }
    io::stdout().lock().write_all(post.list().as_bytes()).map_err(Fault::unwritten)
}

/// What is asked for, and what the timer makes of it.
#[derive(Debug)]
struct Post {
    clock: u64,
    frequency: Ratio,
    duty: Ratio,
    pin: u32,
    timer: u32,
    /// From 0.
    channel: u32,
    steps: Steps,
    cycles: u64,
}

/// A step is so many cycles, a period so many steps, high for some of them.
#[derive(Clone, Copy, Debug, PartialEq, Eq)]
struct Steps {
    step: u64,
    period: u64,
    high: u64,
}

fn option<T>(name: &str, word: &str, value: Option<T>, kind: &str) -> Result<T, Fault> {
    value.ok_or_else(|| Fault::usage(format!("{name} {word}: {kind}")))
}

fn within(name: &str, value: u32, from: u32, to: u32) -> Result<u32, Fault> {
    if (from..=to).contains(&value) { Ok(value) } else { Err(Fault::usage(format!("{name} {value}: {from} to {to}"))) }
}

impl Post {
    fn of(args: &Args) -> Result<Self, Fault> {
        let [clock, frequency, duty] = [args.needed("--clock")?, args.needed("--frequency")?, args.needed("--duty")?];
        let pin = within("--pin", args.needed_number("--pin")?, 0, 127)?;
        let timer = within("--timer", args.number("--timer")?.unwrap_or(2), 2, 4)?;
        let channel = within("--channel", args.number("--channel")?.unwrap_or(1), 1, 4)? - 1;
        let hertz = "a frequency is written as 16MHz, 1.5kHz or 50Hz";
        let whole = |r: Ratio| (r.num.is_multiple_of(r.den) && r.num != 0 && r.num / r.den <= CLOCK).then(|| (r.num / r.den) as u64);
        let hz = option("--clock", clock, Ratio::hertz(clock), hertz)?;
        let hz = option("--clock", clock, whole(hz), "whole hertz from 1 Hz to 1000 GHz")?;
        let frequency = option("--frequency", frequency, Ratio::hertz(frequency).filter(|f| f.num != 0), hertz)?;
        let duty = option("--duty", duty, Ratio::share(duty), "0% to 100%, or a fraction as 1/3")?;
        let width = if timer == 2 { 32 } else { 16 };
        let steps = Steps::nearest(hz, frequency, duty, width).map_err(|why| Fault::usage(format!("--frequency {}: {why}", Hertz(value(frequency)))))?;
        let cycles = match (args.number("--cycles")?, args.text("--seconds")?) {
            (Some(_), Some(_)) => return Err(Fault::usage("--cycles and --seconds: one of them")),
            (Some(cycles), None) => cycles,
            (None, Some(s)) => {
                let Ratio { num, den } = option("--seconds", s, Ratio::decimal(s), "a number of seconds, as 0.06")?;
                u64::try_from(num * u128::from(hz) / den).unwrap_or(u64::MAX)
            }
            (None, None) => steps.cycles() * 10,
        };
        if cycles > LAST_CYCLE {
            return Err(Fault::usage("the last cycle is 2^62"));
        }
        Ok(Self { clock: hz, frequency, duty, pin, timer, channel, steps, cycles })
    }

    /// What is not exactly as it was asked for.
    fn notes(&self) -> Vec<String> {
        let Steps { step, period, high } = self.steps;
        let mut notes = Vec::new();
        let cycles = self.steps.cycles();
        if u128::from(cycles) * self.frequency.num != u128::from(self.clock) * self.frequency.den {
            let (asked, has) = (Hertz(value(self.frequency)), Hertz(self.clock as f64 / cycles as f64));
            notes.push(format!("{asked} is not exact: a period of {cycles} cycles is {has}"));
        }
        if u128::from(high) * self.duty.den != u128::from(period) * self.duty.num {
            let (asked, has) = (100.0 * value(self.duty), 100.0 * high as f64 / period as f64);
            notes.push(format!("{} % is not exact: {high} of {period} steps are {} %", short(asked), short(has)));
        }
        if step > 1 && !notes.is_empty() {
            notes.push(format!("a step is {step} cycles: the timer counts to 16 bits only, or the pilot is slow"));
        }
        notes
    }

    fn list(&self) -> String {
        let &Self { clock, pin, timer, channel, cycles, .. } = self;
        let Steps { step, period, high } = self.steps;
        let (hz, n) = (Hertz(clock as f64), channel + 1);
        let mut list = String::new();
        let mut line = |call: String, comment: String| {
            // A string takes what is written to it.
            let _ = writeln!(list, "{call:<39} # {comment}");
        };
        let frequency = Hertz(clock as f64 / self.steps.cycles() as f64);
        let (pins, width) = (pin + 1, if timer == 2 { 32 } else { 16 });
        let (len, index) = (pins * 16, pin * 16 + 1);
        let signal = signal(timer, channel);
        // 3.3 volts; 8 interrupt lines; the timer behind bit 0 of enable word 3, on bus 1 and line 0.
        let (hz_bits, vcc_bits) = ((clock as f64).to_bits(), 3.3f64.to_bits());
        line(format!("setup {hz_bits:#x} {vcc_bits:#x} {pins} 8 1 {timer} {width} 4 1 3 0 0 {len} {index} {signal}"), format!("{hz}, 3.3 V, TIM{timer}; pin {pin} can have channel {n}"));
        line("enable 3 1".into(), "the timer's clock is on".into());
        line(format!("pin {pin} 2 0 0 0 0 1 0 4"), format!("pin {pin} takes its function 1, the channel"));
        let mut write = |offset: u32, value: u64, comment: String| line(format!("write 0 {offset:#04x} 4 {value:#x} 0 4"), comment);
        if step > 1 {
            write(PSC, step - 1, format!("PSC: a step is {step} cycles"));
        }
        write(ARR, period - 1, format!("ARR: a period is {period} steps"));
        // Two channels a register; mode 6 in the bits 4 to 6 of each half.
        write(CCMR1 + 4 * (channel / 2), 0x60 << (8 * (channel % 2)), format!("CCMR{}: channel {n} in PWM mode 1", channel / 2 + 1));
        write(CCR1 + 4 * channel, high, format!("CCR{n}: high for {high} of the steps"));
        write(CCER, 1 << (4 * channel), format!("CCER: channel {n} is on"));
        if step > 1 {
            write(EGR, 1, "EGR: the prescaler acts from here on".into());
        }
        write(CR1, 1, format!("CR1: the pilot starts, {frequency}, {} % high", short(100.0 * high as f64 / period as f64)));
        for (cycle, book) in self.deliveries() {
            let _ = writeln!(list, "deliver 0 {cycle} {book}");
        }
        let _ = writeln!(list, "level {pin}");
        format!("# A pilot of {frequency} on pin {pin} for {cycles} cycles, written by `pilot new`.\n{list}")
    }

    /// Cycles and books of the deliveries: a whole number of periods each, as many as make few lines, and places for their entries.
    fn deliveries(&self) -> impl Iterator<Item = (u64, u64)> + '_ {
        let periods = self.cycles.div_ceil(self.steps.cycles());
        let each = periods.div_ceil(DELIVERIES).clamp(1, PERIODS);
        let stride = each * self.steps.cycles();
        // Two entries a period, one before the first, and four places that must be left.
        (1..=periods.div_ceil(each)).map(move |i| (i.saturating_mul(stride).min(self.cycles), 2 * each + 8))
    }
}

fn value(r: Ratio) -> f64 {
    r.num as f64 / r.den as f64
}

impl Steps {
    /// The nearest period; of several the nearest duty; of several the shortest step.
    fn nearest(clock: u64, frequency: Ratio, duty: Ratio, width: u32) -> Result<Self, &'static str> {
        // A period lasts num / den cycles.
        let (num, den) = (u128::from(clock) * frequency.den, frequency.num);
        if num < 2 * den {
            return Err("above half the clock");
        }
        // So that a compare above the reload, which is always high, fits too.
        let most = (1u128 << width) - 1;
        let first = num.div_ceil(den * most).max(1);
        if first > 1 << 16 {
            return Err("too slow for this timer at this clock");
        }
        let made = |step: u128| {
            let period = round(num, den * step).clamp(2, most);
            let high = round(period * duty.num, duty.den);
            let off_period = (period * step * den).abs_diff(num);
            // The duty's error as a fraction of the period, over a common part.
            let off_duty = (high * duty.den).abs_diff(period * duty.num) as f64 / period as f64;
            (off_period, off_duty, Steps { step: step as u64, period: period as u64, high: high as u64 })
        };
        let mut best = made(first);
        for step in first + 1..=1 << 16 {
            if best.0 == 0 && best.1 == 0.0 {
                break;
            }
            let next = made(step);
            if (next.0, next.1) < (best.0, best.1) {
                best = next;
            }
        }
        Ok(best.2)
    }

    /// Of a period.
    fn cycles(&self) -> u64 {
        self.step * self.period
    }
}

/// The nearest whole number to a fraction; of two the larger.
fn round(num: u128, den: u128) -> u128 {
    (2 * num + den) / (2 * den)
}

#[cfg(test)]
mod tests {
    use super::*;

    fn args(words: &str) -> Args {
        Args::parse(words.split_whitespace().map(Into::into).collect(), OPTIONS).unwrap().unwrap()
    }

    fn post(words: &str) -> Post {
        Post::of(&args(words)).unwrap()
    }

    fn steps(words: &str) -> (u64, u64, u64) {
        let s = post(words).steps;
        (s.step, s.period, s.high)
    }

    #[test]
    fn exact_where_it_can_be() {
        let p = post("--clock 16MHz --frequency 1kHz --duty 30% --pin 0");
        assert_eq!(p.steps, Steps { step: 1, period: 16_000, high: 4_800 });
        assert_eq!((p.notes(), p.cycles), (vec![], 160_000));
        // 16 bits: 170,000 steps do not fit; 3 does not divide them, 4 does.
        assert_eq!(steps("--clock 170MHz --frequency 1kHz --duty 30% --pin 0 --timer 3"), (4, 42_500, 12_750));
        // Of the steps that make the period exact, 3 and not 2 makes the duty so.
        assert_eq!(steps("--clock 78MHz --frequency 1kHz --duty 1/26000 --pin 0 --timer 3"), (3, 26_000, 1));
        assert_eq!(steps("--clock 16MHz --frequency 1kHz --duty 0% --pin 0"), (1, 16_000, 0));
        assert_eq!(steps("--clock 16MHz --frequency 1kHz --duty 100% --pin 0"), (1, 16_000, 16_000));
        assert_eq!(steps("--clock 16MHz --frequency 8MHz --duty 50% --pin 0"), (1, 2, 1));
    }

    #[test]
    fn what_is_not_exact_is_told() {
        let p = post("--clock 16MHz --frequency 3kHz --duty 30% --pin 0");
        assert_eq!(p.steps, Steps { step: 1, period: 5_333, high: 1_600 });
        assert_eq!(p.notes(), ["3 kHz is not exact: a period of 5333 cycles is 3.000187512 kHz", "30 % is not exact: 1600 of 5333 steps are 30.001875117 %"]);
        let p = post("--clock 16MHz --frequency 1kHz --duty 1/3 --pin 0");
        assert_eq!(p.notes(), ["33.333333333 % is not exact: 5333 of 16000 steps are 33.33125 %"]);
        // A prime number of cycles on a timer of 16 bits.
        let p = post("--clock 100003Hz --frequency 1Hz --duty 50% --pin 0 --timer 4");
        assert_eq!(p.notes().len(), 2);
        assert_eq!(p.steps.cycles().abs_diff(100_003), 1);
    }

    #[test]
    fn slow_pilots() {
        // The longest periods, and one step more.
        assert_eq!(steps("--clock 65536Hz --frequency 1Hz --duty 100% --pin 0 --timer 3"), (2, 32_768, 32_768));
        assert_eq!(steps("--clock 4294967295Hz --frequency 1Hz --duty 100% --pin 0"), (1, 4_294_967_295, 4_294_967_295));
        assert_eq!(steps("--clock 4294967296Hz --frequency 1Hz --duty 100% --pin 0"), (2, 2_147_483_648, 2_147_483_648));
        assert_eq!(steps("--clock 4294901760Hz --frequency 1Hz --duty 50% --pin 0 --timer 3").0, 65_536);
        let slow = Post::of(&args("--clock 4294967296Hz --frequency 1Hz --duty 50% --pin 0 --timer 3"));
        assert!(matches!(slow, Err(Fault::Usage(why)) if why == "--frequency 1 Hz: too slow for this timer at this clock"));
    }

    #[test]
    fn wrong_words() {
        let good = [("--clock", "16MHz"), ("--frequency", "1kHz"), ("--duty", "30%"), ("--pin", "0")];
        let wrong = [
            ("--clock", "0"),
            ("--clock", "0.5Hz"),
            ("--clock", "1001GHz"),
            ("--clock", "fast"),
            ("--frequency", "0"),
            ("--frequency", "9MHz"),
            ("--duty", "30"),
            ("--duty", "130%"),
            ("--pin", "128"),
            ("--timer", "1"),
            ("--timer", "5"),
            ("--channel", "0"),
            ("--channel", "5"),
            ("--cycles", "4611686018427387905"),
            ("--seconds", "1e9"),
            ("--seconds", "999999999999"),
        ];
        for (name, word) in wrong {
            let mut all: Vec<_> = good.iter().filter(|g| g.0 != name).copied().collect();
            all.push((name, word));
            let words: Vec<String> = all.iter().map(|(n, w)| format!("{n} {w}")).collect();
            assert!(matches!(Post::of(&args(&words.join(" "))), Err(Fault::Usage(_))), "{name} {word}");
        }
        for (name, _) in good {
            let words: Vec<String> = good.iter().filter(|g| g.0 != name).map(|(n, w)| format!("{n} {w}")).collect();
            assert!(matches!(Post::of(&args(&words.join(" "))), Err(Fault::Usage(why)) if why == format!("{name} is missing")));
        }
    }

    #[test]
    fn few_deliveries_with_room() {
        let p = post("--clock 16MHz --frequency 1kHz --duty 30% --pin 0 --cycles 40000");
        assert_eq!(p.deliveries().collect::<Vec<_>>(), [(16_000, 10), (32_000, 10), (40_000, 10)]);
        let p = post("--clock 16MHz --frequency 1kHz --duty 30% --pin 0 --seconds 3600");
        let d: Vec<_> = p.deliveries().collect();
        assert_eq!((d.len(), d[0], d[d.len() - 1]), (360, (160_000_000, 20_008), (57_600_000_000, 20_008)));
        let p = post("--clock 16MHz --frequency 1kHz --duty 30% --pin 0 --cycles 0");
        assert_eq!(p.deliveries().count(), 0);
    }
}
