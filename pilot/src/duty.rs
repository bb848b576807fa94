//! `pilot duty`: the duty report of a shift (document 02, F-1).

use std::io::{self, Write};

use board::{Error, PinReport, Report, Shift};

use crate::args::{self, Args, Spec};
use crate::fault::{warn, Fault};
use crate::list::Call;
use crate::watch::Watch;

pub const HELP: &str = "\
usage: pilot duty LIST --from CYCLE --to CYCLE [--pin PIN].. [--csv] [--board N]

Plays LIST (a file, or - for standard input) and reports, for each pin that has level changes, how long it was high from
one cycle to the other: high cycles, low cycles, level changes (edges), and the duty, high / (high + low), as a fraction in lowest
terms and in percent to four digits. The figures are those of the proved report (docs/CALLS.md, \"The duty report\").

  --from CYCLE   the shift's first cycle
  --to CYCLE     its end, which is not in the shift any more
  --pin PIN      this pin, whether it has level changes or not; for as many pins as are wanted. Their entries alone are looked at
  --csv          pin,high,low,cycles,edges,percent with a line for each pin. The duty as a fraction is high / cycles
  --board N      which board, where the list has several set-ups: each begins a new one, at cycle 0

Every pin is low before its first entry. Events that the list leaves undelivered before --to are told on standard error.

Exit status: 0; 1 where there is no report (the shift is reversed, the book out of order, the list malformed or without such a board)
and for a failed read or write; 2 for wrong usage.
";

pub const OPTIONS: &[Spec] = &[Spec::Value("--from"), Spec::Value("--to"), Spec::Value("--pin"), Spec::Flag("--csv"), Spec::Value("--board")];

const PINS: usize = board::PINS;

pub fn duty(args: &Args) -> Result<(), Fault> {
    let (from, to) = (args.needed_number("--from")?, args.needed_number("--to")?);
    let asked = pins(args)?;
    let mut watch = Watch::open(args)?;
    let fed = Fed::all(&mut watch, Shift::new([0; 4], from, to), &asked)?;
    if let Some(pin) = asked.iter().find(|&&p| u32::from(p) >= fed.pins) {
        return Err(Fault::failed(format!("--pin {pin}: the board's last pin is {}", fed.pins - 1)));
    }
    let report = fed.shift.report().map_err(|e| fed.refusal(e, from, to))?;
    let shown = |p: &PinReport| if asked.is_empty() { fed.last[usize::from(p.pin)].is_some() } else { asked.contains(&p.pin) };
    let rows: Vec<PinReport> = report.pins().filter(shown).collect();
    let text = if args.flag("--csv") { csv(&rows) } else { table(&report, &rows, from, to) };
    io::stdout().lock().write_all(text.as_bytes()).map_err(Fault::unwritten)?;
    for open in watch.undelivered().iter().filter(|o| o.from < to) {
        warn(format_args!("timer {} has events due from cycle {} on that the list does not deliver: the figures lack them", open.timer, open.from));
    }
    Ok(())
}

/// The pins asked for.
fn pins(args: &Args) -> Result<Vec<u8>, Fault> {
    let mut pins = Vec::new();
    for word in args.texts("--pin")? {
        let pin: u8 = args::number("--pin", word)?;
        if usize::from(pin) >= PINS {
            return Err(Fault::usage(format!("--pin {pin}: no board has such a pin")));
        }
        if !pins.contains(&pin) {
            pins.push(pin);
        }
    }
    Ok(pins)
}

/// A shift that got a board's entries.
struct Fed {
    shift: Shift,
    /// Pins of the board.
    pins: u32,
    /// The cycle of each pin's last entry.
    last: [Option<u64>; PINS],
    /// The first entry out of order: line, pin, its cycle and that of the pin's entry before it.
    astray: Option<(u64, u8, u64, u64)>,
}

impl Fed {
    /// `asked`: the pins whose entries are looked at; none for all.
    fn all(watch: &mut Watch, shift: Shift, asked: &[u8]) -> Result<Self, Fault> {
        let mut fed = Self { shift, pins: 0, last: [None; PINS], astray: None };
        while let Some(call) = watch.next()? {
            if let Call::SetUp(s) = call {
                fed.pins = s.pins;
            }
            let (answer, line) = (watch.answer(), watch.line());
            if asked.is_empty() {
                fed.shift.feed_book(answer.pins, answer.levels, answer.cycles);
            }
            for (pin, level, cycle) in answer.entries() {
                if !asked.is_empty() && !asked.contains(&pin) {
                    continue;
                }
                if !asked.is_empty() {
                    fed.shift.feed_book(&[pin], &[level], &[cycle]);
                }
                if let Some(before) = fed.last[usize::from(pin)].replace(cycle).filter(|&before| cycle < before) {
                    fed.astray.get_or_insert((line, pin, cycle, before));
                }
            }
        }
        Ok(fed)
    }

    /// The report's refusal in words.
    fn refusal(&self, e: Error, from: u64, to: u64) -> Fault {
        let word = e.word();
        match (e, self.astray) {
            (Error::ShiftReversed { .. }, _) => Fault::failed(format!("{word}: --to {to} is below --from {from}")),
            (Error::BookOutOfOrder(_), Some((line, pin, cycle, before))) => Fault::failed(format!(
                "{word}: line {line} has an entry of pin {pin} at cycle {cycle}, behind one at cycle {before}, so what the pin was between \
                 them is told twice. Other pins can be asked for by --pin; docs/DECISIONS.md, \"The duty report\", says what to do with this one"
            )),
            _ => Fault::failed(e.to_string()),
        }
    }
}

/// Cycles of a pin's shift.
fn cycles(r: &PinReport) -> u128 {
    u128::from(r.high) + u128::from(r.low)
}

/// To four digits, the nearest; nothing in an empty shift.
fn percent(r: &PinReport) -> Option<String> {
    let cycles = cycles(r);
    if cycles == 0 {
        return None;
    }
    let parts = (u128::from(r.high) * 2_000_000 + cycles) / (2 * cycles);
    Some(format!("{}.{:04}", parts / 10_000, parts % 10_000))
}

/// In lowest terms.
fn fraction(r: &PinReport) -> Option<String> {
    let (high, cycles) = (u128::from(r.high), cycles(r));
    let common = gcd(cycles, high);
    (cycles != 0).then(|| format!("{}/{}", high / common, cycles / common))
}

fn gcd(a: u128, b: u128) -> u128 {
    if b == 0 { a } else { gcd(b, a % b) }
}

fn csv(rows: &[PinReport]) -> String {
    let mut text = String::from("pin,high,low,cycles,edges,percent\n");
    for r in rows {
        text += &format!("{},{},{},{},{},{}\n", r.pin, r.high, r.low, cycles(r), r.edges, percent(r).unwrap_or_default());
    }
    text
}

fn table(report: &Report, rows: &[PinReport], from: u64, to: u64) -> String {
    let mut text = format!("cycles {from} to {to}: {} cycles, {} high at the end\n", to - from, plural(report.high_pins(), "pin"));
    let head = ["pin", "high", "low", "edges", "duty", "percent"].map(String::from);
    let none = || String::from("-");
    let lines: Vec<[String; 6]> = std::iter::once(head)
        .chain(rows.iter().map(|r| {
            let duty = [fraction(r), percent(r)].map(|d| d.unwrap_or_else(none));
            let [fraction, percent] = duty;
            [r.pin.to_string(), r.high.to_string(), r.low.to_string(), r.edges.to_string(), fraction, percent]
        }))
        .collect();
    for line in &lines {
        for (i, word) in line.iter().enumerate() {
            let width = lines.iter().map(|l| l[i].len()).max().unwrap_or(0);
            text += &format!("{}{word:>width$}", if i == 0 { "" } else { "  " });
        }
        text.push('\n');
    }
    text
}

fn plural(n: u32, word: &str) -> String {
    format!("{n} {word}{}", if n == 1 { "" } else { "s" })
}

#[cfg(test)]
mod tests {
    use super::*;

    fn row(high: u64, low: u64) -> PinReport {
        PinReport { pin: 7, high, low, edges: 1 }
    }

    #[test]
    fn duties_are_exact_or_the_nearest() {
        let cases = [
            ((288_000, 672_000), "3/10", "30.0000"),
            ((1, 2), "1/3", "33.3333"),
            ((2, 1), "2/3", "66.6667"),
            ((0, 5), "0/1", "0.0000"),
            ((5, 0), "1/1", "100.0000"),
            ((1, 1_999_999), "1/2000000", "0.0001"),
            ((1, 2_000_000), "1/2000001", "0.0000"),
            ((1 << 62, 1 << 62), "1/2", "50.0000"),
            ((u64::MAX, u64::MAX), "1/2", "50.0000"),
        ];
        for ((high, low), duty, per) in cases {
            let r = row(high, low);
            assert_eq!((fraction(&r).unwrap(), percent(&r).unwrap()), (duty.into(), per.into()));
        }
        assert_eq!((fraction(&row(0, 0)), percent(&row(0, 0))), (None, None));
    }

    #[test]
    fn csv_has_a_line_for_each_pin() {
        assert_eq!(csv(&[row(3, 7), row(0, 0)]), "pin,high,low,cycles,edges,percent\n7,3,7,10,1,30.0000\n7,0,0,0,1,\n");
    }
}
