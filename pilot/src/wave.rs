//! `pilot wave`: the pins' levels as a value change dump (VCD, IEEE 1364).

mod scale;

use std::cmp::Reverse;
use std::collections::BinaryHeap;
use std::ffi::OsStr;
use std::fs::File;
use std::io::{self, BufWriter, Write};

use crate::args::{self, Args, Spec};
use crate::fault::{warn, Fault};
use crate::list::Call;
use crate::watch::Watch;
use scale::{Clock, Scale, Unit};

pub const HELP: &str = "\
usage: pilot wave LIST -o FILE.vcd [--name PIN=NAME].. [--unit UNIT] [--board N]

Plays LIST (a file, or - for standard input) and writes the levels of its board's pins as a value change dump, which
GTKWave and PulseView open. The file has every pin with a level change or a name; all pins are low at cycle 0.

  -o FILE           where the wave goes; - is standard output
  --name PIN=NAME   the pin's name in the file: letters, digits, _ - and . (else pin0, pin1, ..); for as many pins as need one
  --unit UNIT       the file's unit of time: 1, 10 or 100 of s, ms, us, ns, ps, fs (as 100ns); or `cycle`, one unit a cycle
  --board N         which board, where the list has several set-ups: each begins a new one, at cycle 0

Time. A cycle lasts 1/HZ of the set-up, and from a `clock` call on 1/HCLK of it. The unit is the coarsest in which every edge and
the wave's end have a whole time, so that nothing is rounded. Where none down to 1 ps has (170 MHz) it is the coarsest that is
not longer than a cycle, 1 ns there, and each time is rounded to the nearest unit by itself, so that its cycle can still be told;
each change of the clock adds half a unit at most. Where 63 bits do not hold the wave's end the unit is coarser. The file's
comment says what a cycle is. With `--unit cycle` times are the answers' own cycles, and the 1 ns that the file has to name
means a cycle. sigrok and PulseView keep a sample for each unit: for a long wave of odd edges give them a coarser one.

Level. A pin's level at a cycle is that of its last entry at or before it, last in the order of the calls. Where an entry
bears a cycle before that of its pin's entry before it, the later call's word is drawn, and that is told on standard error
(docs/DIFFERENCES.md, \"The order of the record\"). The wave ends at the last cycle of a call that can change the board; events that
the list leaves undelivered there are told as well. The record is kept in memory, 16 bytes a level change.

Exit status: 0; 1 for a malformed list, a failed read or write, or a list without such a board; 2 for wrong usage.
";

pub const OPTIONS: &[Spec] = &[Spec::Value("-o"), Spec::Value("--name"), Spec::Value("--unit"), Spec::Value("--board")];

/// Pins of a board, at most.
const PINS: usize = 128;

pub fn wave(args: &Args) -> Result<(), Fault> {
    let file = args.path("-o")?.ok_or_else(|| Fault::usage("-o FILE is missing"))?;
    let names = names(&args.texts("--name")?)?;
    let unit = args.text("--unit")?.map(|u| Unit::parse(u).ok_or_else(|| Fault::usage(format!("--unit {u}: not a unit of time")))).transpose()?;
    let mut watch = Watch::open(args)?;
    let record = Record::of(&mut watch)?;
    if let Some(pin) = (record.pins..PINS).find(|&p| names[p].is_some()) {
        return Err(Fault::failed(format!("--name {pin}=..: the board's last pin is {}", record.pins - 1)));
    }
    let scale = Scale::of(&record.clocks, record.edges(), record.end, unit).map_err(Fault::failed)?;
    write_to(file, |out| record.write(out, &names, &scale))?;
    for (pin, line) in &record.astray {
        warn(format_args!("line {line}: an entry of pin {pin} lies before one of an earlier call: the wave has the later call's"));
    }
    for open in watch.undelivered().iter().filter(|o| o.from <= record.end) {
        warn(format_args!("timer {} has events due from cycle {} on that the list does not deliver: the wave lacks them", open.timer, open.from));
    }
    Ok(())
}

fn write_to(file: &OsStr, write: impl FnOnce(&mut dyn Write) -> io::Result<()>) -> Result<(), Fault> {
    if file == "-" {
        let mut out = BufWriter::new(io::stdout().lock());
        return write(&mut out).and_then(|()| out.flush()).map_err(Fault::unwritten);
    }
    let made = File::create(file).and_then(|f| {
        let mut out = BufWriter::new(f);
        write(&mut out)?;
        out.flush()
    });
    made.map_err(|e| Fault::unwritten_to(file.to_string_lossy(), e))
}

/// The pins' names, `PIN=NAME` each.
fn names(given: &[&str]) -> Result<Vec<Option<String>>, Fault> {
    let mut names = vec![None; PINS];
    for &word in given {
        let wrong = |reason: &str| Fault::usage(format!("--name {word}: {reason}"));
        let (pin, name) = word.split_once('=').ok_or_else(|| wrong("not PIN=NAME"))?;
        let pin: usize = args::number("--name", pin)?;
        let letter = |b: u8| b.is_ascii_alphanumeric() || b"_-.".contains(&b);
        if name.is_empty() || !name.bytes().all(letter) {
            return Err(wrong("a name is letters, digits, _ - and ."));
        }
        // A pin without a name is called pin0, pin1, ..
        let taken = |p: usize| names[p].as_deref() == Some(name) || (names[p].is_none() && p != pin && name == plain(p));
        if (0..PINS).any(taken) {
            return Err(wrong("another pin has that name"));
        }
        let place = names.get_mut(pin).ok_or_else(|| wrong("no board has such a pin"))?;
        if place.replace(name.to_string()).is_some() {
            return Err(wrong("the pin has a name"));
        }
    }
    Ok(names)
}

fn plain(pin: usize) -> String {
    format!("pin{pin}")
}

/// A board's record.
struct Record {
    pins: usize,
    /// The clock from each cycle on.
    clocks: Vec<Clock>,
    /// Level changes of each pin, by cycle; `None` for a pin that never had an entry.
    levels: Vec<Option<Vec<(u64, u8)>>>,
    /// The last cycle of a call that can change the board, or of an entry.
    end: u64,
    /// Pins with entries out of order, each with the line of the first.
    astray: Vec<(usize, u64)>,
}

impl Record {
    fn of(watch: &mut Watch) -> Result<Self, Fault> {
        let mut record = Self { pins: 0, clocks: Vec::new(), levels: vec![None; PINS], end: 0, astray: Vec::new() };
        while let Some(call) = watch.next()? {
            match call {
                Call::SetUp(ref s) => {
                    record.pins = s.pins as usize;
                    record.clocks.push(Clock { from: 0, hz: s.hz });
                }
                Call::Clock { hclk, cycle, .. } => record.clocks.push(Clock { from: cycle, hz: hclk }),
                _ => {}
            }
            record.end = record.end.max(changed_at(&call).unwrap_or(0));
            let line = watch.line();
            for (pin, level, cycle) in watch.answer().entries() {
                record.add(pin.into(), level, cycle, line);
            }
        }
        Ok(record)
    }

    /// A pin's level at a cycle is that of its last entry at or before it: an entry hides those before it that bear later cycles.
    fn add(&mut self, pin: usize, level: u8, cycle: u64, line: u64) {
        let levels = self.levels[pin].get_or_insert_default();
        if levels.last().is_some_and(|last| last.0 > cycle) && !self.astray.iter().any(|a| a.0 == pin) {
            self.astray.push((pin, line));
        }
        while levels.last().is_some_and(|last| last.0 > cycle) {
            levels.pop();
        }
        if levels.last().map_or(0, |last| last.1) != level {
            levels.push((cycle, level));
        }
        self.end = self.end.max(cycle);
    }

    /// The cycles of all level changes.
    fn edges(&self) -> impl Iterator<Item = u64> + Clone + '_ {
        self.levels.iter().flatten().flatten().map(|level| level.0)
    }

    fn write(&self, out: &mut dyn Write, names: &[Option<String>], scale: &Scale) -> io::Result<()> {
        let shown: Vec<usize> = (0..self.pins).filter(|&p| names[p].is_some() || self.levels[p].is_some()).collect();
        writeln!(out, "$version pilot {} $end", env!("CARGO_PKG_VERSION"))?;
        writeln!(out, "$comment {scale} $end")?;
        writeln!(out, "$timescale {} $end", scale.unit())?;
        writeln!(out, "$scope module board $end")?;
        for &pin in &shown {
            writeln!(out, "$var wire 1 {} {} $end", code(pin), names[pin].clone().unwrap_or_else(|| plain(pin)))?;
        }
        writeln!(out, "$upscope $end\n$enddefinitions $end\n#0\n$dumpvars")?;
        for &pin in &shown {
            writeln!(out, "0{}", code(pin))?;
        }
        writeln!(out, "$end")?;
        let mut time = 0;
        let mut at = |out: &mut dyn Write, cycle: u64| {
            let now = scale.time(cycle);
            if now > time {
                time = now;
                writeln!(out, "#{now}")?;
            }
            io::Result::Ok(())
        };
        // The pins' next level changes, the earliest first.
        let place = |pin: usize, i: usize| self.levels[pin].as_ref()?.get(i).map(|&(cycle, level)| Reverse((cycle, pin, i, level)));
        let mut next: BinaryHeap<_> = shown.iter().filter_map(|&pin| place(pin, 0)).collect();
        while let Some(Reverse((cycle, pin, i, level))) = next.pop() {
            at(out, cycle)?;
            writeln!(out, "{level}{}", code(pin))?;
            next.extend(place(pin, i + 1));
        }
        at(out, self.end)
    }
}

/// A pin's code in the file: one or two of the 94 characters that can be seen.
fn code(pin: usize) -> String {
    let letter = |i: usize| char::from(b'!' + (i % 94) as u8);
    if pin < 94 { letter(pin).into() } else { [letter(pin / 94 - 1), letter(pin)].iter().collect() }
}

/// The cycle of a call that can change the board.
fn changed_at(call: &Call) -> Option<u64> {
    match *call {
        Call::Clock { cycle, .. }
        | Call::Pin { cycle, .. }
        | Call::Drive { cycle, .. }
        | Call::ResetPins { cycle, .. }
        | Call::Write { cycle, .. }
        | Call::Reset { cycle, .. }
        | Call::Deliver { cycle, .. } => Some(cycle),
        _ => None,
    }
}

#[cfg(test)]
mod tests {
    use super::*;

    fn record(entries: &[(usize, u8, u64)]) -> Record {
        let clocks = vec![Clock { from: 0, hz: 16e6 }];
        let mut r = Record { pins: 2, clocks, levels: vec![None; PINS], end: 0, astray: Vec::new() };
        for (line, &(pin, level, cycle)) in entries.iter().enumerate() {
            r.add(pin, level, cycle, line as u64);
        }
        r
    }

    #[test]
    fn a_later_call_hides_what_lies_behind_its_cycle() {
        let r = record(&[(0, 1, 5), (0, 0, 9), (0, 1, 12), (1, 1, 3), (0, 0, 7), (0, 1, 8)]);
        assert_eq!(r.levels[0], Some(vec![(5, 1), (7, 0), (8, 1)]));
        assert_eq!(r.levels[1], Some(vec![(3, 1)]));
        assert_eq!((r.astray, r.end), (vec![(0, 4)], 12));
        // The level that is there already is no change.
        assert_eq!(record(&[(0, 1, 5), (0, 0, 9), (0, 1, 7)]).levels[0], Some(vec![(5, 1)]));
        // Two changes at one cycle stay two.
        assert_eq!(record(&[(0, 1, 5), (0, 0, 5)]).levels[0], Some(vec![(5, 1), (5, 0)]));
    }

    #[test]
    fn pins_are_merged_by_cycle() {
        let r = record(&[(0, 1, 0), (0, 0, 16), (1, 1, 8), (1, 0, 16)]);
        let scale = Scale::of(&r.clocks, r.edges(), r.end, None).unwrap();
        let mut out = Vec::new();
        r.write(&mut out, &names(&["1=post-1"]).unwrap(), &scale).unwrap();
        let want = concat!(
            "$version pilot ",
            env!("CARGO_PKG_VERSION"),
            " $end\n$comment A cycle is 5/8 units (16000000 Hz). Every time is exact. $end\n$timescale 100 ns $end\n$scope module board $end\n\
             $var wire 1 ! pin0 $end\n$var wire 1 \" post-1 $end\n$upscope $end\n$enddefinitions $end\n\
             #0\n$dumpvars\n0!\n0\"\n$end\n1!\n#5\n1\"\n#10\n0!\n0\"\n"
        );
        assert_eq!(String::from_utf8(out).unwrap(), want);
    }

    #[test]
    fn every_pin_has_a_code_of_its_own() {
        let codes: std::collections::HashSet<String> = (0..PINS).map(code).collect();
        assert_eq!(codes.len(), PINS);
        assert_eq!((code(0), code(93), code(94), code(127)), ("!".into(), "~".into(), "!!".into(), "!B".into()));
    }

    #[test]
    fn names_that_are_none() {
        for word in ["0", "=a", "0=", "x=a", "128=a", "0=a b", "0=$end", "0=a[1]", "0=pin1", "-1=a"] {
            assert!(matches!(names(&[word]), Err(Fault::Usage(_))), "{word}");
        }
        assert!(matches!(names(&["0=a", "1=a"]), Err(Fault::Usage(_))));
        assert!(matches!(names(&["0=a", "0=b"]), Err(Fault::Usage(_))));
        let names = names(&["0=pin0", "127=post-1.cp_A"]).unwrap();
        assert_eq!((names[0].as_deref(), names[127].as_deref()), (Some("pin0"), Some("post-1.cp_A")));
    }
}
