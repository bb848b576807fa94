//! `pilot`: call lists (docs/CALLS.md) run, drawn as a wave, reported by duty, and written from plain words.

mod args;
mod duty;
mod fault;
mod list;
mod new;
mod play;
mod progress;
mod ratio;
mod run;
mod source;
mod watch;
mod wave;

use std::ffi::OsString;
use std::io::{self, Write};
use std::process::ExitCode;

use args::Args;
use fault::Fault;

/// A command: its word, its help, its options, and what it does.
struct Command {
    word: &'static str,
    help: &'static str,
    options: &'static [args::Spec],
    act: fn(&Args) -> Result<(), Fault>,
}

const COMMANDS: [Command; 4] = [
    Command { word: "run", help: run::HELP, options: run::OPTIONS, act: run::run },
    Command { word: "wave", help: wave::HELP, options: wave::OPTIONS, act: wave::wave },
    Command { word: "duty", help: duty::HELP, options: duty::OPTIONS, act: duty::duty },
    Command { word: "new", help: new::HELP, options: new::OPTIONS, act: new::new },
];

const HELP: &str = "\
Call lists of the pilot timer (docs/CALLS.md).

  pilot run LIST                            answers each call, as `replay` does
  pilot wave LIST -o FILE.vcd               the pins' levels as a wave for GTKWave or PulseView
  pilot duty LIST --from CYCLE --to CYCLE   how long each pin was high
  pilot new --clock HZ --frequency HZ --duty PERCENT --pin PIN
                                            writes a list for a pilot

LIST is a file, or - for standard input. `pilot COMMAND --help` says more of each.

Exit status: 0; 1 for a malformed list, a failed read or write, or a refused report, with the reason on standard error;
2 for wrong usage. A reader of the output that goes away (`| head`) has seen enough: the run ends there, with 0.
";

fn main() -> ExitCode {
    let mut words: Vec<OsString> = std::env::args_os().skip(1).collect();
    let first = if words.is_empty() { None } else { Some(words.remove(0)) };
    let done = match first.as_ref().map(|w| w.to_string_lossy()).as_deref() {
        None => Err(Fault::usage("a command is missing")),
        Some("--help" | "-h" | "help") => print(HELP),
        Some("--version" | "-V") => print(concat!("pilot ", env!("CARGO_PKG_VERSION"), "\n")),
        Some(word) => match COMMANDS.iter().find(|c| c.word == word) {
            Some(command) => command.run(words),
            None => Err(Fault::usage(format!("no command `{word}`"))),
        },
    };
    match done {
        Ok(()) => ExitCode::SUCCESS,
        Err(fault) => fault.tell(),
    }
}

impl Command {
    fn run(&self, words: Vec<OsString>) -> Result<(), Fault> {
        match Args::parse(words, self.options)? {
            Some(args) => (self.act)(&args),
            None => print(self.help),
        }
    }
}

fn print(text: &str) -> Result<(), Fault> {
    io::stdout().write_all(text.as_bytes()).map_err(Fault::unwritten)
}

#[cfg(test)]
mod tests {
    use super::*;

    #[test]
    fn every_option_is_in_its_commands_help() {
        for c in &COMMANDS {
            assert!(HELP.contains(&format!("pilot {}", c.word)));
            assert!(c.help.starts_with(&format!("usage: pilot {}", c.word)), "{}", c.word);
            for option in c.options {
                assert!(c.help.contains(option.name()), "{}", option.name());
            }
        }
    }
}
