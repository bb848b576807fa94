//! Why a command ends before its end, and the exit status that says so.

use std::fmt::Display;
use std::io;
use std::process::ExitCode;

#[derive(Debug)]
pub enum Fault {
    /// The command was not called as its help says.
    Usage(String),
    /// The list, a read, a write or a report failed.
    Failed(String),
    /// The reader of the output has gone: it has seen enough.
    Enough,
}

impl Fault {
    pub fn usage(reason: impl Into<String>) -> Self {
        Fault::Usage(reason.into())
    }

    pub fn failed(reason: impl Into<String>) -> Self {
        Fault::Failed(reason.into())
    }

    /// A write to standard output failed.
    pub fn unwritten(e: io::Error) -> Self {
        Self::unwritten_to("standard output", e)
    }

    pub fn unwritten_to(name: impl Display, e: io::Error) -> Self {
        match e.kind() {
            io::ErrorKind::BrokenPipe => Fault::Enough,
            _ => Fault::Failed(format!("{name}: {e}")),
        }
    }

    /// Tells the reason on standard error.
    pub fn tell(self) -> ExitCode {
        match self {
            Fault::Usage(reason) => {
                warn(format_args!("{reason}\n(`pilot --help` shows the commands, `pilot COMMAND --help` one of them)"));
                ExitCode::from(2)
            }
            Fault::Failed(reason) => {
                warn(reason);
                ExitCode::from(1)
            }
            Fault::Enough => ExitCode::SUCCESS,
        }
    }
}

/// A line on standard error. If that cannot be written there is nobody to tell.
pub fn warn(text: impl Display) {
    use std::io::Write;
    let _ = writeln!(io::stderr(), "pilot: {text}");
}
