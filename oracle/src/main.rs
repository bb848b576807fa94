//! `oracle run`: a call list on standard input, its answers on standard output.
//! `oracle gen SEED N`: N random calls.
//! `oracle samples DIR`: the fixed sample of lists with their answers.

use std::io::{self, BufWriter, Write};
use std::process::ExitCode;

use oracle::gen::Gen;
use oracle::{run, samples};

fn main() -> ExitCode {
    let args: Vec<String> = std::env::args().skip(1).collect();
    let args: Vec<&str> = args.iter().map(String::as_str).collect();
    let done = match args[..] {
        ["run"] => run(io::stdin().lock(), BufWriter::new(io::stdout().lock())),
        ["gen", seed, n] => match (seed.parse(), n.parse()) {
            (Ok(seed), Ok(n)) => gen(seed, n, BufWriter::new(io::stdout().lock())),
            _ => return usage(),
        },
        ["samples", dir] => samples::write(dir.as_ref()),
        _ => return usage(),
    };
    match done {
        // A reader that has seen enough (`| head`) is no fault.
        Err(e) if e.kind() != io::ErrorKind::BrokenPipe => {
            eprintln!("oracle: {e}");
            ExitCode::FAILURE
        }
        _ => ExitCode::SUCCESS,
    }
}

fn usage() -> ExitCode {
    eprintln!("usage: oracle run < calls > answers\n       oracle gen SEED N > calls\n       oracle samples DIR");
    ExitCode::FAILURE
}

fn gen(seed: u64, n: u64, mut out: impl Write) -> io::Result<()> {
    let mut gen = Gen::new(seed);
    for _ in 0..n {
        writeln!(out, "{}", gen.step().0)?;
    }
    out.flush()
}
