//! The command `feguavy`: checks, runs, shows and explains terms in files or given as words. `feguavy --help` says how.

mod answer;
mod input;
mod json;
mod many;
mod options;
mod trace;

use options::{Command, Options, Parsed, HELP};
use std::io::{self, ErrorKind, Write};
use std::process::ExitCode;

/// Nothing is refused.
const ACCEPTED: u8 = 0;
const REFUSED: u8 = 1;
/// Bad use, or something that cannot be read or written.
const FAILED: u8 = 2;

fn main() -> ExitCode {
    let options = match options::parse(std::env::args_os().skip(1)) {
        Ok(Parsed::Options(options)) => options,
        Ok(Parsed::Help) => return said(HELP),
        Ok(Parsed::Version) => return said(concat!("feguavy ", env!("CARGO_PKG_VERSION"), "\n")),
        Err(message) => {
            complain(&message);
            complain("`feguavy --help` says how it is used");
            return ExitCode::from(FAILED);
        }
    };
    let mut output = io::BufWriter::with_capacity(1 << 16, io::stdout());
    let mut status = ACCEPTED;
    let written = answered(&options, &mut output, &mut status).and_then(|()| output.flush());
    ended(written, status)
}

fn answered(options: &Options, output: &mut (impl Write + Send), status: &mut u8) -> io::Result<()> {
    if options.command == Command::Run && options.trace {
        trace::each(options, output, status)
    } else {
        many::each(options, output, status)
    }
}

fn said(text: &str) -> ExitCode {
    ended(io::stdout().write_all(text.as_bytes()), ACCEPTED)
}

/// A reader that has seen enough closes its end: what was answered until then decides.
fn ended(written: io::Result<()>, status: u8) -> ExitCode {
    match written {
        Err(error) if error.kind() != ErrorKind::BrokenPipe => {
            complain(&format!("standard output: {error}"));
            ExitCode::from(FAILED)
        }
        _ => ExitCode::from(status),
    }
}

/// A message; where even that cannot be written, the exit status says it.
fn complain(message: &str) {
    _ = writeln!(io::stderr(), "feguavy: {message}");
}
