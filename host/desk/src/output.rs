//! Where an answer goes: standard output in words or as JSON; a refusal in words to standard error.

use crate::arguments::{Arguments, When};
use crate::in_words;
use crate::input::Text;
use crate::refusal;
use crate::report::Report;
use crate::stop::{self, Refused, Stop};
use codespan_reporting::files;
use codespan_reporting::term::termcolor::Buffer;
use std::env;
use std::io::{self, IsTerminal, Write};

pub struct Output {
    json: bool,
    color: When,
}

impl Output {
    pub fn new(arguments: &Arguments) -> Output {
        Output { json: arguments.json, color: arguments.color }
    }

    /// Writes an answer.
    pub fn answer(&self, report: &Report) -> Result<(), Stop> {
        if self.json {
            return self.json(report);
        }
        let mut buffer = self.buffer(io::stdout().is_terminal());
        in_words::write(report, &mut buffer).and_then(|()| print(buffer.as_slice())).map_err(unwritten)
    }

    /// Writes a refusal.
    pub fn refuse(&self, report: &Report, text: &Text, refused: &Refused) -> Result<(), Stop> {
        if self.json {
            return self.json(report);
        }
        let mut buffer = self.buffer(io::stderr().is_terminal());
        let shown = refusal::show(refused, text, &mut buffer);
        let written = shown.map_err(|error| match error {
            files::Error::Io(error) => error,
            other => io::Error::other(other.to_string()),
        });
        written.and_then(|()| quietly(io::stderr().write_all(buffer.as_slice()))).map_err(unwritten)
    }

    /// Says what cannot be used, and gives the exit status.
    pub fn fail(&self, stop: &Stop) -> u8 {
        let Stop::Failed(reason) = stop else { return stop::REFUSED };
        // Where standard error is closed too, there is nobody left to tell.
        let _ = writeln!(io::stderr(), "hannuvel: {reason}");
        stop::UNUSABLE
    }

    fn json(&self, report: &Report) -> Result<(), Stop> {
        let text = serde_json::to_string_pretty(report).map_err(|error| Stop::Failed(error.to_string()))?;
        print(format!("{text}\n").as_bytes()).map_err(unwritten)
    }

    fn buffer(&self, terminal: bool) -> Buffer {
        let barred = env::var_os("NO_COLOR").is_some_and(|value| !value.is_empty());
        match coloured(self.color, terminal, barred) {
            true => Buffer::ansi(),
            false => Buffer::no_color(),
        }
    }
}

fn coloured(when: When, terminal: bool, barred: bool) -> bool {
    match when {
        When::Always => true,
        When::Never => false,
        When::Auto => terminal && !barred,
    }
}

fn print(bytes: &[u8]) -> io::Result<()> {
    let mut out = io::stdout().lock();
    quietly(out.write_all(bytes).and_then(|()| out.flush()))
}

/// A pipe that its reader has closed is no fault: what was read of it was enough.
fn quietly(written: io::Result<()>) -> io::Result<()> {
    match written {
        Err(error) if error.kind() == io::ErrorKind::BrokenPipe => Ok(()),
        other => other,
    }
}

fn unwritten(error: io::Error) -> Stop {
    Stop::Failed(format!("the answer cannot be written: {error}"))
}

#[cfg(test)]
mod tests {
    use super::*;

    #[test]
    fn colour_is_for_terminals() {
        assert!(coloured(When::Auto, true, false));
        assert!(!coloured(When::Auto, true, true));
        assert!(!coloured(When::Auto, false, false));
        assert!(coloured(When::Always, false, true));
        assert!(!coloured(When::Never, true, false));
    }

    #[test]
    fn a_closed_pipe_is_no_fault() {
        assert!(quietly(Err(io::ErrorKind::BrokenPipe.into())).is_ok());
        assert!(quietly(Err(io::ErrorKind::StorageFull.into())).is_err());
    }
}
