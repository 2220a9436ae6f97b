//! `hannuvel`, the desk tool: what a block of override tags says, when its picture moves, and why it is refused.
//!
//! Every answer comes from the crate `hannuvel`, whose calls are proved; this program asks them and writes down what
//! they say, in words, as JSON or as pictures.
#![forbid(unsafe_code)]

mod arguments;
mod block;
mod canvas;
mod columns;
mod curves;
mod drawing;
mod in_words;
mod input;
mod karaoke;
mod marks;
mod moves;
mod output;
mod places;
mod progress;
mod ranges;
mod rate;
mod redraws;
mod refusal;
mod report;
mod state_words;
mod stop;
mod tag_words;
mod timeline;

use arguments::{Arguments, Command};
use clap::Parser;
use input::Text;
use output::Output;
use report::Report;
use std::process::ExitCode;
use stop::Stop;

fn main() -> ExitCode {
    let arguments = Arguments::parse();
    let output = Output::new(&arguments);
    let said = Text::take(arguments.command.source())
        .map_err(Stop::Failed)
        .and_then(|text| answer(&arguments.command, &text, &output));
    ExitCode::from(said.unwrap_or_else(|stop| output.fail(&stop)))
}

/// Writes the answer or the refusal, and gives the exit status.
fn answer(command: &Command, text: &Text, output: &Output) -> Result<u8, Stop> {
    let answered = match command {
        Command::Block(options) => block::answer(options, text),
        Command::Timeline(options) => timeline::answer(options, text),
        Command::Drawing(options) => drawing::answer(options, text),
        Command::Redraws(options) => redraws::answer(options, text),
    };
    match answered {
        Ok(report) => output.answer(&report).map(|()| stop::ANSWERED),
        Err(Stop::Refused(refused)) => {
            let report = Report::refused(command, text, &refused);
            output.refuse(&report, text, &refused).map(|()| stop::REFUSED)
        }
        Err(failed) => Err(failed),
    }
}
