//! The arguments, by clap.

use crate::rate::Rate;
use clap::{Args, Parser, Subcommand, ValueEnum};
use hannuvel::MOST_PLACES;
use std::path::PathBuf;

const EXAMPLE: &str = r"Examples:
  hannuvel block '\fad(200,300)\fs20' --duration 1000 --at 100 850
  hannuvel timeline '\move(0,0,400,300)\kf50\kf80' --duration 2000 --svg line.svg
  hannuvel drawing 'm 0 0 l 100 0 100 100 0 100' --exponent 1 --svg square.svg
  hannuvel redraws '\fad(200,300)' --duration 5000 --rate 24

Exit status: 0 answered, 1 refused, 2 arguments or files that cannot be used.";

const BLOCK: &str = r"Example:
  hannuvel block '\fad(200,300)\t(0,1000,\fs40)' --duration 1000 --at 100 850

shows that it fits, that the picture moves at 1–1000, the tags, and the states at 100 and 850 ms.";

const TIMELINE: &str = r"Example:
  hannuvel timeline '\fad(200,300)\move(0,0,400,300)\kf50\kf80' --duration 2000 --svg line.svg";

const DRAWING: &str = r"Example:
  hannuvel drawing 'm 0 0 l 100 0 100 100 0 100' --exponent 1 --svg square.svg";

const REDRAWS: &str = r"Example:
  hannuvel redraws '\fad(200,300)' --duration 5000 --rate 24000/1001";

/// Override tags of subtitles: whether they fit, when the picture moves, what they say and why they are refused
#[derive(Debug, Parser)]
#[command(name = "hannuvel", version, after_help = EXAMPLE)]
pub struct Arguments {
    /// Answer as JSON, in the one shape that host/desk/README.md has
    #[arg(long, global = true)]
    pub json: bool,
    /// When to colour; auto does on a terminal unless NO_COLOR is set
    #[arg(long, global = true, value_enum, value_name = "WHEN", default_value = "auto")]
    pub color: When,
    #[command(subcommand)]
    pub command: Command,
}

#[derive(Clone, Copy, Debug, PartialEq, ValueEnum)]
pub enum When {
    Auto,
    Always,
    Never,
}

#[derive(Debug, Subcommand)]
pub enum Command {
    /// What a block says: does it fit, when does the picture move, its tags, syllables and states
    #[command(after_help = BLOCK)]
    Block(Block),
    /// A picture of a line over time: curves, syllables and marks
    #[command(after_help = TIMELINE)]
    Timeline(Timeline),
    /// A picture of a drawing: the filled path with its points
    #[command(after_help = DRAWING)]
    Drawing(Drawing),
    /// Which frames of a line must be redrawn, and what share is saved
    #[command(after_help = REDRAWS)]
    Redraws(Redraws),
}

impl Command {
    pub fn name(&self) -> &'static str {
        match self {
            Command::Block(_) => "block",
            Command::Timeline(_) => "timeline",
            Command::Drawing(_) => "drawing",
            Command::Redraws(_) => "redraws",
        }
    }

    pub fn source(&self) -> &Source {
        match self {
            Command::Block(options) => &options.block.source,
            Command::Timeline(options) => &options.block.source,
            Command::Drawing(options) => &options.source,
            Command::Redraws(options) => &options.block.source,
        }
    }

    /// The line's duration, where the command has one.
    pub fn duration(&self) -> Option<i32> {
        match self {
            Command::Block(options) => Some(options.duration),
            Command::Timeline(options) => Some(options.duration),
            Command::Drawing(_) => None,
            Command::Redraws(options) => Some(options.duration),
        }
    }
}

/// Where the text comes from.
#[derive(Args, Clone, Debug)]
pub struct Source {
    /// The text; - for standard input; or a file, if one of that name is there and the name has no backslash
    #[arg(value_name = "TEXT|-|FILE", required_unless_present = "file", conflicts_with = "file")]
    pub text: Option<String>,
    /// Read the text from this file, whatever its name
    #[arg(long, value_name = "FILE")]
    pub file: Option<PathBuf>,
}

/// A block and how it is read.
#[derive(Args, Clone, Debug)]
pub struct Reading {
    #[command(flatten)]
    pub source: Source,
    /// Drop blanks around the text and one { and one } first
    #[arg(long)]
    pub raw: bool,
    /// How many records the table has; of more than 1024 only 1024 count
    #[arg(long, value_name = "N", default_value_t = MOST_PLACES as u16)]
    pub places: u16,
}

#[derive(Args, Debug)]
pub struct Block {
    #[command(flatten)]
    pub block: Reading,
    /// How long the line is shown, in milliseconds
    #[arg(long, value_name = "MS", default_value_t = 5000, allow_negative_numbers = true)]
    pub duration: i32,
    /// Instants of the line, in milliseconds, at which to show the state and the next move of the picture
    #[arg(long, value_name = "MS", num_args = 1.., value_delimiter = ',', allow_negative_numbers = true)]
    pub at: Vec<i32>,
    /// The line's own style: shows the style in force at each instant
    #[arg(long, value_name = "NAME")]
    pub style: Option<String>,
}

#[derive(Args, Debug)]
pub struct Timeline {
    #[command(flatten)]
    pub block: Reading,
    /// How long the line is shown, in milliseconds
    #[arg(long, value_name = "MS", allow_negative_numbers = true)]
    pub duration: i32,
    /// Where to write the picture
    #[arg(long, value_name = "FILE")]
    pub svg: PathBuf,
}

#[derive(Args, Debug)]
pub struct Drawing {
    #[command(flatten)]
    pub source: Source,
    /// The scale exponent: coordinates are divided by 2 to the power N - 1
    #[arg(long, value_name = "N", default_value_t = 1)]
    pub exponent: u32,
    /// How many commands the path table has; of more than 1024 only 1024 count
    #[arg(long, value_name = "N", default_value_t = MOST_PLACES as u16)]
    pub places: u16,
    /// Where to write the picture
    #[arg(long, value_name = "FILE")]
    pub svg: PathBuf,
}

#[derive(Args, Debug)]
pub struct Redraws {
    #[command(flatten)]
    pub block: Reading,
    /// How long the line is shown, in milliseconds
    #[arg(long, value_name = "MS", allow_negative_numbers = true)]
    pub duration: i32,
    /// Frames a second, as 24, 23.976 or 24000/1001
    #[arg(long, value_name = "FPS")]
    pub rate: Rate,
}

#[cfg(test)]
mod tests {
    use super::*;

    #[test]
    fn the_arguments_are_sound() {
        use clap::CommandFactory;
        Arguments::command().debug_assert();
    }
}
