//! What a command answers: one shape for all of them, written in words or as JSON.

use crate::arguments::Command;
use crate::input::Text;
use crate::karaoke::{Sung, Syllable};
use crate::marks::Marks;
use crate::moves::Moves;
use crate::ranges::Range;
use crate::refusal;
use crate::state_words::Field;
use crate::stop::Refused;
use hannuvel::{MOST_BYTES, MOST_PLACES, PathCommand, Point, RECORD_WORDS};
use serde::ser::SerializeMap;
use serde::{Serialize, Serializer};

/// The answer to a command. A part that the command does not answer is `null` in JSON.
#[derive(Debug, Default, Serialize)]
pub struct Report {
    pub command: &'static str,
    pub text: String,
    pub duration_ms: Option<i32>,
    pub refusal: Option<refusal::Told>,
    pub fits: Option<Fits>,
    pub moves: Option<Moves>,
    pub marks: Option<Marks>,
    pub tags: Option<Vec<TagTold>>,
    pub syllables: Option<Vec<Syllable>>,
    pub states: Option<Vec<StateTold>>,
    pub path: Option<Vec<CommandTold>>,
    pub frames: Option<Frames>,
    pub picture: Option<String>,
}

impl Report {
    /// An answer with nothing in it yet.
    pub fn new(command: &'static str, text: &Text, duration_ms: Option<i32>) -> Report {
        Report { command, text: text.text.clone(), duration_ms, ..Report::default() }
    }

    /// A refusal; of a lack of room it also says what is needed.
    pub fn refused(command: &Command, text: &Text, refused: &Refused) -> Report {
        let fits = refused.refusal.count().map(|needed| Fits::new(needed, refused.places, text));
        let told = refusal::Told::new(refused, text);
        Report { refusal: Some(told), fits, ..Report::new(command.name(), text, command.duration()) }
    }
}

/// Whether a text fits: places of the table and bytes.
#[derive(Debug, Serialize)]
pub struct Fits {
    pub places_needed: usize,
    pub places: usize,
    pub bytes: usize,
    pub most_bytes: usize,
}

impl Fits {
    pub fn new(places_needed: usize, lent: usize, text: &Text) -> Fits {
        Fits { places_needed, places: lent.min(MOST_PLACES), bytes: text.text.len(), most_bytes: MOST_BYTES }
    }
}

/// A tag with those inside it.
#[derive(Debug, Serialize)]
pub struct TagTold {
    pub record: usize,
    pub kind: u32,
    pub name: &'static str,
    pub bytes: Option<Range>,
    pub source: Option<String>,
    pub says: String,
    pub words: [u32; RECORD_WORDS],
    pub inside: Vec<TagTold>,
}

/// The state at an instant.
#[derive(Debug, Serialize)]
pub struct StateTold {
    pub at_ms: i32,
    #[serde(serialize_with = "by_name")]
    pub fields: Vec<Field>,
    pub next_mark_ms: Option<i32>,
    pub next_move_ms: Option<i64>,
    pub sung: Option<Sung>,
    pub style: Option<String>,
}

fn by_name<S: Serializer>(fields: &[Field], serializer: S) -> Result<S::Ok, S::Error> {
    let mut map = serializer.serialize_map(Some(fields.len()))?;
    for field in fields {
        map.serialize_entry(field.name, &field.value)?;
    }
    map.end()
}

/// A command of a path: its name, and its points as x and y in turn.
#[derive(Debug, Serialize)]
pub struct CommandTold {
    pub command: &'static str,
    pub points: Vec<[f32; 2]>,
}

impl From<PathCommand> for CommandTold {
    fn from(command: PathCommand) -> Self {
        let told = |command, points: &[Point]| CommandTold {
            command,
            points: points.iter().map(|point| [point.x, point.y]).collect(),
        };
        match command {
            PathCommand::MoveTo(point) => told("move", &[point]),
            PathCommand::LineTo(point) => told("line", &[point]),
            PathCommand::CubicTo { c1, c2, end } => told("cubic", &[c1, c2, end]),
            PathCommand::Close => told("close", &[]),
        }
    }
}

/// Which frames must be redrawn.
#[derive(Debug, Serialize)]
pub struct Frames {
    pub rate: f64,
    pub count: u64,
    pub redrawn: u64,
    /// The share of frames that need no redrawing, 0 to 1.
    pub saved: f64,
    pub ranges: Vec<Range>,
}
