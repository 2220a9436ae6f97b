//! Reads the override tags of Sub Station Alpha subtitles and works out what a line looks like at any millisecond.
//!
//! Every answer comes from the proved library behind `include/hannuvel.h`; this crate lends it memory, works out
//! nothing a second time, and shows the words that it wrote as types named after the Rust of oxideav-ass.
//! It allocates nothing: a table stands where the caller puts it, on the stack as a [`Table`] or anywhere as words.
//!
//! ```
//! use hannuvel::{AnimatedTag, Table, parse_overrides};
//!
//! let mut table = Table::<64>::new();
//! let tags = parse_overrides(r"\fs20\t(0,1000,\fs40)", &mut table)?;
//! assert_eq!(tags.iter().next().map(|tag| tag.value()), Some(AnimatedTag::Fs(20.0)));
//! assert_eq!(tags.evaluate_at(500, 2000)?.font_size, Some(30.0));
//! assert_eq!(tags.next_mark(500, 2000)?, Some(501));
//! assert_eq!(tags.next_mark(1000, 2000)?, None);
//! # Ok::<(), hannuvel::Refusal>(())
//! ```
//!
//! The next mark is the state's. It does not speak of karaoke syllables, which move the picture too: when, is said at
//! [`KaraokeKind`].
//!
//! A call that cannot be answered is refused: [`Refusal`] names one of nine grounds with its place or count. Beside a
//! refusal no lent word is touched.
//!
//! A text is given as anything that lends bytes, a table as anything that lends words: a `str` or a `[u8]`, a
//! [`Table`], a `[u32]` or a `Vec<u32>`. The calls on bare words are in [`words`].
#![deny(missing_docs, unsafe_code, unsafe_op_in_unsafe_fn)]

mod drawing;
mod ffi;
mod karaoke;
mod part;
mod refusal;
mod state;
mod style;
mod table;
mod tag;
mod tags;
pub mod words;

pub use drawing::{Commands, Path, PathCommand, Point, parse_drawing, split_clip_arg};
pub use karaoke::{KaraokeKind, KaraokeSpan, KaraokeSpans, SpanIter};
pub use part::{FontName, Part};
pub use refusal::Refusal;
pub use state::{ClipRect, RenderState};
pub use style::StyleName;
pub use table::{SpanList, Table};
pub use tag::{AnimatedTag, Tag};
pub use tags::{TagIter, Tags, parse_overrides, parse_raw_block};

/// Words to a record of a table or to a command of a path.
pub const RECORD_WORDS: usize = 8;
/// Words to a span of a list.
pub const SPAN_WORDS: usize = 3;
/// Words of a state.
pub const STATE_WORDS: usize = 92;
/// Records, spans or commands that count: a longer table, list or path table has no more room than this.
pub const MOST_PLACES: usize = 1024;
/// Bytes that a text may have.
pub const MOST_BYTES: usize = 12_288;
/// How far an instant, a duration or a time of a tag may lie from 0, in milliseconds.
pub const MOST_MS: i32 = 1_000_000_000;
/// The largest scale exponent of a drawing.
pub const MOST_EXPONENT: u32 = 32;
/// How deep one \t may stand inside another.
pub const MOST_DEPTH: usize = 16;

#[cfg(doctest)]
#[doc = include_str!("../../README.md")]
struct Readme;
