//! The nine calls on bare words and bytes, as C has them, safe: for hosts that keep tables as words, or lay them out
//! in memory of their own.
//!
//! A table has eight words to a record and a path eight to a command, a list of spans three to a span, a state 92. What
//! each word holds is said in `include/hannuvel.h`. A call writes only after an answer; words behind the last record,
//! span or command written keep what they held.

use crate::refusal::Answer;
use crate::{Refusal, STATE_WORDS, ffi};
use std::ops::Range;

/// Reads a block into a table and answers how many records it wrote. Braces are ordinary bytes.
///
/// ```
/// let mut table = [7; 24];
/// assert_eq!(hannuvel::words::parse_overrides(br"\p1\b0", &mut table), Ok(2));
/// assert_eq!(table[..8], [48, 1, 0, 0, 0, 0, 0, 0]);
/// assert_eq!(table[16..], [7; 8]);
/// ```
pub fn parse_overrides(text: &[u8], table: &mut [u32]) -> Result<usize, Refusal> {
    count(ffi::parse_overrides(text, table))
}

/// The same for the text without blanks around it, less one `{` and one `}`; places and offsets still count from the
/// text given.
///
/// ```
/// let mut table = [0; 8];
/// assert_eq!(hannuvel::words::parse_raw_block(br" {\rTop} ", &mut table), Ok(1));
/// assert_eq!(table, [41, 1, 4, 3, 0, 0, 0, 0]);
/// ```
pub fn parse_raw_block(text: &[u8], table: &mut [u32]) -> Result<usize, Refusal> {
    count(ffi::parse_raw_block(text, table))
}

/// Writes the state of a table's tags at the instant t of a line, both it and the duration in milliseconds.
///
/// ```
/// let mut state = [0; hannuvel::STATE_WORDS];
/// let size = [10, 20f32.to_bits(), 0, 0, 0, 0, 0, 0];
/// assert_eq!(hannuvel::words::evaluate_at(&size, 0, 1000, &mut state), Ok(()));
/// assert_eq!(state[22..24], [1, 20f32.to_bits()]);
/// ```
pub fn evaluate_at(table: &[u32], t: i32, duration: i32, state: &mut [u32; STATE_WORDS]) -> Result<(), Refusal> {
    Answer::of(ffi::evaluate_at(table, t, duration, state)).map(|_| ())
}

/// The first millisecond after t at which the state may change, if there is one. Marks do not speak of syllables: when
/// one moves the picture stands at [`KaraokeKind`](crate::KaraokeKind).
///
/// ```
/// let fad = [1, 200, 300, 0, 0, 0, 0, 0];
/// assert_eq!(hannuvel::words::next_mark(&fad, 200, 1000), Ok(Some(701)));
/// assert_eq!(hannuvel::words::next_mark(&fad, 1000, 1000), Ok(None));
/// ```
pub fn next_mark(table: &[u32], t: i32, duration: i32) -> Result<Option<i32>, Refusal> {
    let answer = Answer::of(ffi::next_mark(table, t, duration))?;
    Ok((answer.extra == 0).then_some(answer.value as i32))
}

/// Writes the karaoke spans of a table's tags, three words to a span: its kind, start and end. Answers how many.
///
/// ```
/// let mut spans = [0; 6];
/// let beat = [46, 1, 25, 0, 0, 0, 0, 0];
/// assert_eq!(hannuvel::words::karaoke_spans(&beat, &mut spans), Ok(1));
/// assert_eq!(spans, [1, 0, 250, 0, 0, 0]);
/// ```
pub fn karaoke_spans(table: &[u32], spans: &mut [u32]) -> Result<usize, Refusal> {
    count(ffi::karaoke_spans(table, spans))
}

/// How far the instant t is through a span: 0 up to its start, 1 from its end on.
///
/// ```
/// assert_eq!(hannuvel::words::progress(500, 750, 625), Ok(0.5));
/// ```
pub fn progress(start_ms: u32, end_ms: u32, t: i32) -> Result<f32, Refusal> {
    let answer = Answer::of(ffi::progress(start_ms, end_ms, t))?;
    Ok(f32::from_bits(answer.value))
}

/// Splits the argument of a \clip into its scale, at least 1, and the offset at which the rest of the text begins.
///
/// ```
/// assert_eq!(hannuvel::words::split_clip_arg(b"2,m 0 0"), Ok((2, 2)));
/// ```
pub fn split_clip_arg(text: &[u8]) -> Result<(u32, usize), Refusal> {
    let answer = Answer::of(ffi::split_clip_arg(text))?;
    Ok((answer.value, answer.extra.into()))
}

/// Reads a drawing into a path table and answers how many commands it wrote. Coordinates are divided by 2 to the power
/// exponent - 1, not at all at exponent 0.
///
/// ```
/// let mut path = [0; 16];
/// assert_eq!(hannuvel::words::parse_drawing(b"m 4 6 c", 2, &mut path), Ok(2));
/// assert_eq!(path[..3], [1, 2f32.to_bits(), 3f32.to_bits()]);
/// assert_eq!(path[8..], [4, 0, 0, 0, 0, 0, 0, 0]);
/// ```
pub fn parse_drawing(text: &[u8], exponent: u32, path: &mut [u32]) -> Result<usize, Refusal> {
    count(ffi::parse_drawing(text, exponent, path))
}

/// Where the name of the style in force stands: what [`style_in_force`] answers.
#[derive(Clone, Debug, PartialEq, Eq)]
pub enum Style {
    /// A \r named it: these bytes of the block.
    Block(Range<usize>),
    /// The line's own: these bytes of its name.
    Own(Range<usize>),
}

/// Which style is in force at the instant t: the one that the last \r named, a part of the block, or else the line's
/// own name.
///
/// ```
/// use hannuvel::words::{Style, style_in_force};
///
/// let reset = [41, 1, 2, 3, 0, 0, 0, 0];
/// assert_eq!(style_in_force(&reset, 0, 1000, br"\rTop", b"Default"), Ok(Style::Block(2..5)));
/// assert_eq!(style_in_force(&[], 0, 1000, b"", b"Default"), Ok(Style::Own(0..7)));
/// ```
pub fn style_in_force(table: &[u32], t: i32, duration: i32, block: &[u8], own: &[u8]) -> Result<Style, Refusal> {
    let answer = Answer::of(ffi::style_in_force(table, t, duration, block, own))?;
    let (offset, length) = ((answer.value >> 16) as usize, (answer.value & 0xFFFF) as usize);
    let range = offset..offset + length;
    Ok(match answer.extra {
        0 => Style::Own(range),
        _ => Style::Block(range),
    })
}

/// The answer of a call that fills a table, a list or a path.
fn count(returned: u64) -> Result<usize, Refusal> {
    Answer::of(returned).map(|answer| answer.value as usize)
}
