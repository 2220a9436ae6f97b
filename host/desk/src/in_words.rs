//! An answer in words, in aligned columns.

use crate::canvas;
use crate::columns::{self, Cell, Look};
use crate::karaoke::Syllable;
use crate::marks::{self, Marks};
use crate::moves::{self, Moves};
use crate::ranges::{self, grouped};
use crate::report::{Fits, Frames, Report, StateTold, TagTold};
use codespan_reporting::term::termcolor::Buffer;
use std::io::{self, Write};

/// How many ranges a line of words lists; JSON has all.
const MOST_LISTED: usize = 24;
/// How many characters of a tag are shown.
const MOST_SOURCE: usize = 32;

/// Writes an answer in words.
pub fn write(report: &Report, to: &mut Buffer) -> io::Result<()> {
    let duration = report.duration_ms.unwrap_or(0);
    let what = if report.path.is_some() { "commands" } else { "records" };
    let mut head = Vec::new();
    head.extend(report.fits.as_ref().map(|fits| fitting(fits, what)));
    if let (Some(marks), Some(moves)) = (&report.marks, &report.moves) {
        let syllables = report.syllables.as_deref().unwrap_or(&[]);
        head.extend(moving(marks, moves, syllables, duration));
        head.extend(next_moves(marks, moves, !syllables.is_empty()));
    }
    head.extend(report.frames.iter().flat_map(|frames| redrawn(frames, duration)));
    head.extend(report.picture.as_ref().map(|picture| vec![heading("picture"), picture.as_str().into()]));
    columns::write(to, 0, &head)?;
    if let Some(tags) = &report.tags {
        section(to, "tags", tag_rows(tags), "no tag in this text")?;
        if let Some(syllables) = report.syllables.as_deref().filter(|syllables| !syllables.is_empty()) {
            section(to, "syllables", syllable_rows(syllables), "")?;
        }
    }
    for state in report.states.iter().flatten() {
        section(to, &format!("state at {} ms", state.at_ms), state_rows(state), "nothing is set: as its style has it")?;
    }
    Ok(())
}

/// A heading and its rows, or what to say where there is none.
fn section(to: &mut Buffer, name: &str, rows: Vec<Vec<Cell>>, otherwise: &str) -> io::Result<()> {
    writeln!(to)?;
    columns::word(to, Look::Heading, name)?;
    writeln!(to)?;
    match rows.is_empty() {
        true => writeln!(to, "  {otherwise}"),
        false => columns::write(to, 2, &rows),
    }
}

fn heading(word: &str) -> Cell {
    Cell(Look::Heading, word.into())
}

fn fitting(fits: &Fits, what: &str) -> Vec<Cell> {
    let of = |number: usize, most: usize| format!("{} of {}", grouped(number as i64), grouped(most as i64));
    let (places, bytes) = (of(fits.places_needed, fits.places), of(fits.bytes, fits.most_bytes));
    vec![heading("fits"), Cell(Look::Good, format!("{places} {what}, {bytes} bytes"))]
}

/// When the picture moves; below, the marks and the syllables that move it, told apart where there are both.
fn moving(marks: &Marks, moves: &Moves, syllables: &[Syllable], duration: i32) -> Vec<Vec<Cell>> {
    let sung = !syllables.is_empty();
    let more = if moves.whole { "" } else { "; no more marks were walked" };
    let when = format!("{}{more}", moves.told(sung, MOST_LISTED));
    let mut rows = vec![vec![heading("moves"), Cell(Look::Good, when)]];
    let mut below = |line: String| rows.push(vec!["".into(), Cell(Look::Faint, line)]);
    let count = ranges::counted(ranges::total(&marks.ranges), "mark");
    let of_these = match sung && !marks.ranges.is_empty() {
        true => format!(", at {}", ranges::listed(&marks.ranges, MOST_LISTED)),
        false => String::new(),
    };
    below(format!("{count} in a line of {} ms{of_these}", grouped(duration)));
    if let Some(line) = singing(moves, syllables, duration) {
        below(line);
    }
    if let Some(mark) = marks.beyond {
        below(format!("next mark after the line: {mark}"));
    }
    rows
}

/// The syllables, and when they move the picture.
fn singing(moves: &Moves, syllables: &[Syllable], duration: i32) -> Option<String> {
    let (first, last) = (syllables.first()?, syllables.last()?);
    let count = ranges::counted(syllables.len() as i64, "syllable");
    let when = match moves.by_syllables.is_empty() {
        true => "nothing after the line's start".into(),
        false => format!("at {}", ranges::listed(&moves.by_syllables, MOST_LISTED)),
    };
    let late = match syllables.iter().filter(|syllable| i64::from(syllable.start_ms) > i64::from(duration)).count() {
        0 => String::new(),
        1 => "; 1 begins after the line's end".into(),
        late => format!("; {} begin after the line's end", grouped(late as i64)),
    };
    Some(format!("{count} from {} to {} ms, moving {when}{late}", first.start_ms, last.end_ms))
}

/// The next move after each instant, and the next mark where it is another: that is what the library's call gives.
fn next_moves(marks: &Marks, moves: &Moves, sung: bool) -> Vec<Vec<Cell>> {
    let told = |mark: Option<i64>, moved: Option<i64>| match (moved, mark) {
        (Some(moved), Some(mark)) if moved == mark => format!("{moved}{}", if sung { ", a mark" } else { "" }),
        (Some(moved), Some(mark)) => format!("{moved}, a syllable; next mark {mark}"),
        (Some(moved), None) => format!("{moved}, a syllable; no later mark"),
        (None, Some(mark)) => format!("never in the line; next mark {mark}"),
        (None, None) => format!("never{}", if sung { " in the line" } else { "" }),
    };
    let row = |(place, (mark, moved)): (usize, (&marks::Next, &moves::Next))| {
        let name = if place == 0 { heading("next") } else { "".into() };
        let told = told(mark.mark_ms.map(i64::from), moved.move_ms);
        vec![name, format!("after {}: {told}", mark.after_ms).into()]
    };
    marks.next.iter().zip(&moves.next).enumerate().map(row).collect()
}

fn redrawn(frames: &Frames, duration: i32) -> Vec<Vec<Cell>> {
    let (redrawn, count) = (grouped(frames.redrawn as i64), grouped(frames.count as i64));
    let line = format!("a line of {} ms at {} frames a second", grouped(duration), canvas::number(&frames.rate));
    vec![
        vec![heading("redraws"), Cell(Look::Good, format!("{redrawn} of {count} frames"))],
        vec![heading("saved"), Cell(Look::Good, format!("{:.1} % of the frames", 100.0 * frames.saved))],
        vec![heading("frames"), ranges::listed(&frames.ranges, MOST_LISTED).into()],
        vec!["".into(), Cell(Look::Faint, line)],
    ]
}

fn tag_rows(tags: &[TagTold]) -> Vec<Vec<Cell>> {
    let mut rows = Vec::new();
    if !tags.is_empty() {
        let names = ["record", "bytes", "tag", "says", "words"];
        rows.push(names.map(|name| Cell(Look::Faint, name.into())).into());
        nested_rows(tags, 0, &mut rows);
    }
    rows
}

fn nested_rows(tags: &[TagTold], depth: usize, rows: &mut Vec<Vec<Cell>>) {
    let indent = "  ".repeat(depth);
    for tag in tags {
        let source = tag.source.as_deref().map_or(format!("\\{}", tag.name), cut);
        rows.push(vec![
            tag.record.to_string().into(),
            tag.bytes.map_or("?".into(), |bytes| bytes.to_string()).into(),
            Cell(Look::Name, format!("{indent}{source}")),
            format!("{indent}{}", tag.says).into(),
            Cell(Look::Faint, record_words(&tag.words)),
        ]);
        nested_rows(&tag.inside, depth + 1, rows);
    }
}

/// The beginning of a long text.
fn cut(text: &str) -> String {
    match text.char_indices().nth(MOST_SOURCE) {
        Some((place, _)) => format!("{}…", &text[..place]),
        None => text.into(),
    }
}

/// The words of a record: its kind, and the others in hexadecimal up to the last that is not 0.
fn record_words(words: &[u32]) -> String {
    let last = words.iter().rposition(|&word| word != 0).unwrap_or(0);
    let mut shown = vec![words[0].to_string()];
    shown.extend(words[1..=last].iter().map(|word| format!("{word:X}")));
    shown.join(" ")
}

fn syllable_rows(syllables: &[Syllable]) -> Vec<Vec<Cell>> {
    let row = |(place, syllable): (usize, &Syllable)| {
        let time = format!("{} to {} ms", syllable.start_ms, syllable.end_ms);
        vec![(place + 1).to_string().into(), Cell(Look::Name, syllable.kind.into()), time.into()]
    };
    syllables.iter().enumerate().map(row).collect()
}

fn state_rows(state: &StateTold) -> Vec<Vec<Cell>> {
    let row = |name: &str, value: String| vec![Cell(Look::Name, name.into()), value.into()];
    let mut rows: Vec<_> = state.fields.iter().map(|field| row(field.name, field.value.to_string())).collect();
    rows.extend(
        state.sung.as_ref().map(|sung| row("syllable", format!("{}, progress {}", sung.syllable, sung.progress))),
    );
    rows.extend(state.style.as_ref().map(|style| row("style in force", format!("\"{style}\""))));
    rows
}

#[cfg(test)]
mod tests {
    use super::*;

    #[test]
    fn words_of_a_record() {
        assert_eq!(record_words(&[42, 700, 0, 0]), "42 2BC");
        assert_eq!(record_words(&[41, 0, 0, 0]), "41");
    }

    #[test]
    fn a_long_tag_is_cut() {
        assert_eq!(cut(&"ä".repeat(32)), "ä".repeat(32));
        assert_eq!(cut(&"ä".repeat(33)), format!("{}…", "ä".repeat(32)));
    }
}
