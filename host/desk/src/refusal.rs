//! A refusal: its number and sentence, the place underlined, and what to change.

use crate::input::Text;
use crate::ranges::{Range, grouped};
use crate::stop::Refused;
use codespan_reporting::diagnostic::{Diagnostic, Label};
use codespan_reporting::files::{self, Files};
use codespan_reporting::term::{self, termcolor::WriteColor};
use hannuvel::{MOST_BYTES, MOST_EXPONENT, MOST_MS, MOST_PLACES, Refusal};
use serde::Serialize;
use std::ops;

/// A refusal in words.
#[derive(Debug, Serialize)]
pub struct Told {
    pub ground: u8,
    pub sentence: String,
    pub place: Option<usize>,
    pub count: Option<usize>,
    /// What the place counts in: `text`, or `style` for the name given with --style.
    pub whose: &'static str,
    /// The bytes at fault.
    pub bytes: Option<Range>,
    pub change: String,
}

impl Told {
    /// The refusal of a call on a text, or on the name given with --style.
    pub fn new(refused: &Refused, text: &Text) -> Told {
        let refusal = refused.refusal;
        let text = refused.style.as_ref().unwrap_or(&text.text);
        let bytes = at_fault(refusal, text);
        Told {
            ground: refusal.number(),
            sentence: refusal.to_string(),
            place: refusal.place(),
            count: refusal.count(),
            whose: if refused.style.is_some() { "style" } else { "text" },
            bytes: bytes.map(|bytes| Range::new(bytes.start as i64, bytes.end as i64 - 1)),
            change: change(refused, text),
        }
    }

    /// Writes it as compilers do, with the text that its place counts in.
    fn show(&self, text: &Text, to: &mut dyn WriteColor) -> Result<(), files::Error> {
        let mut diagnostic =
            Diagnostic::error().with_code(format!("ground {}", self.ground)).with_message(&self.sentence);
        let excerpt = Excerpt::around(text, self.bytes);
        if let Some(bytes) = excerpt.bytes.clone() {
            diagnostic = diagnostic.with_labels(vec![Label::primary((), bytes).with_message("here")]);
        }
        let diagnostic = diagnostic.with_notes(vec![format!("change: {}", self.change)]);
        term::emit(to, &term::Config::default(), &excerpt, &diagnostic).or_else(|error| match error {
            files::Error::Io(error) => Err(files::Error::Io(error)),
            _ => Ok(()),
        })
    }
}

/// Shows a refusal of a call on a text, or on the name given with --style.
pub fn show(refused: &Refused, text: &Text, to: &mut dyn WriteColor) -> Result<(), files::Error> {
    let told = Told::new(refused, text);
    match &refused.style {
        Some(style) => told.show(&Text { name: "--style".into(), text: style.clone() }, to),
        None => told.show(text, to),
    }
}

/// The bytes that a refusal is about, if it is about some: a text's end, a character, a numeral, or a \fade.
fn at_fault(refusal: Refusal, text: &str) -> Option<ops::Range<usize>> {
    proposed(refusal, text).filter(|bytes| text.get(bytes.clone()).is_some_and(|found| !found.is_empty()))
}

fn proposed(refusal: Refusal, text: &str) -> Option<ops::Range<usize>> {
    let upto = |from: usize, end: fn(char) -> bool| text.get(from..)?.find(end).map(|length| from + length);
    let whole = |from: usize, end: Option<usize>| from..end.unwrap_or(text.len()).max(from + 1).min(text.len());
    match refusal {
        Refusal::TextTooLong => {
            let start = (0..=MOST_BYTES).rev().find(|&place| text.is_char_boundary(place))?;
            Some(start..text.len())
        }
        Refusal::NotAscii(place) => Some(place..place + text.get(place..)?.chars().next().map_or(1, char::len_utf8)),
        Refusal::NumeralTooLong(place) => {
            let ends = |c: char| matches!(c, ',' | ')' | '(' | '\\' | '}' | '&') || c.is_whitespace();
            Some(whole(place, upto(place, ends)))
        }
        Refusal::FadeTooFar(place) => Some(whole(place, upto(place, |c| c == ')').map(|end| end + 1))),
        _ => None,
    }
}

/// What to change so that the call is answered.
fn change(refused: &Refused, text: &str) -> String {
    let (milliseconds, places) = (grouped(MOST_MS), grouped(MOST_PLACES as i64));
    match refused.refusal {
        Refusal::TextTooLong => {
            let over = text.len().saturating_sub(MOST_BYTES) as i64;
            format!("take {} away, or give the text in two blocks", counted(over, "byte"))
        }
        Refusal::NotAscii(place) => {
            let found = text.get(place..).and_then(|rest| rest.chars().next());
            let shown = found.map_or("it".into(), |c| format!("{c:?} (U+{:04X})", u32::from(c)));
            format!("write {shown} in ASCII, or leave it out")
        }
        Refusal::NumeralTooLong(_) => shorter(at_fault(refused.refusal, text).map_or("", |bytes| &text[bytes])).into(),
        Refusal::FadeTooFar(_) => format!("bring its times within ±{milliseconds} ms"),
        Refusal::TableMalformed(_) => "use the table as a reading wrote it, and no more of it".into(),
        Refusal::TimeOutOfRange => format!("give instants and durations within ±{milliseconds} ms"),
        Refusal::ScaleTooLarge => format!("give an --exponent of 0 to {MOST_EXPONENT}"),
        Refusal::NameBeyondText => "give the text that the table was read from".into(),
        Refusal::NoRoom(count) if count > MOST_PLACES => {
            let over = (count - MOST_PLACES) as i64;
            format!("take {} away, or give the text in two: only {places} places count", counted(over, "place"))
        }
        Refusal::NoRoom(count) => {
            format!("lend {} in place of {}: --places {count}", counted(count as i64, "place"), refused.places)
        }
    }
}

/// What to change in a numeral that is too long. One whose exponent has one or two digits is so for those of the number
/// written out.
fn shorter(numeral: &str) -> &'static str {
    let exponent = numeral.split_once(['e', 'E']).map(|(_, exponent)| exponent.trim_start_matches(['+', '-']));
    match exponent.map(str::len) {
        None => "write it with at most 9 digits before its point and 9 behind it",
        Some(..=2) => "bring it, written out without an exponent, to at most 9 digits before its point and 9 behind it",
        Some(_) => {
            "give its exponent one or two digits, and the number written out at most 9 before its point and 9 behind it"
        }
    }
}

fn counted(number: i64, what: &str) -> String {
    format!("{} {what}{}", grouped(number), if number == 1 { "" } else { "s" })
}

/// The line of the text that holds the bytes at fault, or the stretch around them where it is long.
struct Excerpt {
    name: String,
    line: usize,
    /// How many characters of the line stand before the excerpt.
    column: usize,
    source: String,
    bytes: Option<ops::Range<usize>>,
}

/// How many characters of a line are shown before and behind the first byte at fault.
const BEFORE: usize = 40;
const BEHIND: usize = 60;

impl Excerpt {
    fn around(text: &Text, bytes: Option<Range>) -> Excerpt {
        let name = text.name.clone();
        let Some(bytes) = bytes else {
            return Excerpt { name, line: 1, column: 0, source: String::new(), bytes: None };
        };
        let (first, end) = (bytes.first as usize, bytes.last as usize + 1);
        let (before, behind) = text.text.split_at(first);
        let line_start = before.rfind('\n').map_or(0, |place| place + 1);
        let line = before.matches('\n').count() + 1;
        let start =
            before[line_start..].char_indices().rev().nth(BEFORE - 1).map_or(line_start, |(n, _)| line_start + n);
        let shown = behind.lines().next().unwrap_or(behind);
        let shown = shown.char_indices().nth(BEHIND).map_or(shown, |(n, _)| &shown[..n]);
        let (left, right) = (dots(start > line_start), dots(behind.len() > shown.len()));
        let source = format!("{left}{}{}{right}", quiet(&before[start..]), quiet(shown));
        let place = left.len() + first - start;
        let bytes = place..place + shown.len().min(end - first).max(1).min(source.len() - place);
        let column = text.text[line_start..start].chars().count().saturating_sub(left.chars().count());
        Excerpt { name, line, column, source, bytes: Some(bytes) }
    }
}

/// A text whose control characters stand as others of the same length, so that none reaches a terminal.
fn quiet(text: &str) -> String {
    let quiet = |c: char| match (c.is_control(), c.len_utf8()) {
        (false, _) => c,
        (true, 1) => '?',
        (true, _) => '·',
    };
    text.chars().map(quiet).collect()
}

fn dots(cut: bool) -> &'static str {
    if cut { "…" } else { "" }
}

impl<'a> Files<'a> for Excerpt {
    type FileId = ();
    type Name = &'a str;
    type Source = &'a str;

    fn name(&'a self, (): ()) -> Result<&'a str, files::Error> {
        Ok(&self.name)
    }

    fn source(&'a self, (): ()) -> Result<&'a str, files::Error> {
        Ok(&self.source)
    }

    fn line_index(&'a self, (): (), _: usize) -> Result<usize, files::Error> {
        Ok(0)
    }

    fn line_range(&'a self, (): (), _: usize) -> Result<ops::Range<usize>, files::Error> {
        Ok(0..self.source.len())
    }

    fn line_number(&'a self, (): (), _: usize) -> Result<usize, files::Error> {
        Ok(self.line)
    }

    fn column_number(&'a self, (): (), _: usize, byte: usize) -> Result<usize, files::Error> {
        Ok(self.column + files::column_index(&self.source, 0..self.source.len(), byte) + 1)
    }
}

#[cfg(test)]
mod tests {
    use super::*;
    use codespan_reporting::term::termcolor::Buffer;

    const ALL: [Refusal; 9] = [
        Refusal::TextTooLong,
        Refusal::NotAscii(17),
        Refusal::NumeralTooLong(17),
        Refusal::FadeTooFar(17),
        Refusal::TableMalformed(17),
        Refusal::TimeOutOfRange,
        Refusal::ScaleTooLarge,
        Refusal::NameBeyondText,
        Refusal::NoRoom(17),
    ];

    fn shown(refusal: Refusal, text: &str) -> String {
        let text = Text { name: "text".into(), text: text.into() };
        let mut buffer = Buffer::no_color();
        show(&Refused { refusal, places: 0, style: None }, &text, &mut buffer).unwrap();
        String::from_utf8(buffer.into_inner()).unwrap()
    }

    /// Also those that no text given to the tool can meet, and places that do not fit the text.
    #[test]
    fn every_ground_is_shown() {
        for text in ["", r"\fade(1,2,3,0,0,1000000001,0)", "ä"] {
            for refusal in ALL {
                let shown = shown(refusal, text);
                assert!(shown.starts_with(&format!("error[ground {}]: {refusal}", refusal.number())), "{shown}");
                assert!(shown.contains("change: "), "{shown}");
            }
        }
    }

    #[test]
    fn bytes_at_fault() {
        assert_eq!(at_fault(Refusal::NumeralTooLong(7), r"\pos(x,1e9)"), Some(7..10));
        assert_eq!(at_fault(Refusal::NumeralTooLong(3), r"\fs1e9"), Some(3..6));
        assert_eq!(at_fault(Refusal::NumeralTooLong(9), r"\clip(0, -2.5E+10 ,1,1)"), Some(9..17));
        assert_eq!(at_fault(Refusal::NumeralTooLong(2), "m 1e-10 0"), Some(2..7));
        assert_eq!(at_fault(Refusal::FadeTooFar(3), r"\b1\fade(1,2)\i1"), Some(3..13));
        assert_eq!(at_fault(Refusal::NotAscii(1), "aäb"), Some(1..3));
        assert_eq!(at_fault(Refusal::NoRoom(1), "a"), None);
    }

    /// Those of the exponent, of the number written out, or of the numeral as it stands.
    #[test]
    fn the_digits_to_change_are_told() {
        let change = |place, text| {
            let refusal = Refusal::NumeralTooLong(place);
            change(&Refused { refusal, places: 0, style: None }, text)
        };
        let plain = "write it with at most 9 digits ";
        assert!(change(3, r"\fs1234567890\be1").starts_with(plain));
        assert!(change(2, "m 0.0000000001 1e2").starts_with(plain));
        let written_out = "bring it, written out without an exponent, to at most 9 digits ";
        for text in [r"\fs1e9", r"\fs-1E-10", r"\fs1.5e+09\i1", r"\fs1234567890e0"] {
            assert!(change(3, text).starts_with(written_out), "{text}");
        }
        let exponent = "give its exponent one or two digits, ";
        for text in [r"\fs1e002", r"\fs1E-100 ", r"\fs1e+009"] {
            assert!(change(3, text).starts_with(exponent), "{text}");
        }
    }

    #[test]
    fn a_long_line_is_cut() {
        let text = format!("{}\n{}1e9,{}\n", "a".repeat(200), "b".repeat(200), "c".repeat(200));
        let shown = shown(Refusal::NumeralTooLong(401), &text);
        assert!(shown.contains("text:2:201"), "{shown}");
        assert!(shown.lines().all(|line| line.chars().count() < 120), "{shown}");
        assert!(shown.contains("^^^ here"), "{shown}");
    }

    #[test]
    fn control_characters_are_not_written() {
        let shown = shown(Refusal::NotAscii(2), "a\x1bä\u{85}");
        assert!(shown.contains("a?ä·"), "{shown}");
        assert!(!shown.chars().any(|c| c.is_control() && c != '\n'), "{shown:?}");
    }
}
