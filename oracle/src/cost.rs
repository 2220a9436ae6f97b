//! One call, some number of times, on a text or a table of a given kind and size: what cost.sh
//! counts the instructions of.

use crate::calls::{self, Call, Input};
use crate::texts::{
    DRAWN_EXPONENTS, EXPONENTS, INNER, MIXED, beats, flat, nested, opened, repeated,
};

const USAGE: &str = "\
usage: compare cost KIND SIZE SIDE TIMES
KIND: typical, flat, exponents, nested, deeper, unclosed, lines, drawn-exponents, spline, clip, scaled
      (SIZE in bytes),
      evaluate-flat, evaluate-nested, evaluate-deeper, marks-flat, marks-nested, marks-deeper,
      spans, spans-nested, spans-deeper (SIZE in records)
SIDE: library, rust";

/// `None`: the words are no such command, or the library lacks the call.
pub fn run(words: &[String]) -> Option<()> {
    let [kind, size, side, times] = words else {
        return usage();
    };
    let (Ok(size), Ok(times)) = (size.parse(), times.parse()) else {
        return usage();
    };
    let Some((call, inputs)) = kind_of(kind, size) else {
        return usage();
    };
    match side.as_str() {
        "library" => {
            let answer = calls::ours(call, &inputs, times, &mut vec![0; calls::WORDS]);
            let Some(answer) = answer else {
                eprintln!("cost: the archives lack the call of: {kind}");
                return None;
            };
            assert_eq!(answer >> 48, 0, "the input is not refused");
            Some(())
        }
        "rust" => {
            calls::rust(call, &inputs, times);
            Some(())
        }
        _ => usage(),
    }
}

fn usage() -> Option<()> {
    eprintln!("{USAGE}");
    None
}

/// The call, and an input of the size.
fn kind_of(kind: &str, size: usize) -> Option<(Call, Vec<Input>)> {
    if let Some((call, text)) = text_of(kind, size) {
        return Some((call, Input::texts(vec![text])));
    }
    let (call, text, t) = line_of(kind, size)?;
    Some((call, Input::lines(vec![text], &[t], 1_000)))
}

/// A text of exactly so many bytes with at most 1,024 tags or commands.
fn text_of(kind: &str, bytes: usize) -> Option<(Call, String)> {
    let (eight, sixteen) = (opened(8), opened(16));
    let (call, front, piece) = match kind {
        "typical" => (Call::Overrides, "", MIXED),
        "flat" => (Call::Overrides, "", "\\pos(123.5,-45.25)\\fscx120.5"),
        "exponents" => (Call::Overrides, "", EXPONENTS),
        "nested" => (Call::Overrides, &*eight, INNER),
        "deeper" => (Call::Overrides, &*sixteen, INNER),
        "unclosed" => (Call::Overrides, "", "\\fs(\\fs(12.5 "),
        "lines" => (Call::Drawing, "m 0 0 l ", "123.5 -45.25 "),
        "drawn-exponents" => (Call::Drawing, "", DRAWN_EXPONENTS),
        "spline" => (Call::Drawing, "m 0 0 s ", "123.5 -45.25 "),
        "clip" => (Call::Clip, "m 0 0 l ", "123.5 -45.25 "),
        "scaled" => (Call::Clip, "2,m 0 0 l ", "123.5 -45.25 "),
        _ => return None,
    };
    Some((call, repeated(front, piece, bytes)))
}

/// A text of so many records and the instant: amid the changes for evaluation; for the marks some
/// time before one, so that the Rust walks from 400 to 801 in a flat line and from -20 to 10 in a
/// nested one, but to the end of a line of one tag or of \t around none, as that does not move.
fn line_of(kind: &str, records: usize) -> Option<(Call, String, i32)> {
    Some(match kind {
        "evaluate-flat" => (Call::Evaluate, flat(records), 50),
        "evaluate-nested" => (Call::Evaluate, nested(8, records), 50),
        "evaluate-deeper" => (Call::Evaluate, nested(16, records), 50),
        "marks-flat" => (Call::NextMark, flat(records), 400),
        "marks-nested" => (Call::NextMark, nested(8, records), -20),
        "marks-deeper" => (Call::NextMark, nested(16, records), -20),
        "spans" => (Call::Spans, beats(records), 0),
        "spans-nested" => (Call::Spans, nested(8, records), 0),
        "spans-deeper" => (Call::Spans, nested(16, records), 0),
        _ => return None,
    })
}

#[cfg(test)]
mod tests {
    use super::*;

    fn words(line: &str) -> Vec<String> {
        line.split_whitespace().map(str::to_owned).collect()
    }

    #[test]
    fn the_rust_reads_every_kind() {
        let kinds = "typical flat exponents nested deeper unclosed lines drawn-exponents spline \
            clip scaled";
        for kind in words(kinds) {
            for bytes in [30, 4096] {
                assert_eq!(kind_of(&kind, bytes).unwrap().1[0].text.len(), bytes);
                assert!(run(&words(&format!("{kind} {bytes} rust 1"))).is_some());
            }
        }
    }

    #[test]
    fn the_rust_takes_every_kind_of_line() {
        let kinds = "evaluate-flat evaluate-nested evaluate-deeper marks-flat marks-nested \
            marks-deeper spans spans-nested spans-deeper";
        for kind in words(kinds) {
            for records in [1, 10, 100, 1_000] {
                assert_eq!(kind_of(&kind, records).unwrap().1[0].records(), records);
            }
            assert!(run(&words(&format!("{kind} 10 rust 1"))).is_some());
        }
    }

    #[test]
    fn bad_words_are_not_taken() {
        for line in [
            "",
            "flat 1 rust",
            "flat x rust 1",
            "round 1 rust 1",
            "flat 1 c 1",
        ] {
            assert!(run(&words(line)).is_none(), "{line}");
        }
    }
}
