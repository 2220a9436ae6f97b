//! The two reading calls against the Rust.

use crate::answer::record::WIDTH;
use crate::answer::table::table;
use crate::built::animate;
use crate::generate::block::{block, nested_block, raw_block};
use crate::generate::exhaustive::texts;
use crate::generate::exponents;
use crate::generate::size::{lent_words, long_text, many};
use crate::hex::show_text;
use crate::library::{hannuvel_parse_overrides, hannuvel_parse_raw_block};
use crate::random::Random;
use crate::rule::block as rule;
use crate::rule::numeral::ascii;
use crate::rule::refusal;
use crate::sample::{Sampled, line, short_sample};
use crate::shrink::{Cases, simpler_sizes, simpler_texts};
use crate::suite::{Answer, Suite};

pub struct Blocks;

#[derive(Clone)]
pub struct Case {
    /// The call that trims and drops braces.
    pub raw: bool,
    pub words: usize,
    pub text: Vec<u8>,
}

impl Case {
    fn rule(&self) -> rule::Reading {
        if self.raw {
            rule::raw_block(&self.text)
        } else {
            rule::overrides(&self.text)
        }
    }

    fn rust(&self) -> Vec<animate::AnimatedTag> {
        let mut tags = Vec::new();
        let text = ascii(&self.text);
        if self.raw {
            animate::parse_raw_block(text, &mut tags);
        } else {
            animate::parse_overrides(text, &mut tags);
        }
        tags
    }
}

/// Bytes that steer the reader.
const BYTES: &[&str] = &["\\", "t", "r", "(", ")", ",", "1", " "];

/// Whole pieces of blocks.
const PIECES: &[&str] = &[
    "\\t(", "\\fs", "\\pos(", "\\fnA", "\\r", "\\clip(", "\\", ")", ",", "1", "1e5", "1e9", " ",
    "x", "{", "}",
];

/// What stands before and behind a numeral wherever a block has one.
const AROUND: [(&str, &str); 5] = [
    ("\\fs", "\\i1"),
    ("\\pos(1,", ")\\i1"),
    ("\\clip(1,2,3,", ")"),
    ("\\t(", ",\\i1)"),
    ("\\t(1,2,", "\\i1)"),
];

/// Numerals of every length with every small exponent, at these places in turn.
fn shifted() -> impl Iterator<Item = Vec<u8>> {
    let placed = exponents::numerals().zip(AROUND.iter().cycle());
    placed.map(|(numeral, (front, rest))| [front.as_bytes(), &numeral, rest.as_bytes()].concat())
}

/// How many places the text needs, where it is not refused before.
fn needed(raw: bool, text: &[u8]) -> usize {
    if refusal::text(text).is_some() {
        return 1;
    }
    let case = Case {
        raw,
        words: 0,
        text: text.to_vec(),
    };
    case.rule().kept.len()
}

/// The reading of a text that refusals 1 and 2 let pass: the refusal, or the table.
pub fn read(case: &Case) -> Answer {
    let reading = case.rule();
    if let Some(place) = reading.too_long {
        return Answer::of(refusal::refused(3, place));
    }
    if let Some(place) = reading.far_fade {
        return Answer::of(refusal::refused(4, place));
    }
    let written = table(&case.text, &case.rust(), &reading);
    let count = reading.kept.len();
    match refusal::space(count, case.words, WIDTH) {
        Some(result) => Answer::of(result),
        None => Answer {
            result: refusal::answered(0, count as u32),
            written,
        },
    }
}

/// A text for either call.
fn random_text(raw: bool, random: &mut Random) -> Vec<u8> {
    if random.one_in(400) {
        let piece = *random.pick(&["\\r", "\\b1", "\\i1\\t()", "\\t(\\u1)"]);
        return many(random, piece.as_bytes());
    }
    if random.one_in(400) {
        let resets = random.one_in(2);
        return long_text(random, |random| {
            if resets {
                b"\\r".to_vec()
            } else {
                block(random)
            }
        });
    }
    if random.one_in(10) {
        return nested_block(random);
    }
    if raw {
        raw_block(random)
    } else {
        block(random)
    }
}

impl Suite for Blocks {
    type Case = Case;

    const NAME: &'static str = "blocks";

    fn absent(&self) -> Vec<&'static str> {
        let mut absent = Vec::new();
        if hannuvel_parse_overrides().is_none() {
            absent.push("hannuvel_parse_overrides");
        }
        if hannuvel_parse_raw_block().is_none() {
            absent.push("hannuvel_parse_raw_block");
        }
        absent
    }

    fn fixed(&self) -> Cases<'_, Case> {
        let all = texts(BYTES, 6).chain(texts(PIECES, 5)).chain(shifted());
        Box::new(all.enumerate().map(|(number, text)| Case {
            raw: number % 4 == 3,
            words: 6 * WIDTH,
            text,
        }))
    }

    fn random(&self, random: &mut Random) -> Case {
        let raw = random.one_in(3);
        let text = random_text(raw, random);
        let words = lent_words(random, needed(raw, &text), WIDTH);
        Case { raw, words, text }
    }

    fn answer(&self, case: &Case) -> Answer {
        match refusal::text(&case.text) {
            Some(result) => Answer::of(result),
            None => read(case),
        }
    }

    fn lent_words(&self, case: &Case) -> usize {
        case.words
    }

    fn call(&self, case: &Case, lent: &mut [u32]) -> u64 {
        let function = if case.raw {
            hannuvel_parse_raw_block()
        } else {
            hannuvel_parse_overrides()
        };
        let function = function.expect("absent functions are reported before a run");
        let text = &case.text;
        // SAFETY: the pointers and lengths are those of slices that outlive the call.
        unsafe { function(text.as_ptr(), text.len(), lent.as_mut_ptr(), lent.len()) }
    }

    fn describe(&self, case: &Case) -> String {
        let call = if case.raw {
            "parse_raw_block"
        } else {
            "parse_overrides"
        };
        format!("{call} {} words {}", case.words, show_text(&case.text))
    }

    fn simpler<'a>(&self, case: &'a Case) -> Cases<'a, Case> {
        let raw = case.raw;
        let words = case.words;
        let plain = raw.then(|| Case {
            raw: false,
            ..case.clone()
        });
        let shorter = simpler_texts(&case.text).map(move |text| Case { raw, words, text });
        let fewer = simpler_sizes(words).map(move |words| Case {
            words,
            ..case.clone()
        });
        Box::new(plain.into_iter().chain(shorter).chain(fewer))
    }
}

impl Sampled for Blocks {
    fn input_line(&self, case: &Case) -> String {
        let letter = if case.raw { 'R' } else { 'O' };
        line(letter, &[case.words as u32], &case.text)
    }

    fn sample(&self, random: &mut Random) -> Case {
        short_sample(self, random, |case| case.text.len() + case.words)
    }
}
