//! The drawing reader against the Rust.

use crate::built::drawing::parse_drawing;
use crate::generate::drawing::drawing;
use crate::generate::exhaustive::texts;
use crate::generate::exponents;
use crate::generate::size::{lent_words, long_text, many};
use crate::generate::text::{damage, noise};
use crate::hex::show_text;
use crate::library::hannuvel_parse_drawing;
use crate::random::Random;
use crate::rule::drawing::refused_token;
use crate::rule::numeral::ascii;
use crate::rule::refusal;
use crate::sample::{Sampled, line, short_sample};
use crate::shrink::{Cases, simpler_sizes, simpler_texts};
use crate::suite::{Answer, Suite};

/// Words of a command.
const WIDTH: usize = 8;
const MOST_EXPONENT: u32 = 32;

pub struct Drawings;

#[derive(Clone)]
pub struct Case {
    pub exponent: u32,
    pub words: usize,
    pub text: Vec<u8>,
}

const PIECES: &[&str] = &[
    "m ",
    "n ",
    "l ",
    "b ",
    "s ",
    "p ",
    "P ",
    "c ",
    "x ",
    "1 ",
    "2 3 ",
    "4 5 6 7 8 9 ",
    "-.5",
    "1e9 ",
    "m",
];

/// Coordinates of every length with every small exponent.
fn coordinates() -> impl Iterator<Item = Vec<u8>> {
    exponents::numerals().map(|numeral| [b"m 0 ", &numeral[..], b" l 1 1"].concat())
}

/// Refusals 1, 2, 3 and 7.
fn refused(case: &Case) -> Option<u64> {
    refusal::text(&case.text)
        .or_else(|| refused_token(&case.text).map(|place| refusal::refused(3, place)))
        .or_else(|| (case.exponent > MOST_EXPONENT).then(|| refusal::refused(7, 0)))
}

fn commands(case: &Case) -> Vec<u32> {
    parse_drawing(ascii(&case.text), case.exponent).words
}

fn random_text(random: &mut Random) -> Vec<u8> {
    let mut text = Vec::new();
    match random.below(800) {
        0 => return long_text(random, |_| b"c ".to_vec()),
        1 => return many(random, b"c "),
        2 => {
            return long_text(random, |random| {
                let mut piece = Vec::new();
                drawing(random, &mut piece);
                piece
            });
        }
        3..=60 => noise(random, &mut text, 40),
        _ => drawing(random, &mut text),
    }
    if random.one_in(5) {
        damage(random, &mut text);
    }
    text
}

fn random_exponent(random: &mut Random) -> u32 {
    match random.below(16) {
        0 => 0,
        1 => random.between(30, 34) as u32,
        2 => random.word(),
        3..=6 => random.between(2, 32) as u32,
        _ => 1,
    }
}

/// 1 is the simplest exponent, then 0, then the smaller.
fn simpler_exponents(exponent: u32) -> impl Iterator<Item = u32> {
    let rank = |exponent| match exponent {
        1 => 0,
        0 => 1,
        _ => exponent,
    };
    let simpler = [1, 0, exponent / 2, exponent.saturating_sub(1)].into_iter();
    simpler.filter(move |&new| rank(new) < rank(exponent))
}

impl Suite for Drawings {
    type Case = Case;

    const NAME: &'static str = "drawings";

    fn absent(&self) -> Vec<&'static str> {
        let absent = hannuvel_parse_drawing().is_none();
        absent
            .then_some("hannuvel_parse_drawing")
            .into_iter()
            .collect()
    }

    fn fixed(&self) -> Cases<'_, Case> {
        let all = texts(PIECES, 5).chain(coordinates());
        Box::new(all.enumerate().map(|(number, text)| Case {
            exponent: number as u32 % 3,
            words: 12 * WIDTH,
            text,
        }))
    }

    fn random(&self, random: &mut Random) -> Case {
        let mut case = Case {
            exponent: random_exponent(random),
            words: 0,
            text: random_text(random),
        };
        let needed = match refused(&case) {
            Some(_) => 2,
            None => commands(&case).len() / WIDTH,
        };
        case.words = lent_words(random, needed, WIDTH);
        case
    }

    fn answer(&self, case: &Case) -> Answer {
        if let Some(result) = refused(case) {
            return Answer::of(result);
        }
        let written = commands(case);
        let count = written.len() / WIDTH;
        match refusal::space(count, case.words, WIDTH) {
            Some(result) => Answer::of(result),
            None => Answer {
                result: refusal::answered(0, count as u32),
                written,
            },
        }
    }

    fn lent_words(&self, case: &Case) -> usize {
        case.words
    }

    fn call(&self, case: &Case, lent: &mut [u32]) -> u64 {
        let function =
            hannuvel_parse_drawing().expect("absent functions are reported before a run");
        let (text, exponent) = (&case.text, case.exponent);
        // SAFETY: the pointers and lengths are those of slices that outlive the call.
        unsafe {
            function(
                text.as_ptr(),
                text.len(),
                exponent,
                lent.as_mut_ptr(),
                lent.len(),
            )
        }
    }

    fn describe(&self, case: &Case) -> String {
        let (exponent, words) = (case.exponent, case.words);
        format!(
            "parse_drawing exponent {exponent}, {words} words, {}",
            show_text(&case.text)
        )
    }

    fn simpler<'a>(&self, case: &'a Case) -> Cases<'a, Case> {
        let texts = simpler_texts(&case.text).map(move |text| Case {
            text,
            ..case.clone()
        });
        let exponents = simpler_exponents(case.exponent).map(move |exponent| Case {
            exponent,
            ..case.clone()
        });
        let sizes = simpler_sizes(case.words).map(move |words| Case {
            words,
            ..case.clone()
        });
        Box::new(texts.chain(exponents).chain(sizes))
    }
}

impl Sampled for Drawings {
    fn input_line(&self, case: &Case) -> String {
        line('D', &[case.exponent, case.words as u32], &case.text)
    }

    fn sample(&self, random: &mut Random) -> Case {
        short_sample(self, random, |case| case.text.len() + case.words)
    }
}
