//! What every comparison has in common: cases, both answers to a case, and the run over them.

use std::time::{Duration, Instant};

use crate::hex::hex_words;
use crate::lent::Lent;
use crate::random::Random;
use crate::shrink::{Cases, shrink};

/// What a call answers, and the words that it writes at the front of the memory lent to it.
#[derive(Clone, Debug, PartialEq)]
pub struct Answer {
    pub result: u64,
    pub written: Vec<u32>,
}

impl Answer {
    pub fn of(result: u64) -> Self {
        Answer {
            result,
            written: Vec::new(),
        }
    }
}

pub trait Suite {
    type Case: Clone;

    const NAME: &'static str;

    /// The functions of our library that are called and absent from the archives.
    fn absent(&self) -> Vec<&'static str>;
    /// The cases of every run, whatever its seed.
    fn fixed(&self) -> Cases<'_, Self::Case>;
    /// One case out of the random part.
    fn random(&self, random: &mut Random) -> Self::Case;
    /// The oracle's answer.
    fn answer(&self, case: &Self::Case) -> Answer;
    /// How many words are lent to the call.
    fn lent_words(&self, case: &Self::Case) -> usize;
    /// Our library's answer.
    fn call(&self, case: &Self::Case, lent: &mut [u32]) -> u64;
    /// The case for a reader.
    fn describe(&self, case: &Self::Case) -> String;
    /// Simpler cases, the simplest first.
    fn simpler<'a>(&self, case: &'a Self::Case) -> Cases<'a, Self::Case>;
}

pub struct Settings {
    pub seed: u64,
    pub count: u64,
    /// Leave the fixed cases out.
    pub random_only: bool,
    /// Do not call our library.
    pub oracle_only: bool,
}

/// The fixed cases, then the random ones.
fn cases<'a, S: Suite>(suite: &'a S, settings: &'a Settings) -> impl Iterator<Item = S::Case> + 'a {
    let random =
        (0..settings.count).map(|case| suite.random(&mut Random::new(settings.seed, case)));
    let fixed = (!settings.random_only).then(|| suite.fixed());
    fixed.into_iter().flatten().chain(random)
}

/// Works out the oracle's answers alone, which checks the rule against the Rust.
pub fn check_oracle<S: Suite>(suite: &S, settings: &Settings) -> u64 {
    let mut progress = Progress::new(S::NAME);
    for case in cases(suite, settings) {
        let answer = suite.answer(&case);
        assert!(
            answer.written.len() <= suite.lent_words(&case),
            "{}",
            suite.describe(&case)
        );
        progress.step();
    }
    progress.done
}

/// Runs all cases; the report of the first difference is the error.
pub fn run<S: Suite>(suite: &S, settings: &Settings) -> Result<u64, String> {
    let mut progress = Progress::new(S::NAME);
    for case in cases(suite, settings) {
        let garbage = settings.seed.wrapping_add(progress.done);
        if let Some(difference) = difference(suite, &case, garbage) {
            return Err(report(suite, case, difference, garbage));
        }
        progress.step();
    }
    Ok(progress.done)
}

/// Both answers to a case, where they differ.
struct Difference {
    oracle: Answer,
    result: u64,
    expected: Lent,
    found: Lent,
    place: Option<isize>,
}

fn difference<S: Suite>(suite: &S, case: &S::Case, garbage: u64) -> Option<Difference> {
    let oracle = suite.answer(case);
    let count = suite.lent_words(case);
    let mut found = Lent::new(garbage, count);
    let result = suite.call(case, found.lend());
    let expected = Lent::with(garbage, count, &oracle.written);
    let place = expected.first_difference(&found);
    if result == oracle.result && place.is_none() {
        return None;
    }
    Some(Difference {
        oracle,
        result,
        expected,
        found,
        place,
    })
}

/// The answer to one case on which both sides agree, or the report of their difference.
#[cfg(test)]
pub fn agreed<S: Suite>(suite: &S, case: &S::Case) -> Result<Answer, String> {
    match difference(suite, case, 1) {
        None => Ok(suite.answer(case)),
        Some(found) => Err(report(suite, case.clone(), found, 1)),
    }
}

fn report<S: Suite>(suite: &S, case: S::Case, found: Difference, garbage: u64) -> String {
    let first = show(suite, &case, &found);
    let small = shrink(
        case,
        |case| suite.simpler(case),
        |case| difference(suite, case, garbage).is_some(),
    );
    let again = difference(suite, &small, garbage).expect("a shrunk case still differs");
    let shrunk = show(suite, &small, &again);
    format!("{}: difference\n{first}shrunk\n{shrunk}", S::NAME)
}

fn show<S: Suite>(suite: &S, case: &S::Case, difference: &Difference) -> String {
    let mut text = format!("  input    {}\n", suite.describe(case));
    let sides = [
        ("oracle", difference.oracle.result, &difference.expected),
        ("library", difference.result, &difference.found),
    ];
    for (side, result, lent) in sides {
        text += &format!("  {side:<8} result {result:016X}");
        text += &first_words(difference.oracle.written.len(), lent.inner());
    }
    if let Some(place) = difference.place {
        let (expected, found) = (
            difference.expected.word(place),
            difference.found.word(place),
        );
        text += &format!("  word {place} is {found:08X}, the oracle has {expected:08X}\n");
    }
    text
}

/// The words that the oracle writes and two behind them, at most 400, eight to a line.
fn first_words(written: usize, words: &[u32]) -> String {
    let shown = words.len().min(written + 2).min(400);
    let mut text = String::from("\n");
    for line in words[..shown].chunks(8) {
        text += &format!("            {}\n", hex_words(line));
    }
    text
}

struct Progress {
    name: &'static str,
    done: u64,
    start: Instant,
    last: Instant,
}

impl Progress {
    fn new(name: &'static str) -> Self {
        let now = Instant::now();
        Progress {
            name,
            done: 0,
            start: now,
            last: now,
        }
    }

    fn step(&mut self) {
        self.done += 1;
        if self.done.is_multiple_of(1024) && self.last.elapsed() > Duration::from_secs(5) {
            self.last = Instant::now();
            let seconds = self.start.elapsed().as_secs();
            eprintln!("{}: {} cases after {seconds} s", self.name, self.done);
        }
    }
}

#[cfg(test)]
mod tests {
    use super::*;
    use crate::generate::text::noise;
    use crate::shrink::simpler_texts;

    /// Counts the backslashes of a text and writes the count; `fault` says what goes wrong where
    /// the text has a parenthesis.
    struct Toy {
        fault: Fault,
    }

    #[derive(PartialEq)]
    enum Fault {
        None,
        Result,
        Word,
        Behind,
    }

    fn backslashes(text: &[u8]) -> u64 {
        text.iter().filter(|&&byte| byte == b'\\').count() as u64
    }

    impl Suite for Toy {
        type Case = Vec<u8>;

        const NAME: &'static str = "toy";

        fn absent(&self) -> Vec<&'static str> {
            Vec::new()
        }

        fn fixed(&self) -> Cases<'_, Vec<u8>> {
            Box::new([b"".to_vec(), b"\\".to_vec()].into_iter())
        }

        fn random(&self, random: &mut Random) -> Vec<u8> {
            let mut text = Vec::new();
            noise(random, &mut text, 30);
            text
        }

        fn answer(&self, text: &Vec<u8>) -> Answer {
            let result = backslashes(text);
            Answer {
                result,
                written: vec![result as u32],
            }
        }

        fn lent_words(&self, _: &Vec<u8>) -> usize {
            3
        }

        fn call(&self, text: &Vec<u8>, lent: &mut [u32]) -> u64 {
            let result = backslashes(text);
            lent[0] = result as u32;
            let wrong = text.contains(&b'(');
            match self.fault {
                Fault::Word if wrong => lent[0] += 1,
                Fault::Behind if wrong => lent[2] ^= 1,
                Fault::Result if wrong => return result + 1,
                _ => {}
            }
            result
        }

        fn describe(&self, text: &Vec<u8>) -> String {
            format!("<{}>", text.escape_ascii())
        }

        fn simpler<'a>(&self, text: &'a Vec<u8>) -> Cases<'a, Vec<u8>> {
            Box::new(simpler_texts(text))
        }
    }

    fn outcome(fault: Fault) -> Result<u64, String> {
        let settings = Settings {
            seed: 1,
            count: 500,
            random_only: false,
            oracle_only: false,
        };
        run(&Toy { fault }, &settings)
    }

    #[test]
    fn all_cases_are_counted_where_nothing_differs() {
        assert_eq!(outcome(Fault::None), Ok(502));
    }

    #[test]
    fn every_kind_of_difference_is_found_and_shrunk() {
        for (fault, shown) in [
            (Fault::Result, "library  result 0000000000000001"),
            (Fault::Word, "word 0 is 00000001, the oracle has 00000000"),
            (Fault::Behind, "word 2 is"),
        ] {
            let report = outcome(fault).unwrap_err();
            let (_, shrunk) = report.split_once("shrunk\n").unwrap();
            assert!(shrunk.contains("input    <(>"), "{report}");
            assert!(shrunk.contains(shown), "{report}");
        }
    }
}
