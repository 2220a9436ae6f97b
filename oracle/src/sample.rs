//! Stored lists: inputs and answers, a line a case, for replay by other programs.

use std::fmt::Display;
use std::fs::File;
use std::io::{BufWriter, Result, Write};

use crate::hex::{hex_text, hex_words};
use crate::random::Random;
use crate::suite::Suite;

pub trait Sampled: Suite {
    /// The case as a line of a list of inputs.
    fn input_line(&self, case: &Self::Case) -> String;
    /// A case fit for a list.
    fn sample(&self, random: &mut Random) -> Self::Case;
}

/// An input line: a name, words, and a text that is empty where the call takes none.
pub fn line(name: impl Display, words: &[u32], text: &[u8]) -> String {
    let arguments = format!("{} {}", hex_words(words), hex_text(text));
    format!("{name}{}", arguments.to_ascii_lowercase())
}

/// A case whose line is short; one in a hundred may be long.
pub fn short_sample<S: Suite>(
    suite: &S,
    random: &mut Random,
    size: impl Fn(&S::Case) -> usize,
) -> S::Case {
    let any = random.one_in(100);
    loop {
        let case = suite.random(random);
        if any || size(&case) <= 400 {
            return case;
        }
    }
}

/// Writes `count` cases: the inputs to one file, the oracle's answers to the other.
pub fn write<S: Sampled>(
    suite: &S,
    seed: u64,
    count: u64,
    inputs: &str,
    answers: &str,
) -> Result<()> {
    let mut inputs = BufWriter::new(File::create(inputs)?);
    let mut answers = BufWriter::new(File::create(answers)?);
    for case in 0..count {
        let case = suite.sample(&mut Random::new(seed, case));
        writeln!(inputs, "{}", suite.input_line(&case))?;
        writeln!(answers, "{}", answer_line(suite, &case))?;
    }
    inputs.flush()?;
    answers.flush()
}

/// The result as 16 digits, then every lent word as the call leaves it.
fn answer_line<S: Sampled>(suite: &S, case: &S::Case) -> String {
    let answer = suite.answer(case);
    let mut words = vec![WORD_BEFORE; suite.lent_words(case)];
    words[..answer.written.len()].copy_from_slice(&answer.written);
    format!("{:016X}{}", answer.result, hex_words(&words)).to_ascii_lowercase()
}

/// What a lent word holds before the call.
const WORD_BEFORE: u32 = 0xA5A5_A5A5;

#[cfg(test)]
mod tests {
    use super::*;
    use crate::suites::blocks::{Blocks, Case};
    use crate::suites::evaluate::{self, Evaluate};
    use crate::suites::marks::Marks;
    use crate::suites::source::Source;

    fn lines(raw: bool, words: usize, text: &[u8]) -> (String, String) {
        let case = Case {
            raw,
            words,
            text: text.to_vec(),
        };
        (Blocks.input_line(&case), answer_line(&Blocks, &case))
    }

    #[test]
    fn lines_of_tables_have_the_stated_form() {
        let case = evaluate::Case {
            source: Source::of_words(vec![43, 1, 0, 0, 0, 0, 0, 0]),
            t: -1,
            duration: 10,
        };
        let zeros = " 00000000".repeat(6);
        let words = format!("ffffffff 0000000a 0000002b 00000001{zeros} ");
        assert_eq!(Evaluate.input_line(&case), format!("E {words}"));
        assert_eq!(Marks.input_line(&case), format!("M {words}"));
        let state = answer_line(&Evaluate, &case);
        assert!(state.starts_with("0000000000000000 3f800000 00000000 "));
        assert_eq!(state.len(), 16 + 9 * 92);
        assert_eq!(answer_line(&Marks, &case), "0000000100000000");
        let far = evaluate::Case {
            t: i32::MAX,
            ..case
        };
        let untouched = " a5a5a5a5".repeat(92);
        let refused = format!("0006000000000000{untouched}");
        assert_eq!(answer_line(&Evaluate, &far), refused);
    }

    #[test]
    fn lines_have_the_stated_form() {
        let (input, answer) = lines(false, 9, b"\\i1");
        assert_eq!(input, "O 00000009 5c6931");
        let words = "0000002b 00000001 00000000 00000000 00000000 00000000 00000000 00000000";
        assert_eq!(answer, format!("0000000000000001 {words} a5a5a5a5"));
        let (input, answer) = lines(true, 1, b"{\\i1}");
        assert_eq!(input, "R 00000001 7b5c69317d");
        assert_eq!(answer, "0009000000000001 a5a5a5a5");
        assert_eq!(
            lines(false, 0, b""),
            ("O 00000000 ".into(), "0000000000000000".into())
        );
        assert_eq!(line("Lp", &[0x3F80_0000, 10], b""), "Lp 3f800000 0000000a ");
        assert_eq!(line('C', &[], b"2,m"), "C 322c6d");
    }
}
