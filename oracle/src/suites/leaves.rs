//! The leaves against the Rust.

use crate::generate::exhaustive::texts;
use crate::generate::exponents;
use crate::generate::number::{PATTERNS, hexadecimal, numeral, pattern, whole};
use crate::generate::text::{damage, noise};
use crate::hex::show_text;
use crate::leaves::{LIST_WORDS, Leaf, Work, leaves};
use crate::random::Random;
use crate::sample::{Sampled, line};
use crate::shrink::{Cases, simpler_sizes, simpler_texts};
use crate::suite::{Answer, Suite};

pub struct Leaves {
    leaves: Vec<Leaf>,
}

#[derive(Clone)]
pub struct Case {
    /// The leaf's place in the list of leaves.
    leaf: usize,
    input: Input,
}

#[derive(Clone)]
enum Input {
    Text(Vec<u8>),
    /// A text and how many words are lent.
    List(Vec<u8>, usize),
    Words([u32; 3]),
}

/// Pieces for all short texts of a text or list leaf, and how many of them make the longest text.
fn alphabet(letter: char) -> (&'static [&'static str], u32) {
    match letter {
        'N' => (&["+", "-", ".", "0", "1", "9", "e", "E", " "], 7),
        'I' => (
            &["+", "-", "0", "1", "9", " ", "\x0b", "2147483647", "a"],
            6,
        ),
        'H' => (&["+", "-", "0", "9", "a", "F", "g", " ", "x"], 6),
        'A' | 'C' => (&["&", "H", "h", "0", "x", "X", "1", "f", "+", " "], 6),
        'T' => (&[" ", "\t", "\x0b", "\x0c", "\x1c", "\x08", "a"], 6),
        'P' => (&["(", ")", "\\", "a"], 9),
        'F' => (
            &[",", "+", "-", ".", "0", "1", "e", " ", "nan", "123456789"],
            6,
        ),
        'G' => (&[",", "+", "-", "0", "1", " ", "2147483648", "a"], 6),
        _ => unreachable!("only text and list leaves have an alphabet"),
    }
}

/// Every spelling of the words that f32 reading knows besides numerals.
fn word_spellings() -> impl Iterator<Item = Vec<u8>> {
    let words = ["nan", "inf", "infinity", "infinit", "na"];
    words.into_iter().flat_map(|word| {
        ["", "+", "-", "--", " -"]
            .into_iter()
            .flat_map(move |sign| {
                (0..1u32 << word.len()).map(move |upper| spelled(sign, word, upper))
            })
    })
}

fn spelled(sign: &str, word: &str, upper: u32) -> Vec<u8> {
    let letters = word.bytes().enumerate().map(|(place, byte)| {
        let is_upper = upper >> place & 1 == 1;
        if is_upper {
            byte.to_ascii_uppercase()
        } else {
            byte
        }
    });
    sign.bytes().chain(letters).collect()
}

impl Leaves {
    pub fn new() -> Self {
        Leaves { leaves: leaves() }
    }

    fn fixed_of(&self, leaf: usize) -> Cases<'_, Case> {
        let case = move |input| Case { leaf, input };
        let letter = self.leaves[leaf].letter;
        match &self.leaves[leaf].work {
            Work::Text(..) => {
                let (pieces, most) = alphabet(letter);
                let shifted = (letter == 'N').then(exponents::numerals);
                let all = texts(pieces, most).chain(word_spellings());
                let all = all.chain(shifted.into_iter().flatten());
                Box::new(all.map(move |text| case(Input::Text(text))))
            }
            Work::List(..) => {
                let (pieces, most) = alphabet(letter);
                let all = texts(pieces, most).chain(word_spellings());
                Box::new(all.map(move |text| case(Input::List(text, LIST_WORDS))))
            }
            Work::Number(number, _) => {
                let all = crossed(number.arity());
                Box::new(all.map(move |words| case(Input::Words(words))))
            }
        }
    }
}

/// All boundary patterns in each of the first `arity` places.
fn crossed(arity: usize) -> impl Iterator<Item = [u32; 3]> {
    let count = PATTERNS.len();
    (0..count.pow(arity as u32)).map(move |number| {
        let digit = |place: u32| PATTERNS[number / count.pow(place) % count];
        let mut words = [0; 3];
        for (place, word) in words.iter_mut().enumerate().take(arity) {
            *word = digit(place as u32);
        }
        words
    })
}

/// A text for the leaf, of ASCII bytes alone.
fn random_text(letter: char, random: &mut Random) -> Vec<u8> {
    let mut text = Vec::new();
    match letter {
        'N' => numeral(random, &mut text),
        'I' => whole(random, &mut text),
        'H' | 'A' | 'C' => hexadecimal(random, &mut text),
        'F' => list(random, &mut text, numeral),
        'G' => list(random, &mut text, whole),
        _ => noise(random, &mut text, 24),
    }
    if random.one_in(6) {
        damage(random, &mut text);
    }
    text.iter_mut().for_each(|byte| *byte &= 127);
    text
}

fn list(random: &mut Random, text: &mut Vec<u8>, part: fn(&mut Random, &mut Vec<u8>)) {
    for place in 0..random.between(1, 9) {
        if place > 0 {
            text.push(b',');
        }
        part(random, text);
    }
}

fn random_words(letter: char, random: &mut Random) -> [u32; 3] {
    let mut words = [pattern(random), pattern(random), pattern(random)];
    // Most powers have a base up to 1 and an exponent of a few digits.
    if letter == 'p' && !random.one_in(4) {
        words[0] = (random.below(0x0100_0001) as f32 / 16_777_216.0).to_bits();
        let exponent = random.below(70 * 512) as f32 / 512.0;
        words[1] = if random.one_in(4) {
            -exponent
        } else {
            exponent
        }
        .to_bits();
    }
    words
}

impl Suite for Leaves {
    type Case = Case;

    const NAME: &'static str = "leaves";

    fn absent(&self) -> Vec<&'static str> {
        let absent = self.leaves.iter().filter(|leaf| leaf.is_absent());
        absent.map(|leaf| leaf.symbol).collect()
    }

    fn fixed(&self) -> Cases<'_, Case> {
        Box::new((0..self.leaves.len()).flat_map(|leaf| self.fixed_of(leaf)))
    }

    fn random(&self, random: &mut Random) -> Case {
        let leaf = self.random_leaf(random);
        let letter = self.leaves[leaf].letter;
        let input = match &self.leaves[leaf].work {
            Work::Text(..) => Input::Text(random_text(letter, random)),
            Work::List(..) => {
                let words = *random.pick(&[LIST_WORDS, LIST_WORDS, 0, 7, 9, 20]);
                Input::List(random_text(letter, random), words)
            }
            Work::Number(..) => Input::Words(random_words(letter, random)),
        };
        Case { leaf, input }
    }

    fn answer(&self, case: &Case) -> Answer {
        match (&self.leaves[case.leaf].work, &case.input) {
            (Work::Text(answer, _), Input::Text(text)) => Answer::of(answer(text)),
            (Work::List(answer, _), Input::List(text, words)) => {
                let (result, list) = answer(text);
                let written = if *words >= LIST_WORDS {
                    list.to_vec()
                } else {
                    Vec::new()
                };
                Answer { result, written }
            }
            (Work::Number(number, _), Input::Words(words)) => {
                Answer::of(u64::from(number.answer(*words)))
            }
            _ => unreachable!("a leaf's cases have its own kind of input"),
        }
    }

    fn lent_words(&self, case: &Case) -> usize {
        match case.input {
            Input::List(_, words) => words,
            _ => 0,
        }
    }

    fn call(&self, case: &Case, lent: &mut [u32]) -> u64 {
        // SAFETY: the pointers and lengths are those of slices that outlive the call.
        match (&self.leaves[case.leaf].work, &case.input) {
            (Work::Text(_, Some(call)), Input::Text(text)) => unsafe {
                call(text.as_ptr(), text.len())
            },
            (Work::List(_, Some(call)), Input::List(text, _)) => unsafe {
                call(text.as_ptr(), text.len(), lent.as_mut_ptr(), lent.len())
            },
            (Work::Number(_, call), Input::Words(words)) => u64::from(call.call(*words)),
            _ => unreachable!("absent functions are reported before a run"),
        }
    }

    fn describe(&self, case: &Case) -> String {
        let symbol = self.leaves[case.leaf].symbol;
        match &case.input {
            Input::Text(text) => format!("{symbol} {}", show_text(text)),
            Input::List(text, words) => format!("{symbol} {words} words {}", show_text(text)),
            Input::Words(words) => format!("{symbol} {}", self.show_words(case.leaf, words)),
        }
    }

    fn simpler<'a>(&self, case: &'a Case) -> Cases<'a, Case> {
        let leaf = case.leaf;
        match &case.input {
            Input::Text(text) => Box::new(simpler_texts(text).map(move |text| Case {
                leaf,
                input: Input::Text(text),
            })),
            Input::List(text, words) => {
                let list = move |text, words| Case {
                    leaf,
                    input: Input::List(text, words),
                };
                let sizes = simpler_sizes(*words).map(move |size| list(text.clone(), size));
                Box::new(
                    simpler_texts(text)
                        .map(move |text| list(text, *words))
                        .chain(sizes),
                )
            }
            Input::Words(words) => Box::new(simpler_words(words).map(move |words| Case {
                leaf,
                input: Input::Words(words),
            })),
        }
    }
}

/// Leaves that half of the random cases go to.
const HEAVY: &[char] = &['N', 'N', 'F', 'p'];

impl Leaves {
    fn random_leaf(&self, random: &mut Random) -> usize {
        if random.one_in(2) {
            return random.below(self.leaves.len());
        }
        let letter = random.pick(HEAVY);
        let heavy = self.leaves.iter().position(|leaf| leaf.letter == *letter);
        heavy.expect("heavy leaves are leaves")
    }

    fn arity(&self, leaf: usize) -> usize {
        match &self.leaves[leaf].work {
            Work::Number(number, _) => number.arity(),
            _ => 0,
        }
    }

    fn show_words(&self, leaf: usize, words: &[u32; 3]) -> String {
        let shown = words[..self.arity(leaf)].iter();
        let list: Vec<String> = shown
            .map(|&word| format!("{word:08X} ({:e})", f32::from_bits(word)))
            .collect();
        list.join(", ")
    }
}

/// One word replaced by a simple value, or its low bits cleared.
fn simpler_words(words: &[u32; 3]) -> impl Iterator<Item = [u32; 3]> + '_ {
    (0..3).flat_map(move |place| {
        let word = words[place];
        let cleared = (0..32).map(move |bit| word & !(1 << bit));
        let simple = [0, 0x3F80_0000, 0x3F00_0000].into_iter().chain(cleared);
        simple.filter(move |&new| new < word).map(move |new| {
            let mut simpler = *words;
            simpler[place] = new;
            simpler
        })
    })
}

impl Sampled for Leaves {
    fn input_line(&self, case: &Case) -> String {
        let name = format!("L{}", self.leaves[case.leaf].letter);
        match &case.input {
            Input::Text(text) | Input::List(text, _) => line(name, &[], text),
            Input::Words(words) => line(name, &words[..self.arity(case.leaf)], b""),
        }
    }

    fn sample(&self, random: &mut Random) -> Case {
        let mut case = self.random(random);
        if let Input::List(_, words) = &mut case.input {
            *words = LIST_WORDS;
        }
        case
    }
}
