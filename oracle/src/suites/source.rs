//! Tables for the calls that take one: read from a text, made up, or damaged.

use super::blocks;
use crate::answer::decode::tags;
use crate::built::animate::{AnimatedTag, CueAnimation, parse_overrides};
use crate::generate::block::{block, nested_block};
use crate::generate::corners::corner;
use crate::generate::table::{damage, of_size, well_formed};
use crate::hex::{hex_words, show_text};
use crate::random::Random;
use crate::rule::numeral::ascii;
use crate::rule::refusal::{self, MOST_PLACES};
use crate::rule::table::{TRANSITION, fault};
use crate::shrink::{Cases, simpler_lists, simpler_texts};

const WIDTH: usize = 8;

#[derive(Clone)]
pub struct Source {
    pub words: Vec<u32>,
    /// The text that was read into the table, if one was.
    pub text: Option<Vec<u8>>,
}

impl Source {
    /// The table of a text; `None` where reading it is refused.
    pub fn of_text(text: Vec<u8>) -> Option<Source> {
        if refusal::text(&text).is_some() {
            return None;
        }
        let case = blocks::Case {
            raw: false,
            words: WIDTH * MOST_PLACES,
            text,
        };
        let answer = blocks::read(&case);
        (answer.result >> 48 == 0).then_some(Source {
            words: answer.written,
            text: Some(case.text),
        })
    }

    pub fn of_words(words: Vec<u32>) -> Source {
        Source { words, text: None }
    }

    pub fn random(random: &mut Random) -> Source {
        if random.one_in(2) {
            let text = match random.below(16) {
                0 => corner(random),
                1..=4 => nested_block(random),
                _ => block(random),
            };
            if let Some(source) = Source::of_text(text) {
                return source;
            }
        }
        let mut words = match random.below(400) {
            0 => {
                let count = random.between(MOST_PLACES - 1, MOST_PLACES + 1);
                of_size(random, count)
            }
            _ => well_formed(random),
        };
        if random.one_in(4) {
            damage(random, &mut words);
        }
        Source::of_words(words)
    }

    /// The tags of a well-formed table, with strings spelled by their parts.
    pub fn cue(&self) -> CueAnimation {
        CueAnimation {
            tags: tags(&self.words),
        }
    }

    /// The tags as the Rust reads them, with their own strings.
    pub fn rust_tags(&self) -> Option<Vec<AnimatedTag>> {
        let text = self.text.as_ref()?;
        let mut tags = Vec::new();
        parse_overrides(ascii(text), &mut tags);
        Some(tags)
    }

    /// Refusal 5.
    pub fn refused(&self) -> Option<u64> {
        fault(&self.words).map(|place| refusal::refused(5, place))
    }

    pub fn describe(&self) -> String {
        match &self.text {
            Some(text) => format!("table of {}", show_text(text)),
            None => format!("table{}", hex_words(&self.words)),
        }
    }

    pub fn simpler(&self) -> Cases<'_, Source> {
        match &self.text {
            Some(text) => Box::new(simpler_texts(text).filter_map(Source::of_text)),
            None => Box::new(self.simpler_tables().map(Source::of_words)),
        }
    }

    /// Records taken out with the counts of the T over them put right, then words made 0.
    fn simpler_tables(&self) -> impl Iterator<Item = Vec<u32>> + '_ {
        let words = &self.words;
        let records: Vec<usize> = (0..words.len() / WIDTH).collect();
        let kept: Vec<Vec<usize>> = simpler_lists(&records).collect();
        let fewer = kept.into_iter().map(move |kept| with_records(words, &kept));
        let shorter =
            (!words.len().is_multiple_of(WIDTH)).then(|| words[..words.len() - 1].to_vec());
        let zeroed = (0..words.len()).filter(|&place| words[place] != 0);
        let plainer = zeroed.map(move |place| {
            let mut plain = words.clone();
            plain[place] = 0;
            plain
        });
        fewer.chain(shorter).chain(plainer)
    }
}

/// The table with the given records alone; each T counts those of its records that are left.
fn with_records(words: &[u32], kept: &[usize]) -> Vec<u32> {
    let mut table = Vec::new();
    for &place in kept {
        let start = table.len();
        table.extend_from_slice(&words[WIDTH * place..WIDTH * (place + 1)]);
        if words[WIDTH * place] == TRANSITION {
            let end = (place + 1).saturating_add(words[WIDTH * place + 5] as usize);
            let lost = (place + 1..end.min(words.len() / WIDTH))
                .filter(|inner| kept.binary_search(inner).is_err())
                .count();
            table[start + 5] -= lost as u32;
        }
    }
    table.extend_from_slice(&words[words.len() - words.len() % WIDTH..]);
    table
}

#[cfg(test)]
mod tests {
    use super::*;

    #[test]
    fn counts_follow_the_records_taken_out() {
        let source = Source::of_text(br"\t(\b1\t(\i1\u1)\s1)\b0".to_vec()).unwrap();
        let table = with_records(&source.words, &[0, 2, 4, 6]);
        let kinds: Vec<u32> = table.iter().step_by(8).copied().collect();
        assert_eq!(kinds, [49, 49, 44, 42]);
        assert_eq!((table[5], table[13]), (2, 1));
        assert_eq!(fault(&table), None);
    }

    #[test]
    fn refused_texts_are_no_source() {
        assert!(Source::of_text(b"\\fs1e9".to_vec()).is_none());
        assert!(Source::of_text(vec![200]).is_none());
        assert_eq!(Source::of_text(b"\\fs1".to_vec()).unwrap().words.len(), 8);
    }
}
