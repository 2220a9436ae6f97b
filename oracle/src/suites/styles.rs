//! The style in force against the rule over the Rust's states (01, Style in force).

use super::evaluate;
use super::source::Source;
use crate::answer::decode::parts;
use crate::generate::size::long_text;
use crate::hex::show_text;
use crate::library::hannuvel_style_in_force;
use crate::random::Random;
use crate::rule::refusal::{answered, refused, text as refused_text};
use crate::sample::{Sampled, line, short_sample};
use crate::shrink::{Cases, simpler_texts};
use crate::suite::{Answer, Suite};

pub struct Styles;

#[derive(Clone)]
pub struct Case {
    pub evaluated: evaluate::Case,
    pub block: Vec<u8>,
    pub own: Vec<u8>,
}

/// 1 for the block, 1 for the name, 2 for the block, 2 for the name.
fn refused_texts(case: &Case) -> Option<u64> {
    let both = [refused_text(&case.block), refused_text(&case.own)];
    // The lower number first; of equal numbers the block's.
    both.into_iter().flatten().min_by_key(|result| result >> 48)
}

fn style(case: &Case) -> u64 {
    let packed = |offset: usize, length: usize| (offset * 65_536 + length) as u32;
    match case.evaluated.state().reset_to_style {
        Some(Some(name)) => {
            let [part, _] = parts(&name);
            if part.offset + part.length > case.block.len() {
                return refused(8, 0);
            }
            answered(1, packed(part.offset, part.length))
        }
        _ => answered(0, packed(0, case.own.len())),
    }
}

fn any_text(random: &mut Random) -> Vec<u8> {
    if random.one_in(200) {
        return long_text(random, |_| b"name".to_vec());
    }
    let mut text = vec![b'n'; random.below(12)];
    if random.one_in(30) && !text.is_empty() {
        let place = random.below(text.len());
        text[place] = random.between(128, 255) as u8;
    }
    text
}

/// Mostly the text that was read, or one long enough for the parts of a made-up table.
fn block(random: &mut Random, source: &Source) -> Vec<u8> {
    match &source.text {
        Some(text) if !random.one_in(8) => text.clone(),
        None if random.one_in(3) => vec![b'b'; 12_288 - random.below(2)],
        _ => any_text(random),
    }
}

impl Suite for Styles {
    type Case = Case;

    const NAME: &'static str = "styles";

    fn absent(&self) -> Vec<&'static str> {
        let absent = hannuvel_style_in_force().is_none();
        absent
            .then_some("hannuvel_style_in_force")
            .into_iter()
            .collect()
    }

    fn fixed(&self) -> Cases<'_, Case> {
        Box::new(std::iter::empty())
    }

    fn random(&self, random: &mut Random) -> Case {
        let evaluated = evaluate::Case::random(random);
        Case {
            block: block(random, &evaluated.source),
            own: any_text(random),
            evaluated,
        }
    }

    fn answer(&self, case: &Case) -> Answer {
        let refused = refused_texts(case).or_else(|| case.evaluated.refused());
        Answer::of(refused.unwrap_or_else(|| style(case)))
    }

    fn lent_words(&self, _: &Case) -> usize {
        0
    }

    fn call(&self, case: &Case, _: &mut [u32]) -> u64 {
        let function =
            hannuvel_style_in_force().expect("absent functions are reported before a run");
        let Case {
            evaluated,
            block,
            own,
        } = case;
        let table = &evaluated.source.words;
        // SAFETY: the pointers and lengths are those of slices that outlive the call.
        unsafe {
            function(
                table.as_ptr(),
                table.len(),
                evaluated.t,
                evaluated.duration,
                block.as_ptr(),
                block.len(),
                own.as_ptr(),
                own.len(),
            )
        }
    }

    fn describe(&self, case: &Case) -> String {
        let (block, own) = (show_text(&case.block), show_text(&case.own));
        format!("{}, block {block}, own {own}", case.evaluated.describe())
    }

    fn simpler<'a>(&self, case: &'a Case) -> Cases<'a, Case> {
        let evaluated = case.evaluated.simpler().map(|evaluated| Case {
            evaluated,
            ..case.clone()
        });
        let blocks = simpler_texts(&case.block).map(|block| Case {
            block,
            ..case.clone()
        });
        let owns = simpler_texts(&case.own).map(|own| Case {
            own,
            ..case.clone()
        });
        Box::new(evaluated.chain(blocks).chain(owns))
    }
}

impl Sampled for Styles {
    fn input_line(&self, case: &Case) -> String {
        let mut words = vec![case.block.len() as u32];
        words.extend(case.evaluated.words());
        line('S', &words, &[&case.block[..], &case.own].concat())
    }

    fn sample(&self, random: &mut Random) -> Case {
        short_sample(self, random, |case| {
            case.evaluated.source.words.len() + case.block.len() + case.own.len()
        })
    }
}

#[cfg(test)]
mod tests {
    use super::*;
    use std::collections::HashSet;

    #[test]
    fn every_answer_comes_up() {
        let numbers: HashSet<u64> = (0..20_000)
            .map(|case| {
                Styles
                    .answer(&Styles.random(&mut Random::new(1, case)))
                    .result
                    >> 48
            })
            .collect();
        assert_eq!(numbers, HashSet::from([0, 1, 2, 5, 6, 8]));
        let extras: HashSet<u64> = (0..20_000)
            .map(|case| {
                Styles
                    .answer(&Styles.random(&mut Random::new(2, case)))
                    .result
                    >> 32
            })
            .collect();
        assert!(extras.contains(&0) && extras.contains(&1));
    }
}
