//! The clip argument's splitter against the Rust.

use crate::built::drawing::split_clip_arg;
use crate::generate::drawing::clip_argument;
use crate::generate::exhaustive::texts;
use crate::generate::size::long_text;
use crate::generate::text::{damage, noise};
use crate::hex::show_text;
use crate::library::hannuvel_split_clip_arg;
use crate::random::Random;
use crate::rule::numeral::ascii;
use crate::rule::refusal;
use crate::sample::{Sampled, line, short_sample};
use crate::shrink::{Cases, simpler_texts};
use crate::suite::{Answer, Suite};

pub struct Clips;

const PIECES: &[&str] = &[" ", "\x0b", ",", "0", "2", "+", "m", "4294967295"];

/// The scale, and where the rest begins in the text.
fn split(text: &[u8]) -> u64 {
    let (scale, rest) = split_clip_arg(ascii(text));
    let offset = rest.as_ptr() as usize - text.as_ptr() as usize;
    assert_eq!(
        offset + rest.len(),
        text.len(),
        "the rest reaches to the end"
    );
    refusal::answered(offset, scale)
}

fn argument(random: &mut Random) -> Vec<u8> {
    let mut text = Vec::new();
    clip_argument(random, &mut text);
    text
}

impl Suite for Clips {
    type Case = Vec<u8>;

    const NAME: &'static str = "clips";

    fn absent(&self) -> Vec<&'static str> {
        let absent = hannuvel_split_clip_arg().is_none();
        absent
            .then_some("hannuvel_split_clip_arg")
            .into_iter()
            .collect()
    }

    fn fixed(&self) -> Cases<'_, Vec<u8>> {
        Box::new(texts(PIECES, 6))
    }

    fn random(&self, random: &mut Random) -> Vec<u8> {
        if random.one_in(1_000) {
            let blank = random.one_in(2);
            return long_text(random, |random| {
                if blank {
                    b" ".to_vec()
                } else {
                    argument(random)
                }
            });
        }
        let mut text = argument(random);
        if random.one_in(20) {
            text.clear();
            noise(random, &mut text, 12);
        }
        if random.one_in(4) {
            damage(random, &mut text);
        }
        text
    }

    fn answer(&self, text: &Vec<u8>) -> Answer {
        Answer::of(refusal::text(text).unwrap_or_else(|| split(text)))
    }

    fn lent_words(&self, _: &Vec<u8>) -> usize {
        0
    }

    fn call(&self, text: &Vec<u8>, _: &mut [u32]) -> u64 {
        let function =
            hannuvel_split_clip_arg().expect("absent functions are reported before a run");
        // SAFETY: the pointer and length are those of a slice that outlives the call.
        unsafe { function(text.as_ptr(), text.len()) }
    }

    fn describe(&self, text: &Vec<u8>) -> String {
        format!("split_clip_arg {}", show_text(text))
    }

    fn simpler<'a>(&self, text: &'a Vec<u8>) -> Cases<'a, Vec<u8>> {
        Box::new(simpler_texts(text))
    }
}

impl Sampled for Clips {
    fn input_line(&self, text: &Vec<u8>) -> String {
        line('C', &[], text)
    }

    fn sample(&self, random: &mut Random) -> Vec<u8> {
        short_sample(self, random, Vec::len)
    }
}
