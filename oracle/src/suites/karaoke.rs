//! Karaoke spans against the Rust.

use super::source::Source;
use crate::answer::record::karaoke_kind;
use crate::generate::size::lent_words;
use crate::library::hannuvel_karaoke_spans;
use crate::random::Random;
use crate::rule::refusal;
use crate::sample::{Sampled, line, short_sample};
use crate::shrink::{Cases, simpler_sizes};
use crate::suite::{Answer, Suite};

/// Words of a span: kind, start, end.
const SPAN: usize = 3;

pub struct Karaoke;

#[derive(Clone)]
pub struct Case {
    pub source: Source,
    pub words: usize,
}

fn spans(source: &Source) -> Vec<u32> {
    let spans = source.cue().karaoke_spans();
    let words = spans
        .iter()
        .map(|span| [karaoke_kind(span.kind), span.start_ms, span.end_ms]);
    words.flatten().collect()
}

/// A table with more karaoke records than chance gives, and long ones among them.
fn source(random: &mut Random) -> Source {
    let mut source = Source::random(random);
    if source.text.is_none() && random.one_in(2) {
        for _ in 0..random.below(8) {
            let cs = *random.pick(&[
                0,
                1,
                50,
                429_496_729,
                429_496_730,
                999_999_999,
                1_000_000_000,
            ]);
            let kind = random.below(3) as u32;
            source.words.extend([46, kind, cs, 0, 0, 0, 0, 0]);
        }
    }
    source
}

impl Suite for Karaoke {
    type Case = Case;

    const NAME: &'static str = "karaoke";

    fn absent(&self) -> Vec<&'static str> {
        let absent = hannuvel_karaoke_spans().is_none();
        absent
            .then_some("hannuvel_karaoke_spans")
            .into_iter()
            .collect()
    }

    fn fixed(&self) -> Cases<'_, Case> {
        Box::new(std::iter::empty())
    }

    fn random(&self, random: &mut Random) -> Case {
        let source = source(random);
        let needed = match source.refused() {
            Some(_) => 2,
            None => spans(&source).len() / SPAN,
        };
        let words = lent_words(random, needed, SPAN);
        Case { source, words }
    }

    fn answer(&self, case: &Case) -> Answer {
        if let Some(result) = case.source.refused() {
            return Answer::of(result);
        }
        let written = spans(&case.source);
        let count = written.len() / SPAN;
        match refusal::space(count, case.words, SPAN) {
            Some(result) => Answer::of(result),
            None => Answer {
                result: refusal::answered(0, count as u32),
                written,
            },
        }
    }

    fn lent_words(&self, case: &Case) -> usize {
        case.words
    }

    fn call(&self, case: &Case, lent: &mut [u32]) -> u64 {
        let function =
            hannuvel_karaoke_spans().expect("absent functions are reported before a run");
        let table = &case.source.words;
        // SAFETY: the pointers and lengths are those of slices that outlive the call.
        unsafe { function(table.as_ptr(), table.len(), lent.as_mut_ptr(), lent.len()) }
    }

    fn describe(&self, case: &Case) -> String {
        format!("{} span words, {}", case.words, case.source.describe())
    }

    fn simpler<'a>(&self, case: &'a Case) -> Cases<'a, Case> {
        let sources = case.source.simpler().map(|source| Case {
            source,
            ..case.clone()
        });
        let sizes = simpler_sizes(case.words).map(|words| Case {
            words,
            ..case.clone()
        });
        Box::new(sources.chain(sizes))
    }
}

impl Sampled for Karaoke {
    fn input_line(&self, case: &Case) -> String {
        let mut words = vec![case.words as u32];
        words.extend(&case.source.words);
        line('K', &words, b"")
    }

    fn sample(&self, random: &mut Random) -> Case {
        short_sample(self, random, |case| case.source.words.len() + case.words)
    }
}

#[cfg(test)]
mod tests {
    use super::*;

    #[test]
    fn sums_saturate() {
        let words = [
            [46, 1, 1_000_000_000, 0, 0, 0, 0, 0],
            [46, 0, 1, 0, 0, 0, 0, 0],
        ]
        .concat();
        let source = Source { words, text: None };
        assert_eq!(spans(&source), [1, 0, u32::MAX, 0, u32::MAX, u32::MAX]);
    }
}
