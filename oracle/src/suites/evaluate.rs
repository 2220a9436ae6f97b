//! Evaluation against the Rust.

use super::instants;
use super::source::Source;
use crate::answer::state::{STATE_WORDS, with_named_bytes, words};
use crate::built::animate::{CueAnimation, RenderState};
use crate::generate::corners::DURATIONS;
use crate::generate::table::instant;
use crate::library::hannuvel_evaluate_at;
use crate::random::Random;
use crate::rule::marks::around;
use crate::rule::{opacity, refusal};
use crate::sample::{Sampled, line, short_sample};
use crate::shrink::Cases;
use crate::suite::{Answer, Suite};

pub struct Evaluate;

/// A table, an instant and a duration.
#[derive(Clone)]
pub struct Case {
    pub source: Source,
    pub t: i32,
    pub duration: i32,
}

impl Case {
    pub fn random(random: &mut Random) -> Case {
        let source = Source::random(random);
        let duration = if random.one_in(4) {
            *random.pick(&DURATIONS)
        } else {
            instant(random, &source.words)
        };
        Case {
            t: instant_of(random, &source.words, duration),
            duration,
            source,
        }
    }

    /// Refusals 5 and 6.
    pub fn refused(&self) -> Option<u64> {
        let far = || refusal::instants(&[self.t, self.duration]);
        self.source.refused().or_else(far)
    }

    /// The state of the Rust, with strings spelled by their parts.
    pub fn state(&self) -> RenderState {
        let cue = self.source.cue();
        let state = cue.evaluate_at(self.t, self.duration);
        opacity::check(&cue, &state);
        self.check_names(&state);
        state
    }

    /// Beside the Rust the bytes that the parts name are compared.
    fn check_names(&self, state: &RenderState) {
        let (Some(tags), Some(text)) = (self.source.rust_tags(), &self.source.text) else {
            return;
        };
        let own = CueAnimation { tags }.evaluate_at(self.t, self.duration);
        let named = with_named_bytes(state, text);
        // The debug form tells -0 from 0 and takes all NaNs as one.
        let same = format!("{own:?}") == format!("{named:?}");
        assert!(
            same,
            "the parts name other bytes than the Rust has: {}",
            self.describe()
        );
    }

    pub fn describe(&self) -> String {
        format!(
            "at {} of {}, {}",
            self.t,
            self.duration,
            self.source.describe()
        )
    }

    /// Two words and the table's.
    pub fn words(&self) -> Vec<u32> {
        let mut words = vec![self.t as u32, self.duration as u32];
        words.extend(&self.source.words);
        words
    }

    pub fn simpler(&self) -> Cases<'_, Case> {
        let sources = self.source.simpler().map(|source| Case {
            source,
            ..self.clone()
        });
        let instants = simpler_instants(self.t).map(|t| Case { t, ..self.clone() });
        let durations = simpler_instants(self.duration).map(|duration| Case {
            duration,
            ..self.clone()
        });
        Box::new(sources.chain(instants).chain(durations))
    }
}

/// Half of the instants stand at or beside a mark, or between marks.
fn instant_of(random: &mut Random, words: &[u32], duration: i32) -> i32 {
    let marks = around(words, duration);
    if marks.is_empty() || random.one_in(2) {
        return instant(random, words);
    }
    *random.pick(&marks) as i32
}

fn simpler_instants(instant: i32) -> impl Iterator<Item = i32> {
    let rank = |instant: i32| (instant.unsigned_abs(), instant < 0);
    let simpler = [0, 1, 100, 1_000, instant / 2, instant - instant.signum()].into_iter();
    simpler.filter(move |&new| rank(new) < rank(instant))
}

impl Suite for Evaluate {
    type Case = Case;

    const NAME: &'static str = "evaluate";

    fn absent(&self) -> Vec<&'static str> {
        let absent = hannuvel_evaluate_at().is_none();
        absent
            .then_some("hannuvel_evaluate_at")
            .into_iter()
            .collect()
    }

    fn fixed(&self) -> Cases<'_, Case> {
        Box::new(instants::cases())
    }

    fn random(&self, random: &mut Random) -> Case {
        Case::random(random)
    }

    fn answer(&self, case: &Case) -> Answer {
        match case.refused() {
            Some(result) => Answer::of(result),
            None => Answer {
                result: refusal::answered(0, 0),
                written: words(&case.state()),
            },
        }
    }

    fn lent_words(&self, _: &Case) -> usize {
        STATE_WORDS
    }

    fn call(&self, case: &Case, lent: &mut [u32]) -> u64 {
        let function = hannuvel_evaluate_at().expect("absent functions are reported before a run");
        let table = &case.source.words;
        // SAFETY: the pointers and lengths are those of slices that outlive the call.
        unsafe {
            function(
                table.as_ptr(),
                table.len(),
                case.t,
                case.duration,
                lent.as_mut_ptr(),
            )
        }
    }

    fn describe(&self, case: &Case) -> String {
        case.describe()
    }

    fn simpler<'a>(&self, case: &'a Case) -> Cases<'a, Case> {
        case.simpler()
    }
}

impl Sampled for Evaluate {
    fn input_line(&self, case: &Case) -> String {
        line('E', &case.words(), b"")
    }

    fn sample(&self, random: &mut Random) -> Case {
        short_sample(self, random, |case| case.source.words.len())
    }
}

#[cfg(test)]
mod tests {
    use super::*;

    fn at(table: &[[u32; 8]], t: i32) -> Vec<u32> {
        let source = Source {
            words: table.concat(),
            text: None,
        };
        let case = Case {
            source,
            t,
            duration: 2_000,
        };
        Evaluate.answer(&case).written
    }

    #[test]
    fn the_sheet_is_evaluated() {
        let size = |value: f32| [10, value.to_bits(), 0, 0, 0, 0, 0, 0];
        let t = |accel: f32| [49, 1, 0, 1_000, accel.to_bits(), 1, 0, 0];
        let size_at =
            |accel, time| f32::from_bits(at(&[size(20.0), t(accel), size(40.0)], time)[23]);
        assert_eq!(
            [0, 500, 1_000].map(|time| size_at(1.0, time)),
            [20.0, 30.0, 40.0]
        );
        assert_eq!(size_at(2.0, 500), 25.0);
        assert_eq!(size_at(0.5, 250), 30.0);
        assert_eq!(size_at(1.1, 300).to_bits(), 0x41CA_ACEF);
    }

    #[test]
    fn a_refusal_writes_nothing_and_a_state_92_words() {
        for case in Evaluate.fixed() {
            let answer = Evaluate.answer(&case);
            let words = if answer.result == 0 { STATE_WORDS } else { 0 };
            assert_eq!(answer.written.len(), words, "{}", case.describe());
        }
    }

    #[test]
    fn random_cases_answer_and_some_are_refused() {
        let mut numbers = [0; 10];
        for case in 0..20_000 {
            let case = Case::random(&mut Random::new(1, case));
            numbers[(Evaluate.answer(&case).result >> 48) as usize] += 1;
        }
        assert!(
            numbers[0] > 12_000 && numbers[5] > 500 && numbers[6] > 500,
            "{numbers:?}"
        );
    }
}
