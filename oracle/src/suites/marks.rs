//! The next-mark call against the rule (the Rust has none).

use super::evaluate::Case;
use super::instants;
use crate::library::hannuvel_next_mark;
use crate::random::Random;
use crate::rule::marks::next_mark;
use crate::rule::refusal;
use crate::rule::walk::wrong;
use crate::sample::{Sampled, line, short_sample};
use crate::shrink::Cases;
use crate::suite::{Answer, Suite};

pub struct Marks;

/// So many milliseconds are walked at most before the next mark.
const STEPS: usize = 20;

fn mark(case: &Case) -> u64 {
    let next = next_mark(&case.source.words, case.t, case.duration);
    check(case, next);
    match next {
        Some(mark) => {
            let mark = i32::try_from(mark).expect("a mark after an instant in range fits");
            refusal::answered(0, mark as u32)
        }
        None => refusal::answered(1, 0),
    }
}

/// The walk over the milliseconds and the Rust's states.
fn check(case: &Case, next: Option<i64>) {
    let wrong = wrong(&case.source.cue(), case.t, case.duration, next, STEPS);
    assert_eq!(wrong, None, "{next:?} {}", case.describe());
}

impl Suite for Marks {
    type Case = Case;

    const NAME: &'static str = "marks";

    fn absent(&self) -> Vec<&'static str> {
        let absent = hannuvel_next_mark().is_none();
        absent.then_some("hannuvel_next_mark").into_iter().collect()
    }

    fn fixed(&self) -> Cases<'_, Case> {
        Box::new(instants::cases().chain(instants::walked()))
    }

    fn random(&self, random: &mut Random) -> Case {
        Case::random(random)
    }

    fn answer(&self, case: &Case) -> Answer {
        Answer::of(case.refused().unwrap_or_else(|| mark(case)))
    }

    fn lent_words(&self, _: &Case) -> usize {
        0
    }

    fn call(&self, case: &Case, _: &mut [u32]) -> u64 {
        let function = hannuvel_next_mark().expect("absent functions are reported before a run");
        let table = &case.source.words;
        // SAFETY: the pointer and length are those of a slice that outlives the call.
        unsafe { function(table.as_ptr(), table.len(), case.t, case.duration) }
    }

    fn describe(&self, case: &Case) -> String {
        case.describe()
    }

    fn simpler<'a>(&self, case: &'a Case) -> Cases<'a, Case> {
        case.simpler()
    }
}

impl Sampled for Marks {
    fn input_line(&self, case: &Case) -> String {
        line('M', &case.words(), b"")
    }

    fn sample(&self, random: &mut Random) -> Case {
        short_sample(self, random, |case| case.source.words.len())
    }
}

#[cfg(test)]
mod tests {
    use super::*;
    use crate::suites::source::Source;

    fn after(table: &[u32], t: i32, duration: i32) -> u64 {
        let source = Source::of_words(table.to_vec());
        let case = Case {
            source,
            t,
            duration,
        };
        Marks.answer(&case).result
    }

    #[test]
    fn marks_are_packed_as_the_call_packs_them() {
        let jump = |t: i32| [49, 1, t as u32, t as u32, 0, 0, 0, 0];
        assert_eq!(after(&jump(-7), -8, 0), 0xFFFF_FFF9);
        assert_eq!(after(&jump(-7), -7, 0), 1 << 32);
        assert_eq!(after(&[], 0, 1_000_000_001), 6 << 48);
        assert_eq!(after(&[0; 9], i32::MIN, 0), 5 << 48);
    }

    #[test]
    fn a_mark_may_lie_beyond_the_range_of_instants() {
        let fad = [1, i32::MAX as u32, 0, 0, 0, 0, 0, 0];
        assert_eq!(after(&fad, 1_000_000_000, 0), 1_000_000_001);
    }

    #[test]
    fn the_fixed_cases_pass_the_walk() {
        let answers = Marks.fixed().map(|case| Marks.answer(&case).result);
        let marks = answers.filter(|result| result >> 32 == 0).count();
        assert!(marks > 20_000, "{marks}");
    }
}
