//! The progress of a span against the Rust; starts and ends above 2,147,483,647, which go wrong
//! there, against the rule alone (01, Karaoke).

use crate::built::animate::{KaraokeKind, KaraokeSpan};
use crate::library::hannuvel_progress;
use crate::random::Random;
use crate::rule::refusal;
use crate::sample::{Sampled, line};
use crate::shrink::Cases;
use crate::suite::{Answer, Suite};

pub struct Progress;

#[derive(Clone, Debug)]
pub struct Case {
    pub start: u32,
    pub end: u32,
    pub t: i32,
}

/// Starts and ends compare as whole numbers.
fn rule(case: &Case) -> f32 {
    let (start, end, t) = (
        i64::from(case.start),
        i64::from(case.end),
        i64::from(case.t),
    );
    if t <= start {
        0.0
    } else if t >= end || end <= start {
        1.0
    } else {
        (t - start) as f32 / (end - start) as f32
    }
}

fn rust(case: &Case) -> f32 {
    let span = KaraokeSpan {
        kind: KaraokeKind::Fill,
        start_ms: case.start,
        end_ms: case.end,
    };
    span.progress(case.t)
}

fn progress(case: &Case) -> u32 {
    let progress = rule(case);
    let known = case.start <= i32::MAX as u32 && case.end <= i32::MAX as u32;
    assert!(
        !known || rust(case) == progress,
        "the rule is not the Rust: {case:?}"
    );
    progress.to_bits()
}

const TIMES: &[u32] = &[
    0,
    1,
    2,
    999,
    1_000,
    16_777_215,
    16_777_217,
    999_999_999,
    1_000_000_000,
    1_000_000_001,
    2_147_483_647,
    2_147_483_648,
    4_294_967_295,
];

fn time(random: &mut Random) -> u32 {
    match random.below(4) {
        0 => *random.pick(TIMES),
        1 => random.below(1_100_000_000) as u32,
        _ => random.below(5_000) as u32,
    }
}

impl Suite for Progress {
    type Case = Case;

    const NAME: &'static str = "progress";

    fn absent(&self) -> Vec<&'static str> {
        let absent = hannuvel_progress().is_none();
        absent.then_some("hannuvel_progress").into_iter().collect()
    }

    fn fixed(&self) -> Cases<'_, Case> {
        Box::new(TIMES.iter().flat_map(|&start| {
            TIMES.iter().flat_map(move |&end| {
                TIMES.iter().flat_map(move |&time| {
                    let both = [time as i32, (time as i32).wrapping_neg()];
                    both.map(|t| Case { start, end, t })
                })
            })
        }))
    }

    fn random(&self, random: &mut Random) -> Case {
        let (start, end) = (time(random), time(random));
        let t = match random.below(6) {
            0 => random.word() as i32,
            1 => *random.pick(&[start, end]) as i32,
            2 => -(time(random) as i64) as i32,
            _ => time(random) as i32,
        };
        Case { start, end, t }
    }

    fn answer(&self, case: &Case) -> Answer {
        let answered = || refusal::answered(0, progress(case));
        Answer::of(refusal::instants(&[case.t]).unwrap_or_else(answered))
    }

    fn lent_words(&self, _: &Case) -> usize {
        0
    }

    fn call(&self, case: &Case, _: &mut [u32]) -> u64 {
        let function = hannuvel_progress().expect("absent functions are reported before a run");
        // SAFETY: the function takes and gives numbers alone.
        unsafe { function(case.start, case.end, case.t) }
    }

    fn describe(&self, case: &Case) -> String {
        format!("start {}, end {}, at {}", case.start, case.end, case.t)
    }

    fn simpler<'a>(&self, case: &'a Case) -> Cases<'a, Case> {
        let Case { start, end, t } = *case;
        let starts = [start / 2, start.saturating_sub(1)]
            .into_iter()
            .filter(move |&n| n < start);
        let ends = [end / 2, end.saturating_sub(1)]
            .into_iter()
            .filter(move |&n| n < end);
        let nearer = [t / 2, t - t.signum()].into_iter().filter(move |&n| n != t);
        Box::new(
            starts
                .map(move |start| Case { start, end, t })
                .chain(ends.map(move |end| Case { start, end, t }))
                .chain(nearer.map(move |t| Case { start, end, t })),
        )
    }
}

impl Sampled for Progress {
    fn input_line(&self, case: &Case) -> String {
        line('G', &[case.start, case.end, case.t as u32], b"")
    }

    fn sample(&self, random: &mut Random) -> Case {
        self.random(random)
    }
}
