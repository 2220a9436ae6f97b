//! The fixed cases of the calls that take a table, an instant and a duration.

use super::evaluate::Case;
use super::source::Source;
use crate::generate::corners::{DURATIONS, accelerated, blends, fades, fads, short_texts, texts};
use crate::generate::limits::{faulty_records, faulty_tables, good_tables};
use crate::rule::marks::around;
use crate::rule::refusal::FARTHEST;
use crate::rule::table::has_transition;

/// Instants beyond the range, at its ends, and around 0.
const INSTANTS: [i32; 9] = [
    i32::MIN,
    -1_000_000_001,
    -1_000_000_000,
    -1,
    0,
    1,
    1_000_000_000,
    1_000_000_001,
    i32::MAX,
];

/// Lines at every instant around their marks, then tables at their limits and beyond.
pub fn cases() -> impl Iterator<Item = Case> {
    lines()
        .chain(single_tags())
        .chain(opacities())
        .chain(accelerations())
        .chain(limits())
        .chain(faults())
}

/// Short lines at every millisecond, from before their start to behind their last mark.
pub fn walked() -> impl Iterator<Item = Case> {
    short_texts().flat_map(|text| at_every_millisecond(text, &[-3, 0, 1, 2, 40, 60]))
}

/// Opacities that \t blends, at every millisecond.
fn opacities() -> impl Iterator<Item = Case> {
    blends().flat_map(|text| at_every_millisecond(text, &[40, 61]))
}

fn at_every_millisecond(text: Vec<u8>, durations: &[i32]) -> impl Iterator<Item = Case> {
    let source = Source::of_text(text).expect("the texts of lines are read");
    durations.iter().flat_map(move |&duration| {
        let source = source.clone();
        (-6..80).map(move |t| Case {
            source: source.clone(),
            t,
            duration,
        })
    })
}

/// The texts of lines at every duration.
fn lines() -> impl Iterator<Item = Case> {
    sources().flat_map(|source| at_durations(&source, &DURATIONS))
}

fn sources() -> impl Iterator<Item = Source> {
    texts().map(|text| Source::of_text(text).expect("the texts of lines are read"))
}

/// \fad and \fade, which stand alone.
fn single_tags() -> impl Iterator<Item = Case> {
    let fads = fads().into_iter().map(Source::of_words);
    let fades = fades().into_iter().map(Source::of_words);
    let fads = fads.flat_map(|fad| at_durations(&fad, &DURATIONS));
    fads.chain(fades.flat_map(|fade| at_durations(&fade, &[0, 1_000])))
}

/// The lines with each \t's acceleration replaced.
fn accelerations() -> impl Iterator<Item = Case> {
    let moving = sources().filter(|source| has_transition(&source.words));
    moving.flat_map(|source| {
        let tables: Vec<Vec<u32>> = accelerated(&source.words).collect();
        let sources = tables.into_iter().map(Source::of_words);
        sources.flat_map(|source| at_durations(&source, &[1_000]))
    })
}

/// Well-formed tables that no reading wrote.
fn limits() -> impl Iterator<Item = Case> {
    let sources = good_tables().into_iter().map(Source::of_words);
    sources.flat_map(|source| at_durations(&source, &[-1, 1_000]))
}

/// Tables at fault, in range and beside ground 6.
fn faults() -> impl Iterator<Item = Case> {
    let tables = faulty_records().into_iter().chain(faulty_tables());
    tables.flat_map(|(words, _)| {
        let source = Source::of_words(words);
        let far = FARTHEST as i32 + 1;
        [
            (0, 0),
            (500, 1_000),
            (far, 0),
            (0, -far),
            (i32::MIN, i32::MAX),
        ]
        .map(|(t, duration)| Case {
            source: source.clone(),
            t,
            duration,
        })
    })
}

/// The table at each duration, at every instant around its marks.
fn at_durations(source: &Source, durations: &[i32]) -> Vec<Case> {
    let mut cases = Vec::new();
    for &duration in durations {
        cases.extend(instants(source, duration).into_iter().map(|t| Case {
            source: source.clone(),
            t,
            duration,
        }));
    }
    cases
}

fn instants(source: &Source, duration: i32) -> Vec<i32> {
    let marks = around(&source.words, duration).into_iter();
    let marks = marks.filter_map(|instant| i32::try_from(instant).ok());
    let mut instants: Vec<i32> = marks.chain(INSTANTS).collect();
    instants.sort_unstable();
    instants.dedup();
    instants
}

#[cfg(test)]
mod tests {
    use super::*;
    use std::collections::HashSet;

    #[test]
    fn cases_are_answered_and_refused_for_both_grounds() {
        let mut numbers = [0; 7];
        for case in cases() {
            let number = case.refused().map_or(0, |result| result >> 48);
            numbers[number as usize] += 1;
        }
        assert!(
            numbers[0] > 50_000 && numbers[5] > 10_000 && numbers[6] > 10_000,
            "{numbers:?}"
        );
    }

    #[test]
    fn ground_5_goes_before_ground_6() {
        let far = |t: i32| i64::from(t).abs() > FARTHEST;
        let both = faults().filter(|case| far(case.t) || far(case.duration));
        assert!(
            both.into_iter()
                .all(|case| case.refused().map(|r| r >> 48) == Some(5))
        );
    }

    #[test]
    fn instants_stand_beside_each_mark() {
        let source = Source::of_text(b"\\t(500,500,\\fs40)".to_vec()).unwrap();
        let found: HashSet<i32> = instants(&source, 1_000).into_iter().collect();
        assert!(
            [499, 500, 501, 0, -1_000_000_000]
                .iter()
                .all(|t| found.contains(t))
        );
    }
}
