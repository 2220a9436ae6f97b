//! The marks of a block, as ranges: what walking from one next mark to the other gives. They are the state's; when the
//! picture moves, which syllables do too, is in moves.rs.

use crate::progress::Progress;
use crate::ranges::{self, Range};
use hannuvel::{Refusal, Tags};
use serde::Serialize;

/// A ramp has a mark at each of its milliseconds, and a mark is found by a call. So many are walked at most: a ramp of
/// 83 minutes.
pub const MOST_MARKS: i64 = 5_000_000;

/// When the state may change.
#[derive(Debug, Serialize)]
pub struct Marks {
    /// The marks after 0 and up to the duration.
    pub ranges: Vec<Range>,
    /// Whether that is all of them. If not, the walk stopped at the last.
    pub whole: bool,
    /// The first mark after the duration, if there is one.
    pub beyond: Option<i32>,
    /// For each instant asked for the mark after it.
    pub next: Vec<Next>,
}

#[derive(Debug, Serialize)]
pub struct Next {
    pub after_ms: i32,
    pub mark_ms: Option<i32>,
}

impl Marks {
    /// Of a line of this duration, with the next mark after each instant.
    pub fn of(tags: &Tags, duration: i32, at: &[i32]) -> Result<Marks, Refusal> {
        let (ranges, whole) = walk(tags, duration, MOST_MARKS)?;
        let next = |&after_ms: &i32| Ok(Next { after_ms, mark_ms: tags.next_mark(after_ms, duration)? });
        let next = at.iter().map(next).collect::<Result<_, Refusal>>()?;
        Ok(Marks { ranges, whole, beyond: tags.next_mark(duration.max(0), duration)?, next })
    }

    /// Where in a line of this duration there may be marks: the ranges, and what was not walked.
    pub fn moving(&self, duration: i32) -> Vec<Range> {
        let mut moving = self.ranges.clone();
        let last = moving.last().map_or(0, |range| range.last);
        if !self.whole {
            moving.push(Range::new(last + 1, duration.into()));
        }
        moving
    }
}

/// The marks after 0 and up to the duration, at most so many, and whether that is all.
fn walk(tags: &Tags, duration: i32, most: i64) -> Result<(Vec<Range>, bool), Refusal> {
    let (mut found, mut steps, mut at) = (Vec::new(), 0, 0);
    let mut progress = Progress::new("walking the marks", duration.into());
    while let Some(mark) = tags.next_mark(at, duration)?.filter(|&mark| mark <= duration) {
        if steps == most {
            return Ok((found, false));
        }
        ranges::add(&mut found, mark.into());
        (at, steps) = (mark, steps + 1);
        progress.step(mark.into());
    }
    Ok((found, true))
}

#[cfg(test)]
mod tests {
    use super::*;
    use hannuvel::parse_overrides;

    fn walked(text: &str, duration: i32, most: i64) -> (String, bool) {
        let mut table = [0; 80];
        let tags = parse_overrides(text, &mut table).unwrap();
        let (ranges, whole) = walk(&tags, duration, most).unwrap();
        (ranges::listed(&ranges, 9), whole)
    }

    #[test]
    fn marks_are_walked_to_the_end_of_the_line() {
        assert_eq!(walked(r"\fad(200,300)", 1000, 9999), ("1–200, 701–1000".into(), true));
        assert_eq!(walked(r"\fs20\t(500,500,\fs40)", 1000, 9999), ("500".into(), true));
        assert_eq!(walked(r"\t(100,3000,\fs40)", 1000, 9999), ("101–1000".into(), true));
        assert_eq!(walked(r"\fs20", 1000, 9999), ("never".into(), true));
        assert_eq!(walked(r"\fad(200,300)", 0, 9999), ("never".into(), true));
    }

    #[test]
    fn a_long_walk_stops() {
        assert_eq!(walked(r"\t(\fs40)", 1_000_000_000, 1000), ("1–1000".into(), false));
        assert_eq!(walked(r"\fad(200,300)", 1000, 500), ("1–200, 701–1000".into(), true));
    }

    #[test]
    fn next_marks_and_those_beyond_the_line() {
        let mut table = [0; 80];
        let tags = parse_overrides(r"\t(900,3000,\fs40)", &mut table).unwrap();
        let marks = Marks::of(&tags, 1000, &[0, 5000]).unwrap();
        assert_eq!(marks.beyond, Some(1001));
        assert_eq!(marks.next.iter().map(|next| next.mark_ms).collect::<Vec<_>>(), [Some(901), None]);
        assert_eq!(marks.moving(1000), marks.ranges);
        let stopped = Marks { whole: false, ..marks };
        assert_eq!(ranges::listed(&stopped.moving(2000), 9), "901–1000, 1001–2000");
        assert_eq!(Marks::of(&tags, i32::MAX, &[]).unwrap_err(), Refusal::TimeOutOfRange);
    }
}
