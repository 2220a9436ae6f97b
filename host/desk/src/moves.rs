//! When the picture of a line moves: at the marks of its state, and where its syllables do, of which the marks do not
//! speak. Every command asks here.

use crate::karaoke;
use crate::marks::Marks;
use crate::ranges::{self, Range};
use hannuvel::{KaraokeSpan, Refusal, Tags};
use serde::Serialize;

/// A line whose picture moves. It is drawn at 0, with the syllables that begin there; what begins after its end moves
/// nothing in it.
pub struct Line<'t> {
    pub tags: Tags<'t>,
    pub spans: Vec<KaraokeSpan>,
    pub duration: i32,
    /// When syllables would move the picture, were there no end of the line.
    sung: Vec<Range>,
}

impl<'t> Line<'t> {
    pub fn of(tags: Tags<'t>, duration: i32) -> Result<Line<'t>, Refusal> {
        let spans = karaoke::spans(&tags)?;
        let sung = ranges::joined(spans.iter().map(karaoke::moves));
        Ok(Line { tags, spans, duration, sung })
    }

    /// The first millisecond after t and up to the duration at which the picture moves: the earlier of the next mark and
    /// the next move of a syllable.
    pub fn next_move(&self, t: i32) -> Result<Option<i64>, Refusal> {
        let mark = self.tags.next_mark(t, self.duration)?.map(i64::from);
        let earlier = mark.into_iter().chain(ranges::after(&self.sung, t.into())).min();
        Ok(earlier.filter(|&instant| instant <= self.duration.into()))
    }

    /// All of them after 0 as ranges, from the marks of the line, and the next one after each instant that these were
    /// asked for.
    pub fn moves(&self, marks: &Marks) -> Result<Moves, Refusal> {
        let duration = i64::from(self.duration);
        let by_syllables = ranges::within(&self.sung, Range::new(1, duration));
        let both = ranges::joined(marks.ranges.iter().chain(&by_syllables).copied());
        let last = match marks.whole {
            true => duration,
            false => marks.ranges.last().map_or(0, |range| range.last),
        };
        let next =
            marks.next.iter().map(|next| Ok(Next { after_ms: next.after_ms, move_ms: self.next_move(next.after_ms)? }));
        Ok(Moves {
            ranges: ranges::within(&both, Range::new(1, last)),
            whole: marks.whole,
            by_syllables,
            next: next.collect::<Result<_, Refusal>>()?,
        })
    }
}

/// When the picture moves.
#[derive(Debug, Serialize)]
pub struct Moves {
    /// The milliseconds after 0 and up to the duration at which there is a mark or a syllable moves.
    pub ranges: Vec<Range>,
    /// Whether that is all of them. If not, they stop where the walk over the marks did.
    pub whole: bool,
    /// Those of the line at which a syllable moves.
    pub by_syllables: Vec<Range>,
    /// For each instant asked for the first later one at which the picture moves.
    pub next: Vec<Next>,
}

#[derive(Debug, Serialize)]
pub struct Next {
    pub after_ms: i32,
    pub move_ms: Option<i64>,
}

impl Moves {
    /// The ranges in words, at most so many of them. `sung` is whether the line has syllables.
    pub fn told(&self, sung: bool, most: usize) -> String {
        match self.ranges.is_empty() && sung {
            true => "not after the line's start".into(),
            false => format!("{}{}", ranges::listed(&self.ranges, most), if self.whole { "" } else { " and on" }),
        }
    }
}

#[cfg(test)]
mod tests {
    use super::*;
    use hannuvel::parse_overrides;

    /// The moves of a line, and whether it has syllables.
    fn moves(text: &str, duration: i32, at: &[i32]) -> (Moves, bool) {
        let mut table = [0; 800];
        let line = Line::of(parse_overrides(text, &mut table).unwrap(), duration).unwrap();
        let marks = Marks::of(&line.tags, duration, at).unwrap();
        (line.moves(&marks).unwrap(), !line.spans.is_empty())
    }

    fn told(text: &str, duration: i32) -> String {
        let (moves, sung) = moves(text, duration, &[]);
        moves.told(sung, 9)
    }

    #[test]
    fn marks_and_syllables_move_the_picture() {
        assert_eq!(told(r"\kf50\k20", 5000), "1–500");
        assert_eq!(told(r"\k50\ko20\k30\k10", 5000), "500, 700, 1000");
        assert_eq!(told(r"\fad(200,300)", 1000), "1–200, 701–1000");
        assert_eq!(told(r"\fad(200,300)\k50\kf20", 1000), "1–200, 501–1000");
        assert_eq!(told(r"\k10\t(500,500,\fs40)\kf0\k10", 1000), "100–101, 500");
    }

    #[test]
    fn never_is_for_lines_with_neither() {
        assert_eq!(told(r"\fs20", 1000), "never");
        assert_eq!(told("", -5), "never");
        assert_eq!(told(r"\k50", 1000), "not after the line's start");
        assert_eq!(told(r"\kf50", 0), "not after the line's start");
    }

    /// No syllable is made inside a \t, whose own marks stay.
    #[test]
    fn karaoke_inside_a_transform_is_none() {
        let (moves, sung) = moves(r"\t(100,200,\kf50\k20)", 1000, &[0]);
        assert_eq!((ranges::listed(&moves.ranges, 9), moves.by_syllables, sung), ("101–200".into(), vec![], false));
        assert_eq!(moves.next[0].move_ms, Some(101));
    }

    #[test]
    fn what_lies_behind_the_line_moves_nothing_in_it() {
        assert_eq!(told(r"\k50\kf100\k10\kf10", 1000), "501–1000");
        assert_eq!(told(r"\k100\k10", 1000), "1000");
        assert_eq!(told(r"\k100\k10", 999), "not after the line's start");
        assert_eq!(told(r"\k4000000\k4000000\kf400000000\k400000000\k10", 1000), "not after the line's start");
    }

    #[test]
    fn the_next_move_is_the_earlier_of_mark_and_syllable() {
        let text = r"\t(600,602,\fs40)\t(900,3000,\fs20)\k50\kf10\ko50\k50";
        let (moves, _) = moves(text, 1000, &[-5, 0, 500, 599, 600, 601, 602, 999, 1000, 1200]);
        let next: Vec<_> = moves.next.iter().map(|next| next.move_ms).collect();
        let some = |instants: [i64; 8]| instants.map(Some);
        assert_eq!(next[..8], some([0, 501, 501, 600, 601, 602, 901, 1000]));
        assert_eq!(next[8..], [None, None]);
    }

    /// Walking from one next move to the other leads through the ranges.
    #[test]
    fn next_moves_lead_through_the_ranges() {
        for text in [
            r"\kf5\k2",
            r"\fad(20,30)\k1\kf1\kf0\ko3\k9",
            r"\t(7,7,\b1)",
            r"\k3\kf99",
            r"\kf0\kf0\k0\ko2",
            r"\fade(0,1,2,50,60,90,300)\k1\k3\kf2\ko1\kf2\k1\k9",
        ] {
            let mut table = [0; 800];
            let line = Line::of(parse_overrides(text, &mut table).unwrap(), 100).unwrap();
            let (mut walked, mut at) = (Vec::new(), 0);
            while let Some(next) = line.next_move(at).unwrap() {
                ranges::add(&mut walked, next);
                at = next as i32;
            }
            assert_eq!(walked, moves(text, 100, &[]).0.ranges, "{text}");
        }
    }

    /// What is seen of a line at an instant is what was seen before it, unless the picture moves there.
    #[test]
    fn outside_the_moves_the_picture_stays() {
        for text in [
            r"\kf5\k2\ko3\kf0\k1",
            r"\fs20\t(20,40,\fs40)\k1\kf3\kf0\kf0\ko3",
            r"\fad(10,10)\k0\kf0\k5\t(\k9)",
            r"\move(0,0,9,9,5,9)\k3\kf99\k1",
            r"\k20\k1",
        ] {
            let mut table = [0; 800];
            let line = Line::of(parse_overrides(text, &mut table).unwrap(), 100).unwrap();
            let seen = |t: i32| {
                let filled: Vec<f32> = line.spans.iter().map(|span| karaoke::filled(span, t)).collect();
                (line.tags.evaluate_at(t, 100).unwrap(), filled)
            };
            let moves = moves(text, 100, &[]).0.ranges;
            for t in 1..=100 {
                let moving = moves.iter().any(|range| (range.first..=range.last).contains(&i64::from(t)));
                assert!(moving || seen(t - 1) == seen(t), "{text} at {t}");
            }
        }
    }

    #[test]
    fn a_walk_that_stopped_ends_the_ranges() {
        let mut table = [0; 80];
        let line = Line::of(parse_overrides(r"\t(0,9,\fs40)\k10\kf10", &mut table).unwrap(), 1000).unwrap();
        let marks = Marks { whole: false, ..Marks::of(&line.tags, 1000, &[]).unwrap() };
        let moves = line.moves(&marks).unwrap();
        assert_eq!((moves.told(true, 9).as_str(), moves.by_syllables), ("1–9 and on", vec![Range::new(101, 200)]));
    }
}
