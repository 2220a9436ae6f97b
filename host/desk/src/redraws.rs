//! `hannuvel redraws`: which frames of a line must be drawn anew.

use crate::arguments::Redraws;
use crate::block;
use crate::input::Text;
use crate::karaoke;
use crate::moves::Line;
use crate::progress::Progress;
use crate::ranges::{self, Range};
use crate::rate::Rate;
use crate::report::{Frames, Report};
use crate::stop::Stop;
use hannuvel::Refusal;

pub fn answer(options: &Redraws, text: &Text) -> Result<Report, Stop> {
    let mut table = block::table(&options.block);
    let tags = block::read(&options.block, text, &mut table)?;
    let line = Line::of(tags, options.duration)?;
    Ok(Report {
        frames: Some(frames(&line, options.rate)?),
        syllables: Some(line.spans.iter().map(karaoke::syllable).collect()),
        ..Report::new("redraws", text, Some(options.duration))
    })
}

/// The frames whose instants lie before the duration, and those of them that must be redrawn: the first, and each for
/// which the picture moves after the instant of the frame before it and up to its own.
fn frames(line: &Line, rate: Rate) -> Result<Frames, Refusal> {
    let count = rate.frame_from(line.duration.max(0).unsigned_abs().into());
    let (mut redrawn, mut next) = (Vec::new(), Some(0));
    let mut progress = Progress::new("walking the frames", count as i64);
    while let Some(frame) = next.filter(|&frame| frame < count) {
        ranges::add(&mut redrawn, frame as i64);
        progress.step(frame as i64);
        // A frame's instant lies before the duration, and so in an i32's range; a move lies after it.
        let moved = line.next_move(rate.instant(frame) as i32)?;
        next = moved.map(|instant| rate.frame_from(instant.unsigned_abs()));
    }
    if count == 0 {
        line.next_move(0)?;
    }
    Ok(summary(rate, count, redrawn))
}

fn summary(rate: Rate, count: u64, ranges: Vec<Range>) -> Frames {
    let redrawn = ranges::total(&ranges) as u64;
    let saved = if count == 0 { 0.0 } else { (count - redrawn) as f64 / count as f64 };
    Frames { rate: rate.per_second(), count, redrawn, saved, ranges }
}

#[cfg(test)]
mod tests {
    use super::*;
    use crate::marks::Marks;
    use hannuvel::parse_overrides;

    fn of(text: &str, duration: i32, rate: &str) -> Frames {
        let mut table = [0; 800];
        let line = Line::of(parse_overrides(text, &mut table).unwrap(), duration).unwrap();
        frames(&line, rate.parse().unwrap()).unwrap()
    }

    fn told(text: &str, duration: i32, rate: &str) -> (u64, u64, String) {
        let frames = of(text, duration, rate);
        (frames.redrawn, frames.count, ranges::listed(&frames.ranges, 9))
    }

    #[test]
    fn a_still_line_is_drawn_once() {
        assert_eq!(told(r"\fs20", 1000, "25"), (1, 25, "0".into()));
        assert_eq!(told(r"\fs20", 0, "25"), (0, 0, "never".into()));
        assert_eq!(told(r"\fs20", -5, "25"), (0, 0, "never".into()));
    }

    /// Held against asking at every frame.
    #[test]
    fn frames_are_those_with_a_mark_before_them() {
        for text in [
            r"\fad(200,300)",
            r"\t(500,500,\fs40)",
            r"\t(\fs40)",
            r"\move(0,0,1,1,333,334)",
            r"\fade(1,2,3,50,60,400,900)",
        ] {
            let mut table = [0; 800];
            let tags = parse_overrides(text, &mut table).unwrap();
            let rate: Rate = "24000/1001".parse().unwrap();
            let mut expected = vec![Range::new(0, 0)];
            for frame in (1..).take_while(|&frame| rate.instant(frame) < 1000) {
                let (before, at) = (rate.instant(frame - 1) as i32, rate.instant(frame) as i32);
                if tags.next_mark(before, 1000).unwrap().is_some_and(|mark| mark <= at) {
                    ranges::add(&mut expected, frame as i64);
                }
            }
            assert_eq!(of(text, 1000, "24000/1001").ranges, expected, "{text}");
        }
    }

    #[test]
    fn syllables_redraw_too() {
        assert_eq!(told(r"\k50\k50", 1000, "10"), (2, 10, "0, 5".into()));
        assert_eq!(told(r"\k50\kf20\k30", 1000, "10"), (3, 10, "0, 6–7".into()));
        assert_eq!(told(r"\kf50\k20", 1000, "10"), (6, 10, "0–5".into()));
        assert_eq!(told(r"\k50\kf0\k50", 1000, "100"), (3, 100, "0, 50–51".into()));
    }

    /// At a frame a millisecond those redrawn are the first, and the moves before the line's end.
    #[test]
    fn frames_are_the_moves() {
        for text in [r"\kf5\k2", r"\fad(20,30)\k1\kf1\kf0\ko3", r"\k3\kf99", r"\k100\kf0", r"\k10", ""] {
            let mut table = [0; 800];
            let line = Line::of(parse_overrides(text, &mut table).unwrap(), 100).unwrap();
            let moves = line.moves(&Marks::of(&line.tags, 100, &[]).unwrap()).unwrap().ranges;
            let drawn = ranges::joined([Range::new(0, 0)].into_iter().chain(moves));
            assert_eq!(of(text, 100, "1000").ranges, ranges::within(&drawn, Range::new(0, 99)), "{text}");
        }
    }
}
