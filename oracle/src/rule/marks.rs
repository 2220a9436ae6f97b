//! 01, Marks: the next mark of a well-formed table.

use super::table::TRANSITION;

const WIDTH: usize = 8;

/// The least mark after the instant, over the records at every depth.
pub fn next_mark(words: &[u32], t: i32, duration: i32) -> Option<i64> {
    let records = words.chunks_exact(WIDTH);
    records
        .flat_map(|record| own_marks(record, i64::from(duration)))
        .filter_map(|marks| marks.after(i64::from(t)))
        .min()
}

/// Instants at both ends of each record's marks, beside them and between them; some of them lie
/// beyond the range of instants.
pub fn around(words: &[u32], duration: i32) -> Vec<i64> {
    let records = words.chunks_exact(WIDTH);
    let marks = records.flat_map(|record| own_marks(record, i64::from(duration)));
    let mut instants: Vec<i64> = marks.flat_map(Marks::around).collect();
    instants.sort_unstable();
    instants.dedup();
    instants
}

/// Marks `from` to `to`; none where `to` is below `from`.
#[derive(Clone, Copy)]
struct Marks {
    from: i64,
    to: i64,
}

impl Marks {
    fn ramp(start: i64, end: i64) -> Self {
        Marks {
            from: start + 1,
            to: end,
        }
    }

    fn one(mark: i64) -> Self {
        Marks {
            from: mark,
            to: mark,
        }
    }

    /// A ramp, or one mark where it has no length.
    fn ramp_or(start: i64, end: i64, mark: i64) -> Self {
        if start < end {
            Marks::ramp(start, end)
        } else {
            Marks::one(mark)
        }
    }

    /// A ramp starts one before its first mark.
    fn around(self) -> [i64; 10] {
        let Marks { from, to } = self;
        let third = (to - from) / 3;
        let (low, high) = (from + third, to - third);
        [
            from - 2,
            from - 1,
            from,
            from + 1,
            low,
            high,
            high + 1,
            to - 1,
            to,
            to + 1,
        ]
    }

    fn after(self, t: i64) -> Option<i64> {
        let next = self.from.max(t + 1);
        (next <= self.to).then_some(next)
    }
}

/// The marks of a record, not those of the records inside it.
fn own_marks(record: &[u32], duration: i64) -> Vec<Marks> {
    let signed = |place: usize| i64::from(record[place] as i32);
    match record[0] {
        1 => fad(i64::from(record[1]), i64::from(record[2]), duration.max(0)),
        2 => vec![
            Marks::ramp_or(signed(4), signed(5), signed(4)),
            Marks::ramp_or(signed(6), signed(7), signed(6)),
        ],
        4 => vec![timed(record[5], signed(6), signed(7), duration)],
        TRANSITION => vec![timed(record[1], signed(2), signed(3), duration)],
        _ => Vec::new(),
    }
}

/// Move and T: start 0 and end the duration if the times are absent.
fn timed(flag: u32, first: i64, second: i64, duration: i64) -> Marks {
    let (start, end) = if flag == 1 {
        (first, second)
    } else {
        (0, duration)
    };
    Marks::ramp_or(start, end, end)
}

fn fad(t1: i64, t2: i64, duration: i64) -> Vec<Marks> {
    let mut marks = Vec::new();
    if t1 > 0 {
        marks.push(Marks::ramp(0, t1));
    }
    if t2 > duration {
        marks.extend([Marks::one(0), Marks::one(1)]);
    }
    if t2 > 0 {
        marks.push(Marks::ramp((duration - t2).max(0), duration));
    }
    marks
}

#[cfg(test)]
mod tests {
    use super::*;
    use crate::answer::{decode, state};
    use crate::built::animate::CueAnimation;
    use crate::generate::table::{instant, well_formed};
    use crate::random::Random;
    use crate::rule::opacity;
    use crate::rule::refusal::instants;

    #[test]
    fn the_sheet_has_its_marks() {
        let fad = [1, 200, 300, 0, 0, 0, 0, 0];
        assert_eq!(next_mark(&fad, 200, 1_000), Some(701));
        assert_eq!(next_mark(&fad, 1_000, 1_000), None);
        let jump = [49, 1, 500, 500, 0x3F80_0000, 0, 0, 0];
        assert_eq!(next_mark(&jump, 499, 0), Some(500));
        assert_eq!(next_mark(&jump, 500, 0), None);
        assert_eq!(next_mark(&fad, -5, 250), Some(0));
        assert_eq!(next_mark(&[], 0, 0), None);
    }

    #[test]
    fn instants_stand_around_every_mark() {
        let jump = [49, 1, 500, 500, 0x3F80_0000, 0, 0, 0];
        assert_eq!(around(&jump, 0), [498, 499, 500, 501]);
        let fad = [1, 200, 0, 0, 0, 0, 0, 0];
        let instants = [-1, 0, 1, 2, 67, 134, 135, 199, 200, 201];
        assert_eq!(around(&fad, 1_000), instants);
        assert_eq!(around(&[42, 700, 0, 0, 0, 0, 0, 0], 5), []);
    }

    #[test]
    fn nothing_moves_before_the_next_mark() {
        for case in 0..40_000 {
            let random = &mut Random::new(1, case);
            let table = well_formed(random);
            let (t, duration) = (instant(random, &table), instant(random, &table));
            if instants(&[t, duration]).is_some() {
                continue;
            }
            let last = next_mark(&table, t, duration).map_or(1_000_000_000, |mark| mark as i32 - 1);
            let cue = CueAnimation {
                tags: decode::tags(&table),
            };
            let at = |t| {
                let state = cue.evaluate_at(t, duration);
                opacity::check(&cue, &state);
                state::words(&state)
            };
            assert_eq!(at(t), at(last), "{table:?} {t} {last} {duration}");
        }
    }
}
