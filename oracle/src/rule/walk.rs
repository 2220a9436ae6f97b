//! 01, Marks, a second time: whether a millisecond is a mark, asked of the tags one millisecond
//! after the other. It holds the next mark, and the Rust's states, to the marks.

use crate::answer::state;
use crate::built::animate::{AnimatedTag, CueAnimation};
use crate::rule::opacity;
use crate::rule::refusal::FARTHEST;

/// A ramp, or one mark where it has no length.
fn ramp_or(start: i64, end: i64, mark: i64, m: i64) -> bool {
    if start < end {
        start < m && m <= end
    } else {
        m == mark
    }
}

/// Start 0 and end the duration if absent.
fn timed(t1: Option<i32>, t2: Option<i32>, duration: i64, m: i64) -> bool {
    let start = t1.map_or(0, i64::from);
    let end = t2.map_or(duration, i64::from);
    ramp_or(start, end, end, m)
}

fn fad(t1: i64, t2: i64, d: i64, m: i64) -> bool {
    let ramp = |start: i64, end: i64| start < m && m <= end;
    (t1 > 0 && ramp(0, t1))
        || (t2 > d && (m == 0 || m == 1))
        || (t2 > 0 && ramp((d - t2).max(0), d))
}

/// Whether `m` is a mark of one of the tags or of those inside them.
fn is_mark(tags: &[AnimatedTag], m: i64, duration: i64) -> bool {
    use AnimatedTag::*;
    tags.iter().any(|tag| match tag {
        Fad { t1_ms, t2_ms } => fad((*t1_ms).into(), (*t2_ms).into(), duration.max(0), m),
        Fade {
            t1_ms,
            t2_ms,
            t3_ms,
            t4_ms,
            ..
        } => {
            let [t1, t2, t3, t4] = [*t1_ms, *t2_ms, *t3_ms, *t4_ms].map(i64::from);
            ramp_or(t1, t2, t1, m) || ramp_or(t3, t4, t3, m)
        }
        Move { t1_ms, t2_ms, .. } => timed(*t1_ms, *t2_ms, duration, m),
        T {
            t1_ms,
            t2_ms,
            inner,
            ..
        } => timed(*t1_ms, *t2_ms, duration, m) || is_mark(inner, m, duration),
        _ => false,
    })
}

/// Walks from the instant to the mark said to be the next one, or so many milliseconds, and says
/// what is wrong: a mark or another state on the way, or no mark at the end.
pub fn wrong(
    cue: &CueAnimation,
    t: i32,
    duration: i32,
    next: Option<i64>,
    steps: usize,
) -> Option<String> {
    let marked = |m: i64| is_mark(&cue.tags, m, i64::from(duration));
    let at = |m: i64| {
        let state = cue.evaluate_at(m as i32, duration);
        opacity::check(cue, &state);
        state::words(&state)
    };
    let now = at(i64::from(t));
    let end = next.unwrap_or(FARTHEST + 1);
    let near = (i64::from(t) + 1..end).take(steps);
    let last = (end - 1 > i64::from(t)).then_some(end - 1);
    for m in near.chain(last) {
        if marked(m) {
            return Some(format!("{m} is a mark"));
        }
        if at(m) != now {
            return Some(format!("the state changes at {m}"));
        }
    }
    let wanting = next.filter(|&mark| mark <= i64::from(t) || !marked(mark));
    wanting.map(|mark| format!("{mark} is no later mark"))
}

#[cfg(test)]
mod tests {
    use super::*;
    use crate::answer::decode::tags;
    use crate::rule::marks::next_mark;

    const ONE: u32 = 0x3F80_0000;

    /// \fad inside \t, \fade, \move and \fs inside \t, over some 60 ms.
    fn lines() -> Vec<Vec<u32>> {
        let fad = |t1, t2| [1, t1, t2, 0, 0, 0, 0, 0];
        let t = |t1: i32, t2: i32| [49, 1, t1 as u32, t2 as u32, ONE, 1, 0, 0];
        let fade = [2, 255, 0, 128, 30, 20, 5, 9];
        let moved = [4, 0, 0, ONE, ONE, 0, 0, 0];
        let size = [10, ONE, 0, 0, 0, 0, 0, 0];
        vec![
            fad(7, 9).to_vec(),
            fad(0, 90).to_vec(),
            [t(12, 25), fad(3, 4)].concat(),
            [fade, moved].concat(),
            [size, t(40, 31), [10, 0, 0, 0, 0, 0, 0, 0]].concat(),
            size.to_vec(),
            Vec::new(),
        ]
    }

    #[test]
    fn whole_lines_are_walked() {
        for table in lines() {
            let cue = CueAnimation { tags: tags(&table) };
            for duration in [-3, 0, 1, 2, 30, 50] {
                for t in -5..60 {
                    let next = next_mark(&table, t, duration);
                    let wrong = wrong(&cue, t, duration, next, 100);
                    assert_eq!(wrong, None, "{table:?} at {t} of {duration}");
                }
            }
        }
    }

    #[test]
    fn a_wrong_mark_is_found() {
        let table = [1, 7, 9, 0, 0, 0, 0, 0];
        let cue = CueAnimation { tags: tags(&table) };
        let says = |next| wrong(&cue, 8, 50, next, 100);
        assert_eq!(says(Some(42)), None);
        assert_eq!(says(Some(43)), Some("42 is a mark".into()));
        assert_eq!(says(None), Some("42 is a mark".into()));
        assert_eq!(says(Some(41)), Some("41 is no later mark".into()));
        assert_eq!(says(Some(8)), Some("8 is no later mark".into()));
    }
}
