//! The calls that are measured, made by both sides as a host makes them.

use std::hint::black_box;

use crate::built::animate::{self, CueAnimation, RenderState};
use crate::built::drawing;
use crate::library;
use crate::suites::source::Source;

#[derive(Clone, Copy)]
pub enum Call {
    Overrides,
    Raw,
    /// With exponent 1.
    Drawing,
    Clip,
    Evaluate,
    NextMark,
    Spans,
}

/// Words of a table or a path with room for every record.
pub const WORDS: usize = 8 * 1_024;

/// What a call gets: a text, or what was read from it, an instant and a duration.
#[derive(Default)]
pub struct Input {
    pub text: String,
    cue: CueAnimation,
    table: Vec<u32>,
    t: i32,
    duration: i32,
}

impl Input {
    pub fn texts(texts: Vec<String>) -> Vec<Input> {
        let input = |text| Input {
            text,
            ..Input::default()
        };
        texts.into_iter().map(input).collect()
    }

    /// What each text reads as, at each of the instants.
    pub fn lines(texts: Vec<String>, instants: &[i32], duration: i32) -> Vec<Input> {
        let lines = texts.into_iter().flat_map(|text| {
            let instants = instants.iter().map(move |&t| (text.clone(), t));
            instants.map(|(text, t)| Input::line(text, t, duration))
        });
        lines.collect()
    }

    fn line(text: String, t: i32, duration: i32) -> Input {
        let source = Source::of_text(text.clone().into_bytes()).expect("the text is read");
        let tags = source.rust_tags().expect("there is a text");
        Input {
            text,
            cue: CueAnimation { tags },
            table: source.words,
            t,
            duration,
        }
    }

    /// Records of the table.
    #[cfg(test)]
    pub fn records(&self) -> usize {
        self.table.len() / 8
    }
}

/// Calls the Rust on each input, so many times; what it gives is dropped at once. A host has bytes,
/// which ours takes as they are: the Rust's time has the check that makes a `str` of them.
pub fn rust(call: Call, inputs: &[Input], times: u32) {
    match call {
        Call::Overrides => each(inputs, times, |input| {
            let mut tags = Vec::new();
            animate::parse_overrides(checked(input), &mut tags);
            tags
        }),
        Call::Raw => each(inputs, times, |input| {
            let mut tags = Vec::new();
            animate::parse_raw_block(checked(input), &mut tags);
            tags
        }),
        Call::Drawing => each(inputs, times, |input| {
            drawing::parse_drawing(checked(input), 1)
        }),
        Call::Clip => each(inputs, times, |input| {
            let (scale, rest) = drawing::split_clip_arg(checked(input));
            (scale, rest.as_ptr(), rest.len())
        }),
        Call::Evaluate => {
            let state = evaluate_at();
            each(inputs, times, |input| {
                state(&input.cue, input.t, input.duration)
            })
        }
        Call::NextMark => each(inputs, times, next_change),
        Call::Spans => each(inputs, times, |input| input.cue.karaoke_spans()),
    }
}

fn checked(input: &Input) -> &str {
    std::str::from_utf8(input.text.as_bytes()).expect("an ASCII text")
}

/// `evaluate_at` by a call, as a host gets it, whose crate is another. Else it hangs on what stands
/// beside it here whether the compiler puts it into the loop that is timed.
fn evaluate_at() -> fn(&CueAnimation, i32, i32) -> RenderState {
    black_box(CueAnimation::evaluate_at)
}

/// The Rust has no marks: its states are walked until one differs or the line ends.
fn next_change(input: &Input) -> Option<i32> {
    let evaluate_at = evaluate_at();
    let state = |t| evaluate_at(&input.cue, t, input.duration);
    let now = state(input.t);
    (input.t + 1..=input.duration).find(|&t| state(t) != now)
}

/// Calls ours in the same way and gives the last answer; `None`: the archives lack the call.
pub fn ours(call: Call, inputs: &[Input], times: u32, lent: &mut [u32]) -> Option<u64> {
    let (words, count) = (lent.as_mut_ptr(), lent.len());
    let mut answer = 0;
    // SAFETY, for all seven: the pointers and lengths are those of slices that outlive the calls.
    match call {
        Call::Overrides => {
            let call = library::hannuvel_parse_overrides()?;
            each(inputs, times, |Input { text, .. }| {
                answer = unsafe { call(text.as_ptr(), text.len(), words, count) }
            });
        }
        Call::Raw => {
            let call = library::hannuvel_parse_raw_block()?;
            each(inputs, times, |Input { text, .. }| {
                answer = unsafe { call(text.as_ptr(), text.len(), words, count) }
            });
        }
        Call::Drawing => {
            let call = library::hannuvel_parse_drawing()?;
            each(inputs, times, |Input { text, .. }| {
                answer = unsafe { call(text.as_ptr(), text.len(), 1, words, count) }
            });
        }
        Call::Clip => {
            let call = library::hannuvel_split_clip_arg()?;
            each(inputs, times, |Input { text, .. }| {
                answer = unsafe { call(text.as_ptr(), text.len()) }
            });
        }
        Call::Evaluate => {
            let call = library::hannuvel_evaluate_at()?;
            each(inputs, times, |line| {
                let table = &line.table;
                answer = unsafe { call(table.as_ptr(), table.len(), line.t, line.duration, words) }
            });
        }
        Call::NextMark => {
            let call = library::hannuvel_next_mark()?;
            each(inputs, times, |line| {
                let table = &line.table;
                answer = unsafe { call(table.as_ptr(), table.len(), line.t, line.duration) }
            });
        }
        Call::Spans => {
            let call = library::hannuvel_karaoke_spans()?;
            each(inputs, times, |Input { table, .. }| {
                answer = unsafe { call(table.as_ptr(), table.len(), words, count) }
            });
        }
    }
    Some(answer)
}

fn each<T>(inputs: &[Input], times: u32, mut call: impl FnMut(&Input) -> T) {
    for _ in 0..times {
        for input in inputs {
            black_box(call(black_box(input)));
        }
    }
}

#[cfg(test)]
mod tests {
    use super::*;
    use crate::texts::{flat, nested};

    fn change(text: String, t: i32) -> Option<i32> {
        next_change(&Input::lines(vec![text], &[t], 1_000)[0])
    }

    #[test]
    fn states_are_walked_to_the_next_that_differs() {
        assert_eq!(change(flat(10), 400), Some(801));
        assert_eq!(change(nested(8, 10), -20), Some(10));
        assert_eq!(change(nested(16, 17), -20), Some(10));
        assert_eq!(change(nested(16, 10), -20), None);
        assert_eq!(change(flat(1), 400), None);
    }

    #[test]
    fn a_line_holds_what_both_sides_take() {
        let inputs = Input::lines(vec![nested(8, 9), flat(3)], &[5, 6], 100);
        let held: Vec<(i32, usize, usize)> = inputs
            .iter()
            .map(|input| (input.t, input.records(), input.cue.tags.len()))
            .collect();
        assert_eq!(held, [(5, 9, 1), (6, 9, 1), (5, 3, 3), (6, 3, 3)]);
    }
}
