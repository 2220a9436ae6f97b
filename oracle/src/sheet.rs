//! 01's sheet and its plausible slips, row by row: each is run on our library and on the oracle,
//! which must agree word for word, and held to what the paper says. The rows P are also proved from
//! the definitions (crates/sheet).

use crate::suite::{Suite, agreed};
use crate::suites::source::Source;
use crate::suites::{blocks, clips, drawings, evaluate, karaoke, marks};

const WIDTH: usize = 8;
const PLACES: usize = 1_024;

/// The result and the words written, on which both sides agree.
fn run<S: Suite>(suite: &S, case: &S::Case) -> (u64, Vec<u32>) {
    let absent = suite.absent();
    assert!(absent.is_empty(), "the archives lack {absent:?}");
    let answer = agreed(suite, case).unwrap_or_else(|report| panic!("{report}"));
    (answer.result, answer.written)
}

fn read(text: &str) -> (u64, Vec<u32>) {
    let case = blocks::Case {
        raw: false,
        words: WIDTH * PLACES,
        text: text.into(),
    };
    run(&blocks::Blocks, &case)
}

/// The kinds of the records.
fn kinds(text: &str) -> Vec<u32> {
    let (result, words) = read(text);
    assert_eq!(result, (words.len() / WIDTH) as u64, "{text}");
    words.chunks(WIDTH).map(|record| record[0]).collect()
}

/// Ground and place.
fn refused(text: &str) -> (u64, u32) {
    let (result, words) = read(text);
    assert_eq!(words, [], "{text}");
    (result >> 48, result as u32)
}

fn at(text: &str, t: i32, duration: i32) -> evaluate::Case {
    let source = Source::of_text(text.into()).expect("the text is not refused");
    evaluate::Case {
        source,
        t,
        duration,
    }
}

fn state(text: &str, t: i32, duration: i32) -> Vec<u32> {
    let (result, words) = run(&evaluate::Evaluate, &at(text, t, duration));
    assert_eq!(result, 0, "{text}");
    words
}

/// The words of include/hannuvel.h.
const ALPHA_MUL: usize = 0;
const ROTATE_RADIANS: usize = 1;
const PRIMARY_COLOR: usize = 18;
const FONT_SIZE: usize = 22;
const PRIMARY_ALPHA: usize = 56;

fn size(text: &str, t: i32) -> f32 {
    let words = state(text, t, 2_000);
    assert_eq!(words[FONT_SIZE], 1, "{text}");
    f32::from_bits(words[FONT_SIZE + 1])
}

fn opacity(text: &str, t: i32) -> f32 {
    f32::from_bits(state(text, t, 1_000)[ALPHA_MUL])
}

fn next_mark(text: &str, t: i32, duration: i32) -> Option<i32> {
    let (result, _) = run(&marks::Marks, &at(text, t, duration));
    match result >> 32 {
        0 => Some(result as u32 as i32),
        1 => None,
        _ => panic!("{text} is refused: {result:x}"),
    }
}

/// Kind, start and end of each span.
fn spans(text: &str) -> Vec<[u32; 3]> {
    let source = Source::of_text(text.into()).expect("the text is not refused");
    let case = karaoke::Case { source, words: 30 };
    let (result, words) = run(&karaoke::Karaoke, &case);
    assert_eq!(result, (words.len() / 3) as u64, "{text}");
    words
        .chunks(3)
        .map(|span| [span[0], span[1], span[2]])
        .collect()
}

/// Scale and rest.
fn clip(text: &str) -> (u32, &str) {
    let (result, _) = run(&clips::Clips, &text.into());
    (result as u32, &text[(result >> 32) as usize..])
}

#[test]
fn sizes() {
    let text = r"\fs20\t(0,1000,\fs40)";
    assert_eq!(kinds(text), [10, 49, 10]);
    assert_eq!([0, 500, 1_000].map(|t| size(text, t)), [20.0, 30.0, 40.0]);
    assert_eq!(size(r"\fs20\t(0,1000,2,\fs40)", 500), 25.0);
    assert_eq!(size(r"\fs20\t(0,1000,0.5,\fs40)", 250), 30.0);
    let jump = r"\fs20\t(500,500,\fs40)";
    assert_eq!([499, 500].map(|t| size(jump, t)), [20.0, 40.0]);
    assert_eq!(next_mark(jump, -1_000_000_000, 2_000), Some(500));
    assert_eq!(next_mark(jump, 500, 2_000), None);
}

#[test]
fn a_fad() {
    let text = r"\fad(200,300)";
    let opacities = [0, 100, 700, 850, 1_000].map(|t| opacity(text, t));
    assert_eq!(opacities, [0.0, 0.5, 1.0, 0.5, 0.0]);
    assert_eq!(next_mark(text, 200, 1_000), Some(701));
    assert_eq!(next_mark(text, 1_000, 1_000), None);
}

#[test]
fn karaoke_spans() {
    const FILL: u32 = 0;
    const SWEEP: u32 = 1;
    assert_eq!(spans(r"\k50\kf25"), [[FILL, 0, 500], [SWEEP, 500, 750]]);
    assert_eq!(spans(r"\t(\k10)"), [] as [[u32; 3]; 0]);
}

#[test]
fn colours_and_alphas() {
    let words = state(r"\1c&H0000FF&", 0, 0);
    assert_eq!(words[PRIMARY_COLOR..PRIMARY_COLOR + 4], [1, 255, 0, 0]);
    let words = state(r"\alpha&H1FF&", 0, 0);
    assert_eq!(
        words[PRIMARY_ALPHA..PRIMARY_ALPHA + 8],
        [1, 255, 1, 255, 1, 255, 1, 255]
    );
}

#[test]
fn sixteen_t_and_seventeen() {
    let nested = |count: usize| kinds(&format!("{}\\b1", "\\t(".repeat(count)));
    for (count, records) in [(8, 9), (9, 10), (16, 17)] {
        let kinds = nested(count);
        assert_eq!(kinds.len(), records);
        assert_eq!(kinds, [vec![49; count], vec![42]].concat());
    }
    assert_eq!(nested(17), [49; 16]);
}

#[test]
fn a_spline() {
    let case = drawings::Case {
        exponent: 1,
        words: WIDTH * 8,
        text: "m 0 0 s 6 0 6 6 0 6".into(),
    };
    let (result, words) = run(&drawings::Drawings, &case);
    assert_eq!(result, 3);
    let commands: Vec<(u32, Vec<f32>)> = words
        .chunks(WIDTH)
        .map(|command| {
            (
                command[0],
                command[1..7].iter().map(|&w| f32::from_bits(w)).collect(),
            )
        })
        .collect();
    let none = 0.0;
    assert_eq!(commands[0], (1, vec![0.0, 0.0, none, none, none, none]));
    assert_eq!(commands[1], (2, vec![5.0, 1.0, none, none, none, none]));
    assert_eq!(commands[2], (3, vec![6.0, 2.0, 6.0, 4.0, 5.0, 5.0]));
}

#[test]
fn numerals() {
    assert_eq!(kinds(r"\fs999999999"), [10]);
    assert_eq!(refused(r"\fs1000000000"), (3, 3));
    let (result, words) = read(r"\fs1e2");
    assert_eq!(result, 1);
    assert_eq!(words, [10, 100f32.to_bits(), 0, 0, 0, 0, 0, 0]);
    assert_eq!(refused(r"\fs1e9"), (3, 3));
    assert_eq!(kinds(r"\fs(nan)"), [] as [u32; 0]);
}

#[test]
fn clip_arguments() {
    assert_eq!(clip("2,m 0 0"), (2, "m 0 0"));
    assert_eq!(clip("0,m"), (1, "m"));
    assert_eq!(clip(",m"), (1, ",m"));
}

#[test]
fn slip_one_rounding_for_all() {
    // half way from 255 to 0: cut to 127 by \fade and colours, rounded to 128 by an alpha in \t
    let faded = 1.0 - 127.0 / 255.0;
    assert_eq!(opacity(r"\fade(255,0,0,0,1000,1000,1000)", 500), faded);
    let words = state(r"\1c&H0000FF&\t(0,1000,\1c&H000000&)", 500, 1_000);
    assert_eq!(words[PRIMARY_COLOR..PRIMARY_COLOR + 4], [1, 127, 0, 0]);
    let words = state(r"\alpha&HFF&\t(0,1000,\alpha&H00&)", 500, 1_000);
    assert_eq!(words[PRIMARY_ALPHA..PRIMARY_ALPHA + 2], [1, 128]);
}

#[test]
fn slip_karaoke_inside_t() {
    assert_eq!(
        spans(r"\k5\t(\k10\t(\ko7))\ko5"),
        [[0, 0, 50], [2, 50, 100]]
    );
}

#[test]
fn slip_milliseconds_divided_unrounded() {
    // both times lie above 2^24 and are no f32
    let (t, end) = (16_777_217, 50_331_651);
    let rounded = t as f32 / end as f32;
    let unrounded = (f64::from(t) / f64::from(end)) as f32;
    assert_ne!(rounded, unrounded);
    let text = format!(r"\t(0,{end},\frz180)");
    let found = f32::from_bits(state(&text, t, 0)[ROTATE_RADIANS]);
    let half_turn = 180.0 * (std::f32::consts::PI / 180.0);
    assert_eq!(found, half_turn * rounded);
    assert_ne!(found, half_turn * unrounded);
}

#[test]
fn slip_a_parenthesis_that_ends_at_the_first_closing_one() {
    let text = r"\t(0,10,\clip(1,2,3,4)\fs5)\i1";
    assert_eq!(kinds(text), [49, 11, 10, 43]);
    let (_, words) = read(text);
    assert_eq!(words[5], 2, "the rectangle and the size are inside");
}
