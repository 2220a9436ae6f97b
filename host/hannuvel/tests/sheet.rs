//! The rows of 01's sheet that speak of reading, states, marks, drawings and clip arguments.

use hannuvel::{PathCommand, Point, Refusal, Table, Tags, parse_drawing, parse_overrides, split_clip_arg};

/// What is asked of the tags of a block.
#[track_caller]
fn block<T>(text: &str, ask: impl FnOnce(Tags) -> T) -> T {
    let mut table = Table::<32>::new();
    ask(parse_overrides(text, &mut table).unwrap())
}

#[track_caller]
fn kinds(text: &str) -> Vec<u32> {
    block(text, |tags| tags.words().chunks(8).map(|record| record[0]).collect())
}

#[track_caller]
fn sizes<const N: usize>(text: &str, instants: [i32; N]) -> [f32; N] {
    block(text, |tags| instants.map(|t| tags.evaluate_at(t, 2000).unwrap().font_size.unwrap()))
}

/// All marks from an instant on.
fn marks(text: &str, t: i32, duration: i32) -> Vec<i32> {
    let next = |tags: Tags, &t: &i32| tags.next_mark(t, duration).unwrap();
    block(text, |tags| std::iter::successors(next(tags, &t), |t| next(tags, t)).collect())
}

#[test]
fn a_size_that_grows() {
    let text = r"\fs20\t(0,1000,\fs40)";
    assert_eq!(kinds(text), [10, 49, 10]);
    assert_eq!(sizes(text, [0, 500, 1000]), [20.0, 30.0, 40.0]);
    assert_eq!(marks(text, -1, 2000), (1..=1000).collect::<Vec<_>>());
    assert_eq!(sizes(r"\fs20\t(0,1000,2,\fs40)", [500]), [25.0]);
    assert_eq!(sizes(r"\fs20\t(0,1000,0.5,\fs40)", [250]), [30.0]);
}

#[test]
fn a_size_that_jumps() {
    let text = r"\fs20\t(500,500,\fs40)";
    assert_eq!(sizes(text, [499, 500]), [20.0, 40.0]);
    assert_eq!(marks(text, -1_000_000, 2000), [500]);
}

#[test]
fn a_fade() {
    let text = r"\fad(200,300)";
    let alphas = |tags: Tags| [0, 100, 700, 850, 1000].map(|t| tags.evaluate_at(t, 1000).unwrap().alpha_mul);
    assert_eq!(block(text, alphas), [0.0, 0.5, 1.0, 0.5, 0.0]);
    assert_eq!(block(text, |tags| tags.next_mark(200, 1000)), Ok(Some(701)));
    assert_eq!(block(text, |tags| tags.next_mark(1000, 1000)), Ok(None));
    assert_eq!(marks(text, 0, 1000), (1..=200).chain(701..=1000).collect::<Vec<_>>());
}

#[test]
fn an_opacity_is_from_0_to_1_and_1_without_a_fade() {
    let at_each = |text: &str| {
        block(text, |tags| (-5..70).map(|t| tags.evaluate_at(t, 50).unwrap().alpha_mul).collect::<Vec<_>>())
    };
    let fades = [r"\fad(7,5)", r"\fade(1,254,0,-7,13,13,29)", r"\fad(2147483647,0)"];
    let frames = [r"@\t(0,29,\r)", r"\t(0,37,1.1,@\t(3,\r\t(0.7,@)))", r"@\t(1,19,-1,@)\t(5,17,0.3,\r@)"];
    for text in frames.iter().flat_map(|frame| fades.map(|fade| frame.replace('@', fade))) {
        let opacities = at_each(&text);
        assert!(opacities.iter().all(|x| x.to_bits() <= 1f32.to_bits()), "{text}: {opacities:?}");
        assert!(opacities.iter().any(|&x| x < 1.0), "{text}: {opacities:?}");
    }
    for text in ["", r"\alpha&HFF&\t(0,29,\r\t(2,\1a&H80&\fs9))\k5"] {
        assert!(at_each(text).iter().all(|x| x.to_bits() == 0x3F80_0000), "{text}");
    }
}

#[test]
fn colours_and_alphas() {
    let state = |text| block(text, |tags| tags.evaluate_at(0, 0).unwrap().primary_color);
    assert_eq!(state(r"\1c&H0000FF&"), Some((255, 0, 0)));
    let alpha = |text| block(text, |tags| tags.evaluate_at(0, 0).unwrap().primary_alpha);
    assert_eq!(alpha(r"\alpha&H1FF&"), Some(255));
    assert_eq!(alpha(""), None);
}

#[test]
fn sixteen_deep_and_seventeen() {
    let nested = |depth| r"\t(".repeat(depth) + r"\b1";
    for depth in [8, 9, 16] {
        assert_eq!(kinds(&nested(depth)), [&vec![49; depth][..], &[42]].concat());
    }
    assert_eq!(kinds(&nested(17)), [49; 16]);
}

#[test]
fn a_spline() {
    let mut table = Table::<16>::new();
    let path = parse_drawing("m 0 0 s 6 0 6 6 0 6", 1, &mut table).unwrap();
    let point = |x, y| Point { x, y };
    let curve = PathCommand::CubicTo { c1: point(6.0, 2.0), c2: point(6.0, 4.0), end: point(5.0, 5.0) };
    let commands = [PathCommand::MoveTo(point(0.0, 0.0)), PathCommand::LineTo(point(5.0, 1.0)), curve];
    assert_eq!(path.iter().collect::<Vec<_>>(), commands);
}

#[test]
fn numerals() {
    let answer = |text| parse_overrides(text, &mut Table::<4>::new()).map(|tags| tags.places());
    assert_eq!(answer(r"\fs999999999"), Ok(1));
    assert_eq!(answer(r"\fs1000000000"), Err(Refusal::NumeralTooLong(3)));
    assert_eq!(answer(r"\fs1e9"), Err(Refusal::NumeralTooLong(3)));
    assert_eq!(sizes(r"\fs1e2", [0]), [100.0]);
    assert_eq!(answer(r"\fs(nan)"), Ok(0));
}

#[test]
fn clip_arguments() {
    assert_eq!(split_clip_arg("2,m 0 0"), Ok((2, "m 0 0")));
    assert_eq!(split_clip_arg("0,m"), Ok((1, "m")));
    assert_eq!(split_clip_arg(",m"), Ok((1, ",m")));
}
