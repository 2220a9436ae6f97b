//! Numerals with an exponent (02, N4): wherever a numeral is read, and up to their limits.

use hannuvel::AnimatedTag::{self, *};
use hannuvel::{PathCommand, Point, Refusal, Table, parse_drawing, parse_overrides};

/// What is asked of the first tag of a block.
#[track_caller]
fn first<T>(text: &str, ask: impl FnOnce(AnimatedTag) -> T) -> T {
    let mut table = Table::<4>::new();
    let tags = parse_overrides(text, &mut table).unwrap();
    ask(tags.iter().next().unwrap().value())
}

/// How many tags a size makes, one or, where it is no number, none.
fn size(numeral: &str) -> Result<usize, Refusal> {
    parse_overrides(&format!(r"\fs({numeral})"), &mut Table::<4>::new()).map(|tags| tags.places())
}

/// How many commands a drawing with this number makes.
fn drawn(numeral: &str) -> Result<usize, Refusal> {
    parse_drawing(&format!("m 0 {numeral}"), 1, &mut Table::<4>::new()).map(|path| path.len())
}

#[test]
fn a_tag_takes_an_exponent() {
    first(r"\fs1e2", |tag| assert_eq!(tag, Fs(100.0)));
    first(r"\pos(1.25e2,-2.5E-3)", |tag| assert_eq!(tag, Pos { x: 125.0, y: -0.0025 }));
    first(r"\fs2.5E-3", |tag| assert!(matches!(tag, Fs(size) if size.to_bits() == 0x3B23_D70A)));
    first(r"\frz( +1.5e+02 )", |tag| assert_eq!(tag, Frz(150.0)));
}

#[test]
fn the_leading_numbers_of_a_transform_take_exponents() {
    first(r"\t(1e2,2.5e3,5e-1,\fs4e1)", |tag| {
        let T { t1_ms, t2_ms, accel, inner } = tag else { panic!("{tag:?}") };
        assert_eq!((t1_ms, t2_ms, accel), (Some(100), Some(2500), 0.5));
        assert_eq!(inner.iter().next().unwrap().value(), Fs(40.0));
    });
}

#[test]
fn a_clip_of_four_numbers_takes_an_exponent() {
    let clip = ClipRect { x1: 0.0, y1: 10.0, x2: 6.4e2, y2: 480.0 };
    first(r"\clip(0,1e1,6.4e2,480)", |tag| assert_eq!(tag, clip));
}

#[test]
fn a_drawing_takes_an_exponent() {
    let mut table = Table::<4>::new();
    let path = parse_drawing("m 0 0 l 1e2 0 25E-1 .5e1", 1, &mut table).unwrap();
    let point = |x, y| Point { x, y };
    let line = |x, y| PathCommand::LineTo(point(x, y));
    let commands = [PathCommand::MoveTo(point(0.0, 0.0)), line(100.0, 0.0), line(2.5, 5.0)];
    assert_eq!(path.iter().collect::<Vec<_>>(), commands);
}

#[test]
fn nine_digits_on_each_side_are_read() {
    for good in ["1e8", "1e-9", "1234567890e-1", "0.0000000001e5", "000000001e0", ".5e09", "1E00"] {
        assert_eq!((size(good), drawn(good)), (Ok(1), Ok(1)), "{good}");
    }
}

/// Zeros count, and an exponent has one or two digits.
#[test]
fn more_are_too_long() {
    for long in ["1e9", "0e9", "01e8", "1e-10", "10e-10", "0.1e-9", "1234567890e0", "1e002", "1e100", "1e-009"] {
        let refused = |place| Err(Refusal::NumeralTooLong(place));
        assert_eq!((size(long), drawn(long)), (refused(4), refused(4)), "{long}");
    }
}

#[test]
fn an_exponent_without_digits_is_no_number() {
    for none in ["1e", "1e+", "e5", ".e5", "1e2e3", "1e2.5", "1e 2"] {
        assert_eq!(size(none), Ok(0), "{none}");
    }
}
