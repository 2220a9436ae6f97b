//! Override blocks, made by their grammar and then perhaps damaged.

use super::drawing::drawing;
use super::number::{blanks, hexadecimal, numeral, plain_numeral, whole};
use super::text::{damage, noise};
use crate::random::Random;
use crate::rule::refusal::MOST_DEPTH;

/// How a tag's parameter is made.
#[derive(Clone, Copy)]
enum Shape {
    Float,
    Floats(usize),
    Ints(usize),
    Whole,
    Weight,
    Flag,
    Colour,
    Clip,
    Name,
    Transition,
}

/// Every name and alias, and some that are no tag.
const NAMES: &[(&str, Shape)] = &[
    ("fad", Shape::Ints(2)),
    ("fade", Shape::Ints(7)),
    ("pos", Shape::Floats(2)),
    ("move", Shape::Floats(4)),
    ("move", Shape::Floats(6)),
    ("frz", Shape::Float),
    ("fr", Shape::Float),
    ("frx", Shape::Float),
    ("fry", Shape::Float),
    ("blur", Shape::Float),
    ("be", Shape::Float),
    ("fscx", Shape::Float),
    ("fscy", Shape::Float),
    ("fsc", Shape::Float),
    ("fs", Shape::Float),
    ("fsp", Shape::Float),
    ("fax", Shape::Float),
    ("fay", Shape::Float),
    ("bord", Shape::Float),
    ("xbord", Shape::Float),
    ("ybord", Shape::Float),
    ("shad", Shape::Float),
    ("xshad", Shape::Float),
    ("yshad", Shape::Float),
    ("k", Shape::Float),
    ("K", Shape::Float),
    ("kf", Shape::Float),
    ("ko", Shape::Float),
    ("kt", Shape::Float),
    ("pbo", Shape::Float),
    ("org", Shape::Floats(2)),
    ("c", Shape::Colour),
    ("1c", Shape::Colour),
    ("2c", Shape::Colour),
    ("3c", Shape::Colour),
    ("4c", Shape::Colour),
    ("5c", Shape::Colour),
    ("alpha", Shape::Colour),
    ("1a", Shape::Colour),
    ("2a", Shape::Colour),
    ("3a", Shape::Colour),
    ("4a", Shape::Colour),
    ("clip", Shape::Clip),
    ("iclip", Shape::Clip),
    ("q", Shape::Whole),
    ("an", Shape::Whole),
    ("a", Shape::Whole),
    ("fe", Shape::Whole),
    ("p", Shape::Whole),
    ("b", Shape::Weight),
    ("i", Shape::Flag),
    ("u", Shape::Flag),
    ("s", Shape::Flag),
    ("r", Shape::Name),
    ("fn", Shape::Name),
    ("foo", Shape::Float),
    ("t", Shape::Transition),
    ("t", Shape::Transition),
    ("t", Shape::Transition),
    ("t", Shape::Transition),
];

const STYLE_NAMES: &[&str] = &[
    "",
    "Alt",
    "Default",
    "Arial",
    "x",
    "Times New Roman",
    "8x",
    "A b ",
];

/// A block: mostly good, sometimes damaged, sometimes noise.
pub fn block(random: &mut Random) -> Vec<u8> {
    let mut text = Vec::new();
    if random.one_in(12) {
        noise(random, &mut text, 60);
        return text;
    }
    tags(random, &mut text, 0);
    if random.one_in(3) {
        damage(random, &mut text);
    }
    text
}

/// A block in the braces, or some of the braces, that `parse_raw_block` drops.
pub fn raw_block(random: &mut Random) -> Vec<u8> {
    let mut text = Vec::new();
    blanks(random, &mut text);
    text.extend_from_slice(random.pick(&["{", "{", "{", "", "{{", "}"]).as_bytes());
    text.append(&mut block(random));
    text.extend_from_slice(
        random
            .pick(&["}", "}", "}", "", "}}", "{", "} "])
            .as_bytes(),
    );
    blanks(random, &mut text);
    text
}

/// Nested \t, up to two deeper than the limit, with a tag at the bottom and tags behind; one block in
/// three has no numbers before the tags and stays short.
pub fn nested_block(random: &mut Random) -> Vec<u8> {
    let mut text = Vec::new();
    let depth = random.between(1, MOST_DEPTH + 2);
    let short = random.one_in(3);
    for _ in 0..depth {
        text.extend_from_slice(b"\\t(");
        if !short {
            transition_head(random, &mut text);
        }
        if random.one_in(4) {
            tag(random, &mut text, BARE);
        }
    }
    tag(random, &mut text, BARE);
    for _ in 0..random.below(depth + 2) {
        text.extend_from_slice(b")");
        if random.one_in(3) {
            tag(random, &mut text, BARE);
        }
    }
    text
}

/// So deep a \t is made without tags inside.
const BARE: usize = 4;

fn tags(random: &mut Random, text: &mut Vec<u8>, depth: usize) {
    for _ in 0..random.below(if depth == 0 { 7 } else { 4 }) {
        tag(random, text, depth);
        if random.one_in(20) {
            text.extend_from_slice(
                random
                    .pick(&[" ", "x", "\\", "(", ")", "{}", "\\N", "1"])
                    .as_bytes(),
            );
        }
    }
}

fn tag(random: &mut Random, text: &mut Vec<u8>, depth: usize) {
    let (name, shape) = *random.pick(NAMES);
    text.push(b'\\');
    cased(random, text, name);
    match shape {
        Shape::Transition => transition(random, text, depth),
        Shape::Name => style_name(random, text),
        _ => parameter(random, text, shape),
    }
}

/// The name, rarely in another letter case.
fn cased(random: &mut Random, text: &mut Vec<u8>, name: &str) {
    let mixed = random.one_in(12);
    for byte in name.bytes() {
        text.push(if mixed && random.one_in(2) {
            byte.to_ascii_uppercase()
        } else {
            byte
        });
    }
}

fn style_name(random: &mut Random, text: &mut Vec<u8>) {
    let mut name = random.pick(STYLE_NAMES).as_bytes().to_vec();
    blanks(random, &mut name);
    if random.one_in(4) {
        text.extend_from_slice(random.pick(&["", "Alt"]).as_bytes());
        wrapped(random, text, &name);
    } else {
        text.append(&mut name);
    }
}

fn wrapped(random: &mut Random, text: &mut Vec<u8>, inside: &[u8]) {
    text.push(b'(');
    text.extend_from_slice(inside);
    if !random.one_in(30) {
        text.push(b')');
    }
}

fn parameter(random: &mut Random, text: &mut Vec<u8>, shape: Shape) {
    let mut inside = Vec::new();
    shaped(random, &mut inside, shape);
    let listed = matches!(shape, Shape::Floats(_) | Shape::Ints(_) | Shape::Clip);
    let is_wrapped = if listed {
        !random.one_in(20)
    } else {
        random.one_in(4)
    };
    if is_wrapped {
        wrapped(random, text, &inside);
    } else {
        text.append(&mut inside);
    }
}

fn shaped(random: &mut Random, text: &mut Vec<u8>, shape: Shape) {
    match shape {
        Shape::Float => any_numeral(random, text),
        Shape::Floats(count) => list(random, text, count, any_numeral),
        Shape::Ints(count) => list(random, text, count, any_whole),
        Shape::Whole => any_whole(random, text),
        Shape::Weight => weight(random, text),
        Shape::Flag => flag(random, text),
        Shape::Colour => hexadecimal(random, text),
        Shape::Clip => clip(random, text),
        Shape::Name | Shape::Transition => unreachable!("made by functions of their own"),
    }
}

/// Mostly a numeral that an author would write: a block with one too long is refused whole.
fn any_numeral(random: &mut Random, text: &mut Vec<u8>) {
    if random.one_in(5) {
        numeral(random, text);
    } else {
        blanks(random, text);
        plain_numeral(random, text);
        blanks(random, text);
    }
}

fn any_whole(random: &mut Random, text: &mut Vec<u8>) {
    if random.one_in(4) {
        whole(random, text);
    } else {
        blanks(random, text);
        let most = *random.pick(&[4, 12, 300, 5_000]);
        text.extend_from_slice(random.below(most).to_string().as_bytes());
        blanks(random, text);
    }
}

fn weight(random: &mut Random, text: &mut Vec<u8>) {
    let weights = [
        "0", "1", "2", "99", "100", "400", "700", "900", "901", "-1", "+1", " 1\t", "1e2", "",
    ];
    text.extend_from_slice(random.pick(&weights).as_bytes());
}

fn flag(random: &mut Random, text: &mut Vec<u8>) {
    let flags = [
        "0", "1", "1", "0", "2", "+1", "01", " 1 ", "\x0b0", "1e0", "", "x",
    ];
    text.extend_from_slice(random.pick(&flags).as_bytes());
}

/// A list of the length wanted or nearly so.
fn list(
    random: &mut Random,
    text: &mut Vec<u8>,
    count: usize,
    part: fn(&mut Random, &mut Vec<u8>),
) {
    let count = match random.below(16) {
        0 => count - 1,
        1 => count + 1,
        _ => count,
    };
    for place in 0..count {
        if place > 0 {
            text.push(b',');
        }
        part(random, text);
    }
}

fn clip(random: &mut Random, text: &mut Vec<u8>) {
    match random.below(4) {
        0 => drawing(random, text),
        1 => {
            whole(random, text);
            text.push(b',');
            drawing(random, text);
        }
        _ => list(random, text, 4, any_numeral),
    }
}

fn transition(random: &mut Random, text: &mut Vec<u8>, depth: usize) {
    let mut inside = Vec::new();
    transition_head(random, &mut inside);
    if depth < BARE {
        tags(random, &mut inside, depth + 1);
    }
    if random.one_in(16) {
        text.append(&mut inside);
    } else {
        wrapped(random, text, &inside);
    }
}

/// No, one, two, three or four numbers, each with a comma behind it or none.
fn transition_head(random: &mut Random, text: &mut Vec<u8>) {
    let count = *random.pick(&[0, 0, 1, 2, 2, 2, 3, 3, 4]);
    for _ in 0..count {
        any_numeral(random, text);
        if !random.one_in(20) {
            text.push(b',');
        }
    }
    if random.one_in(30) {
        text.extend_from_slice(random.pick(&[",", "x,", " ,", "x"]).as_bytes());
    }
    blanks(random, text);
}

#[cfg(test)]
mod tests {
    use super::*;
    use crate::rule::block::overrides;
    use std::collections::HashSet;

    #[test]
    fn every_kind_is_made() {
        let mut kinds = HashSet::new();
        for case in 0..20_000 {
            let text = block(&mut Random::new(1, case));
            if text.is_ascii() {
                kinds.extend(overrides(&text).kept.iter().map(|kept| kept.kind));
            }
        }
        assert_eq!(kinds.len(), 49);
    }

    #[test]
    fn most_blocks_are_read_and_some_are_refused() {
        let (mut good, mut long, mut far, mut high) = (0, 0, 0, 0);
        for case in 0..20_000 {
            let text = block(&mut Random::new(2, case));
            if !text.is_ascii() {
                high += 1;
                continue;
            }
            let reading = overrides(&text);
            long += usize::from(reading.too_long.is_some());
            far += usize::from(reading.far_fade.is_some());
            good += usize::from(reading.too_long.is_none() && reading.kept.len() > 1);
        }
        assert!(good > 8_000, "{good}");
        assert!(long > 500 && long < 8_000, "{long}");
        assert!(far > 20 && high > 20, "{far} {high}");
    }

    #[test]
    fn nesting_reaches_the_limit_and_beyond() {
        let depths: HashSet<usize> = (0..2_000)
            .map(|case| nested_block(&mut Random::new(3, case)))
            .map(|text| text.windows(2).filter(|pair| pair == b"\\t").count())
            .collect();
        assert!((1..=18).all(|depth| depths.contains(&depth)));
    }
}
