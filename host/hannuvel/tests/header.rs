//! The names and numbers of include/hannuvel.h, held against those of the crate.

use hannuvel::*;
use std::collections::HashMap;

const HEADER: &str = include_str!("../../../include/hannuvel.h");

/// The names of the enums, less their HANNUVEL_, with their numbers, enum by enum.
fn enums() -> HashMap<&'static str, Vec<(&'static str, usize)>> {
    let bodies = HEADER.split("\nenum hannuvel_").skip(1);
    let lines = |body: &'static str| body.split("};").next().unwrap().lines().skip(1);
    let named = |line: &'static str| {
        let (name, number) = line.trim().strip_prefix("HANNUVEL_")?.split_once(" = ")?;
        let digits = number.find(|c: char| !c.is_ascii_digit()).unwrap_or(number.len());
        Some((name, number[..digits].parse().unwrap()))
    };
    bodies.map(|body| (body.split(' ').next().unwrap(), lines(body).filter_map(named).collect())).collect()
}

/// A name as the header has it: `ClipRect` is CLIP_RECT.
fn shouted(name: &str) -> String {
    let mut words = String::new();
    for (place, letter) in name.char_indices() {
        let inside = place > 0 && letter.is_ascii_uppercase() && !words.ends_with('I');
        words.extend(inside.then_some('_'));
        words.push(letter.to_ascii_uppercase());
    }
    words
}

/// The name of a case, as it is written for debugging.
fn case(value: impl std::fmt::Debug) -> String {
    let written = format!("{value:?}");
    shouted(written.split([' ', '(', '{']).next().unwrap())
}

#[test]
fn limits() {
    let limits = [
        ("RECORD_WORDS", RECORD_WORDS),
        ("SPAN_WORDS", SPAN_WORDS),
        ("STATE_WORDS", STATE_WORDS),
        ("MOST_RECORDS", MOST_PLACES),
        ("MOST_BYTES", MOST_BYTES),
        ("MOST_MS", MOST_MS as usize),
        ("MOST_EXPONENT", MOST_EXPONENT as usize),
        ("MOST_DEPTH", MOST_DEPTH),
    ];
    for (name, number) in limits {
        let line = format!("#define HANNUVEL_{name} {number} ");
        assert!(HEADER.contains(&line), "{line}");
    }
}

#[test]
fn grounds() {
    use Refusal::*;
    let all = [
        TextTooLong,
        NotAscii(0),
        NumeralTooLong(0),
        FadeTooFar(0),
        TableMalformed(0),
        TimeOutOfRange,
        ScaleTooLarge,
        NameBeyondText,
        NoRoom(0),
    ];
    let grounds = &enums()["ground"];
    assert_eq!(grounds[0], ("ANSWERED", 0));
    for (refusal, &(name, number)) in all.into_iter().zip(&grounds[1..]) {
        assert_eq!((case(refusal).as_str(), refusal.number() as usize), (name, number));
    }
    assert_eq!(grounds.len(), 10);
}

/// One record of each kind, in the order of the kinds.
const ALL: &str = concat!(
    r"\fad(1,1)\fade(1,1,1,1,1,1,1)\pos(1,1)\move(1,1,1,1,1,1)\frz1\blur1\fscx1\fscy1\1c&H010101&\fs1\clip(1,1,1,1)",
    r"\clip(m)\frx1\fry1\org(1,1)\bord1\xbord1\ybord1\shad1\xshad1\yshad1\be1\fax1\fay1\iclip(1,1,1,1)\iclip(m)",
    r"\2c&H010101&\3c&H010101&\4c&H010101&\alpha1\1a1\2a1\3a1\4a1\fsp1\q1\an1\a1\fnx(x)\fe1\rx\b1\i1\u1\s1\kf1\pbo1",
    r"\p1\t(1,1,\i1)",
);

#[test]
fn kinds_and_the_words_of_records() {
    let enums = enums();
    let (kinds, fields) = (&enums["kind"], &enums["record"]);
    assert_eq!((kinds.len(), fields[0]), (49, ("RECORD_KIND", 0)));
    let mut fields = &fields[1..];
    let mut table = Table::<64>::new();
    for (tag, &(name, number)) in parse_overrides(ALL, &mut table).unwrap().iter().zip(kinds) {
        let kind = name.strip_prefix("KIND_").unwrap();
        assert_eq!((case(tag.value()).as_str(), tag.kind() as usize), (kind, number));
        // No field of these tags is 0, so that the words in use show.
        let used = tag.words().iter().rposition(|&word| word != 0).unwrap();
        let (own, others) = fields.split_at(used);
        for (&(name, number), place) in own.iter().zip(1..) {
            assert!(name.starts_with(&format!("{kind}_")) && number == place, "{name} = {number}");
        }
        fields = others;
    }
    assert!(fields.is_empty());
}

#[test]
fn words_of_states_spans_and_commands() {
    let enums = enums();
    let places = |name| enums[name].iter().map(|&(_, number)| number);
    assert!(places("state").eq(0..STATE_WORDS));
    assert!(places("span").eq(0..SPAN_WORDS));
    assert!(places("command").eq(0..7));
    let kinds = [KaraokeKind::Fill, KaraokeKind::Sweep, KaraokeKind::Outline];
    let kinds = kinds.map(|kind| (format!("KARAOKE_{}", case(kind)), kind as usize));
    assert!(enums["karaoke_kind"].iter().map(|&(name, number)| (name.to_owned(), number)).eq(kinds));
    let commands = [("MOVE", "m 0 0"), ("LINE", "l 0 0"), ("CUBIC", "b 0 0 0 0 0 0"), ("CLOSE", "c")];
    for ((name, drawing), &(named, number)) in commands.into_iter().zip(&enums["command_kind"]) {
        assert_eq!(format!("COMMAND_{name}"), named);
        let mut table = [0; 8];
        assert_eq!(parse_drawing(drawing, 1, &mut table).unwrap().words()[0] as usize, number);
    }
}

#[test]
fn fields_of_a_state() {
    let written = format!("{:#?}", RenderState::identity());
    let enums = enums();
    let mut names = enums["state"].iter().map(|&(name, _)| name);
    for line in written.lines().filter(|line| line.starts_with("    ") && !line.starts_with("     ")) {
        let Some((name, _)) = line.trim().split_once(':') else { continue };
        let name = format!("STATE_{}", name.to_ascii_uppercase());
        assert!(names.any(|named| named == name || named == format!("{name}_X")), "{name}");
    }
}
