//! The views on tags and states: every kind of tag, every field, and texts of all sorts walked through.

use hannuvel::AnimatedTag::{self, *};
use hannuvel::{
    ClipRect, FontName, KaraokeKind, MOST_DEPTH, RenderState, Table, Tags, parse_overrides, parse_raw_block,
};

/// One tag of each kind in turn, as a text has it.
const ALL: &str = concat!(
    r"\fad(1,2)\fade(1,2,3,-4,5,-6,7)\pos(1.5,-2)\move(1,2,3,4,-5,6)\frz1\blur2\fscx3\fscy4\1c&H030201&\fs5",
    r"\clip(1,2,3,4)\clip(2,m 0 0)\frx6\fry7\org(8,9)\bord1\xbord2\ybord3\shad4\xshad-5\yshad-6\be7\fax8\fay9",
    r"\iclip(4,3,2,1)\iclip(m 1 1)\2c&H060504&\3c&H090807&\4c&H0C0B0A&\alpha&H10&\1a&H11&\2a&H12&\3a&H13&\4a&H14&",
    r"\fsp15\q3\an7\a6\fnArial(x)\fe128\rTop\b1\i1\u0\s1\ko12\pbo-50\p4\t(1,2,0.5,\frz9\t(\r))",
);

/// The words of tags: the records of 01, written from what the tags say.
fn encoded(tags: Tags) -> Vec<u32> {
    tags.iter().flat_map(|tag| [fields(tag.value()), encoded(tag.inner())].concat()).collect()
}

fn fields(tag: AnimatedTag) -> Vec<u32> {
    let f = f32::to_bits;
    let times = |a: Option<i32>, b: Option<i32>| [a.is_some() as u32, a.unwrap_or(0) as u32, b.unwrap_or(0) as u32];
    let part = |part: hannuvel::Part| [part.offset() as u32, part.len() as u32];
    let rgb = |(r, g, b): (u8, u8, u8)| [r, g, b].map(u32::from).to_vec();
    let (kind, words) = match tag {
        Fad { t1_ms, t2_ms } => (1, vec![t1_ms, t2_ms]),
        Fade { a1, a2, a3, t1_ms, t2_ms, t3_ms, t4_ms } => {
            let times = [t1_ms, t2_ms, t3_ms, t4_ms].map(|time| time as u32);
            (2, [[a1, a2, a3].map(u32::from).as_slice(), &times].concat())
        }
        Pos { x, y } => (3, vec![f(x), f(y)]),
        Move { x1, y1, x2, y2, t1_ms, t2_ms } => {
            (4, [[x1, y1, x2, y2].map(f).as_slice(), &times(t1_ms, t2_ms)].concat())
        }
        Frz(x) => (5, vec![f(x)]),
        Blur(x) => (6, vec![f(x)]),
        Fscx(x) => (7, vec![f(x)]),
        Fscy(x) => (8, vec![f(x)]),
        Color1(c) => (9, rgb(c)),
        Fs(x) => (10, vec![f(x)]),
        AnimatedTag::ClipRect { x1, y1, x2, y2 } => (11, [x1, y1, x2, y2].map(f).to_vec()),
        ClipDrawing(p) => (12, part(p).to_vec()),
        Frx(x) => (13, vec![f(x)]),
        Fry(x) => (14, vec![f(x)]),
        Org { x, y } => (15, vec![f(x), f(y)]),
        Bord(x) => (16, vec![f(x)]),
        Xbord(x) => (17, vec![f(x)]),
        Ybord(x) => (18, vec![f(x)]),
        Shad(x) => (19, vec![f(x)]),
        Xshad(x) => (20, vec![f(x)]),
        Yshad(x) => (21, vec![f(x)]),
        Be(n) => (22, vec![n.into()]),
        Fax(x) => (23, vec![f(x)]),
        Fay(x) => (24, vec![f(x)]),
        IClipRect { x1, y1, x2, y2 } => (25, [x1, y1, x2, y2].map(f).to_vec()),
        IClipDrawing(p) => (26, part(p).to_vec()),
        Color2(c) => (27, rgb(c)),
        Color3(c) => (28, rgb(c)),
        Color4(c) => (29, rgb(c)),
        Alpha(n) => (30, vec![n.into()]),
        Alpha1(n) => (31, vec![n.into()]),
        Alpha2(n) => (32, vec![n.into()]),
        Alpha3(n) => (33, vec![n.into()]),
        Alpha4(n) => (34, vec![n.into()]),
        Fsp(x) => (35, vec![f(x)]),
        Q(n) => (36, vec![n.into()]),
        An(n) => (37, vec![n.into()]),
        A(n) => (38, vec![n.into()]),
        Fn(FontName { letters, parameter }) => (39, [part(letters), part(parameter)].concat()),
        Fe(n) => (40, vec![n.into()]),
        R(None) => (41, vec![]),
        R(Some(p)) => (41, [[1].as_slice(), &part(p)].concat()),
        B(n) => (42, vec![n.into()]),
        I(b) => (43, vec![b.into()]),
        U(b) => (44, vec![b.into()]),
        S(b) => (45, vec![b.into()]),
        Karaoke { kind, cs } => (46, vec![kind as u32, cs]),
        Pbo(z) => (47, vec![z as u32]),
        P(n) => (48, vec![n.into()]),
        T { t1_ms, t2_ms, accel, inner } => {
            (49, [times(t1_ms, t2_ms).as_slice(), &[f(accel), inner.places() as u32]].concat())
        }
    };
    let mut record = vec![kind];
    record.extend(words);
    record.resize(8, 0);
    record
}

#[test]
fn every_kind_goes_there_and_back() {
    let mut table = Table::<64>::new();
    let tags = parse_overrides(ALL, &mut table).unwrap();
    let kinds: Vec<_> = tags.iter().map(|tag| tag.kind()).collect();
    assert_eq!(kinds, (1..=49).collect::<Vec<_>>());
    assert_eq!(encoded(tags), tags.words());
    assert_eq!(Tags::stored(ALL, tags.words()), Ok(tags));
}

#[test]
fn every_kind_has_the_name_that_was_read() {
    let mut table = Table::<64>::new();
    for tag in parse_overrides(ALL, &mut table).unwrap() {
        let name = tag.name();
        let again = ALL.split('\\').nth(1 + tag.place()).unwrap();
        assert!(again.starts_with(name), "{name} from {again}");
    }
}

#[test]
fn strings_are_parts_of_the_text() {
    let text = r" {\fnArial(x)\rTop\clip(2,m 0 0)} ";
    let mut table = Table::<8>::new();
    let tags: Vec<_> = parse_raw_block(text, &mut table).unwrap().iter().map(|tag| tag.value()).collect();
    let [Fn(font), R(Some(style)), ClipDrawing(drawing)] = tags[..] else { panic!("{tags:?}") };
    assert_eq!((font.letters.range(), font.parameter.range()), (5..10, 11..12));
    assert_eq!((style.as_str(), style.range()), ("Top", 15..18));
    assert_eq!((drawing.as_str(), &text[drawing.range()]), ("2,m 0 0", "2,m 0 0"));
    assert_eq!(hannuvel::split_clip_arg(drawing.as_str()), Ok((2, "m 0 0")));
}

#[test]
fn tags_nest() {
    let text = r"\b1\t(\i1\t(\u1)\s1)\p1";
    let mut table = Table::<8>::new();
    let tags = parse_overrides(text, &mut table).unwrap();
    let outer = tags.iter().nth(1).unwrap();
    let names = |tags: Tags| tags.iter().map(|tag| (tag.place(), tag.name())).collect::<Vec<_>>();
    assert_eq!(names(tags), [(0, "b"), (1, "t"), (6, "p")]);
    assert_eq!(names(outer.inner()), [(2, "i"), (3, "t"), (5, "s")]);
    assert_eq!(names(outer.inner().iter().nth(1).unwrap().inner()), [(4, "u")]);
    assert_eq!(outer.inner().places(), 4);
    assert_eq!(format!("{:?}", tags.iter().last().unwrap().value()), "P(1)");
}

/// At half the line each \t has gone half the way to what is inside it. The tables are kept and taken up again.
#[test]
fn tags_nest_as_deep_as_they_may() {
    let mut table = Table::<{ MOST_DEPTH + 2 }>::new();
    for depth in 1..=MOST_DEPTH {
        let text = format!(r"\fs20{}\fs40", r"\t(".repeat(depth));
        let kept = parse_overrides(&text, &mut table).unwrap().words().to_vec();
        let tags = Tags::stored(&text, &kept).unwrap();
        assert_eq!(tags.places(), depth + 2);
        let size = |t| tags.evaluate_at(t, 1000).unwrap().font_size;
        assert_eq!([0, 500, 1000].map(size), [20.0, 20.0 + 20.0 / 2f32.powi(depth as i32), 40.0].map(Some));
    }
}

#[test]
fn what_is_inside_stands_for_itself() {
    let mut table = Table::<8>::new();
    let tags = parse_overrides(r"\t(\fs20\fnTop)", &mut table).unwrap();
    let inner = tags.iter().next().unwrap().inner();
    let state = inner.evaluate_at(0, 1000).unwrap();
    assert_eq!(state.font_size, Some(20.0));
    assert_eq!(state.font_name.unwrap(), "Top");
}

#[test]
fn texts_and_tables_of_any_sort_are_lent() {
    fn places(text: &(impl AsRef<[u8]> + ?Sized), table: &mut (impl AsMut<[u32]> + ?Sized)) -> usize {
        parse_overrides(text, table).unwrap().places()
    }
    let text = r"\b1\i1";
    let mut words = vec![0; 40];
    let (first, second): (&mut [u32], &mut [u32]) = words.split_at_mut(20);
    assert_eq!(places(text, first), 2);
    assert_eq!(places(text.as_bytes(), second), 2);
    assert_eq!(first[..16], second[..16]);
    assert_eq!(places(&text.to_owned(), &mut words), 2);
    assert_eq!(places(&text.as_bytes().to_vec(), &mut [0; 16]), 2);
    assert_eq!(places(br"\b1\i1", &mut Table::<2>::new()), 2);
    assert_eq!(places("", &mut Table::<0>::new()), 0);
    assert_eq!(places("", &mut [] as &mut [u32]), 0);
}

/// Every field of a state, each set by its own tag.
#[test]
fn every_field_of_a_state() {
    let text = concat!(
        r"\fad(2000,0)\frz180\frx180\fry-180\fscx50\fscy200\pos(1,2)\blur3\clip(8,7,6,5)\clip(m 1 1)",
        r"\c&H030201&\fs4\org(5,6)\bord7\ybord8\shad9\yshad-10\be11\fax12\fay13\iclip(1,2,3,4)\iclip(m 2 2)",
        r"\2c&H060504&\3c&H090807&\4c&H0C0B0A&\alpha&H10&\2a&H12&\3a&H13&\4a&H14&\fsp15\q3\a6\fnArial(x)\fe128\b1",
        r"\i1\u0\s1\pbo-50\p4",
    );
    let pi = f32::from_bits(0x4049_0FDB);
    let rect = |x1, y1, x2, y2| ClipRect { x1, y1, x2, y2 };
    let mut table = Table::<64>::new();
    let state = parse_overrides(text, &mut table).unwrap().evaluate_at(1000, 1000).unwrap();
    let RenderState { clip_drawing, iclip_drawing, font_name, .. } = state;
    assert_eq!(clip_drawing.unwrap(), "m 1 1");
    assert_eq!(iclip_drawing.unwrap(), "m 2 2");
    assert_eq!(font_name.unwrap(), "Arialx");
    let expected = RenderState {
        alpha_mul: 0.5,
        rotate_radians: pi,
        rotate_x_radians: pi,
        rotate_y_radians: -pi,
        scale: (0.5, 2.0),
        translate: Some((1.0, 2.0)),
        blur_sigma: 3.0,
        clip_rect: Some(rect(6.0, 5.0, 8.0, 7.0)),
        clip_drawing,
        primary_color: Some((1, 2, 3)),
        font_size: Some(4.0),
        pivot: Some((5.0, 6.0)),
        border: Some((7.0, 8.0)),
        shadow: Some((9.0, -10.0)),
        be_strength: 11,
        shear: (12.0, 13.0),
        iclip_rect: Some(rect(1.0, 2.0, 3.0, 4.0)),
        iclip_drawing,
        secondary_color: Some((4, 5, 6)),
        outline_color: Some((7, 8, 9)),
        shadow_color: Some((10, 11, 12)),
        primary_alpha: Some(0x10),
        secondary_alpha: Some(0x12),
        outline_alpha: Some(0x13),
        shadow_alpha: Some(0x14),
        letter_spacing: Some(15.0),
        wrap_style: Some(3),
        alignment: Some(8),
        font_name,
        font_encoding: Some(128),
        bold_weight: Some(700),
        reset_to_style: None,
        italic: Some(true),
        underline: Some(false),
        strikeout: Some(true),
        drawing_baseline_offset: Some(-50),
        drawing_scale: Some(4),
    };
    assert_eq!(state, expected);
}

#[test]
fn a_reset_is_none_plain_or_named() {
    let mut table = Table::<4>::new();
    let mut reset = |text| {
        let state = parse_overrides(text, &mut table).unwrap().evaluate_at(0, 0).unwrap();
        state.reset_to_style.map(|name| name.map(|name| name.range()))
    };
    assert_eq!(reset(r"\fs20"), None);
    assert_eq!(reset(r"\fs20\r"), Some(None));
    assert_eq!(reset(r"\fs20\rTop"), Some(Some(7..10)));
}

/// A generator of numbers, the same ones for a seed.
struct Random(u64);

impl Random {
    fn below(&mut self, limit: usize) -> usize {
        self.0 = self.0.wrapping_mul(6_364_136_223_846_793_005).wrapping_add(1_442_695_040_888_963_407);
        ((self.0 >> 33) % limit as u64) as usize
    }
}

const PIECES: [&str; 40] = [
    r"\fs",
    r"\t(",
    r"\t(0,500,",
    r"\k",
    r"\K",
    r"\ko",
    r"\fn",
    r"\r",
    r"\clip(",
    r"\iclip(",
    r"\pos(",
    r"\move(",
    r"\fad(",
    r"\fade(",
    r"\b",
    r"\i",
    r"\alpha",
    r"\1c",
    r"\4c",
    r"\an",
    r"\a",
    r"\pbo",
    r"\p",
    r"\q",
    r"\be",
    ")",
    "(",
    ",",
    " ",
    "&H",
    "1",
    "20",
    "-3",
    "0.5",
    "500",
    "1000000000",
    "Arial",
    "m 0 0 l 1 1",
    "{",
    "}",
];

#[test]
fn texts_of_all_sorts_are_walked_through() {
    let mut random = Random(1);
    let mut table = Table::<64>::new();
    let mut answered = 0;
    for _ in 0..20_000 {
        let text: String = (0..random.below(24)).map(|_| PIECES[random.below(PIECES.len())]).collect();
        let call = random.below(2);
        let tags = match call {
            0 => parse_overrides(&text, &mut table),
            _ => parse_raw_block(&text, &mut table),
        };
        let Ok(tags) = tags else { continue };
        answered += 1;
        assert_eq!(encoded(tags), tags.words(), "{text}");
        assert_eq!(Tags::stored(&text, tags.words()), Ok(tags), "{text}");
        let (t, duration) = (random.below(2000) as i32, random.below(2000) as i32);
        let state = tags.evaluate_at(t, duration).unwrap();
        let parts = [state.clip_drawing, state.iclip_drawing, state.reset_to_style.flatten()];
        for part in parts.into_iter().flatten() {
            assert_eq!(&text[part.range()], part.as_str(), "{text}");
        }
        // Up to the next mark the state stays.
        let last = tags.next_mark(t, duration).unwrap().map_or(t + 5000, |mark| mark - 1);
        assert_eq!(format!("{:?}", tags.evaluate_at(last, duration).unwrap()), format!("{state:?}"), "{text}");
    }
    assert!(answered > 15_000, "{answered} answered");
}

#[test]
fn karaoke_kinds_are_told_apart() {
    let mut table = Table::<8>::new();
    let tags = parse_overrides(r"\k1\kf2\K3\ko4\KO5", &mut table).unwrap();
    let kinds: Vec<_> = tags
        .iter()
        .map(|tag| match tag.value() {
            Karaoke { kind, cs } => (kind, cs),
            other => panic!("{other:?}"),
        })
        .collect();
    use KaraokeKind::*;
    assert_eq!(kinds, [(Fill, 1), (Sweep, 2), (Sweep, 3), (Outline, 4), (Outline, 5)]);
}
