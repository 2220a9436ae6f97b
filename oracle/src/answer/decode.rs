//! A well-formed table as tags of the Rust. A string is spelled by its parts, so that two names
//! differ when their parts differ (01, Owned Rust values).

use super::record::{Record, WIDTH};
use crate::built::animate::{AnimatedTag, KaraokeKind};
use crate::rule::block::Part;
use crate::rule::table::TRANSITION;

/// The tags that a well-formed table stands for.
pub fn tags(words: &[u32]) -> Vec<AnimatedTag> {
    let mut tags = Vec::new();
    let mut rest = words;
    while let Some((record, behind)) = rest.split_first_chunk::<WIDTH>() {
        let inside = if record[0] == TRANSITION {
            record[5] as usize
        } else {
            0
        };
        let (inner, next) = behind.split_at(WIDTH * inside);
        tags.push(tag(record, inner));
        rest = next;
    }
    tags
}

fn tag(record: &Record, inner: &[u32]) -> AnimatedTag {
    use AnimatedTag::*;
    let [kind, words @ ..] = *record;
    let [a, b, c, d, e, f, g] = words;
    let [x1, y1, x2, y2] = [a, b, c, d].map(f32::from_bits);
    let colour = (a as u8, b as u8, c as u8);
    let byte = a as u8;
    let flag = a == 1;
    match kind {
        1 => Fad { t1_ms: a, t2_ms: b },
        2 => Fade {
            a1: a as u8,
            a2: b as u8,
            a3: c as u8,
            t1_ms: d as i32,
            t2_ms: e as i32,
            t3_ms: f as i32,
            t4_ms: g as i32,
        },
        3 => Pos { x: x1, y: y1 },
        4 => Move {
            x1,
            y1,
            x2,
            y2,
            t1_ms: time(e, f),
            t2_ms: time(e, g),
        },
        5 => Frz(x1),
        6 => Blur(x1),
        7 => Fscx(x1),
        8 => Fscy(x1),
        9 => Color1(colour),
        10 => Fs(x1),
        11 => ClipRect { x1, y1, x2, y2 },
        12 => ClipDrawing(spelled([a, b, 0, 0])),
        13 => Frx(x1),
        14 => Fry(x1),
        15 => Org { x: x1, y: y1 },
        16 => Bord(x1),
        17 => Xbord(x1),
        18 => Ybord(x1),
        19 => Shad(x1),
        20 => Xshad(x1),
        21 => Yshad(x1),
        22 => Be(byte),
        23 => Fax(x1),
        24 => Fay(x1),
        25 => IClipRect { x1, y1, x2, y2 },
        26 => IClipDrawing(spelled([a, b, 0, 0])),
        27 => Color2(colour),
        28 => Color3(colour),
        29 => Color4(colour),
        30 => Alpha(byte),
        31 => Alpha1(byte),
        32 => Alpha2(byte),
        33 => Alpha3(byte),
        34 => Alpha4(byte),
        35 => Fsp(x1),
        36 => Q(byte),
        37 => An(byte),
        38 => A(byte),
        39 => Fn(spelled([a, b, c, d])),
        40 => Fe(byte),
        41 => R(flag.then(|| spelled([b, c, 0, 0]))),
        42 => B(a as u16),
        43 => I(flag),
        44 => U(flag),
        45 => S(flag),
        46 => Karaoke {
            kind: karaoke_kind(a),
            cs: b,
        },
        47 => Pbo(a as i32),
        48 => P(byte),
        TRANSITION => T {
            t1_ms: time(a, b),
            t2_ms: time(a, c),
            accel: f32::from_bits(d),
            inner: tags(inner),
        },
        _ => unreachable!("a well-formed table has kinds 1 to 49"),
    }
}

fn karaoke_kind(word: u32) -> KaraokeKind {
    match word {
        0 => KaraokeKind::Fill,
        1 => KaraokeKind::Sweep,
        _ => KaraokeKind::Outline,
    }
}

fn time(flag: u32, word: u32) -> Option<i32> {
    (flag == 1).then_some(word as i32)
}

/// Two parts, each an offset and a length, as a string.
fn spelled(words: [u32; 4]) -> String {
    words.map(|word| word.to_string()).join(",")
}

/// The parts that a string spells.
pub fn parts(string: &str) -> [Part; 2] {
    let mut words = string
        .split(',')
        .map(|word| word.parse().expect("a spelled part"));
    let mut next = || words.next().expect("four words");
    [(); 2].map(|()| Part {
        offset: next(),
        length: next(),
    })
}

#[cfg(test)]
mod tests {
    use super::*;
    use crate::answer::record::record;
    use crate::generate::table::well_formed;
    use crate::random::Random;

    /// Writes tags again that were decoded.
    fn encoded(tags: &[AnimatedTag], words: &mut Vec<u32>) {
        use AnimatedTag::*;
        for tag in tags {
            let name = match tag {
                ClipDrawing(s) | IClipDrawing(s) | Fn(s) | R(Some(s)) => parts(s),
                _ => Default::default(),
            };
            let mut inside = Vec::new();
            if let T { inner, .. } = tag {
                encoded(inner, &mut inside);
            }
            words.extend(record(tag, name, inside.len() / WIDTH));
            words.append(&mut inside);
        }
    }

    #[test]
    fn decoding_undoes_encoding() {
        for case in 0..3_000 {
            let table = well_formed(&mut Random::new(1, case));
            let mut again = Vec::new();
            encoded(&tags(&table), &mut again);
            assert_eq!(again, table);
        }
    }
}
