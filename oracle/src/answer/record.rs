//! 01, A table record: a tag of the Rust as eight words.

use crate::built::animate::{AnimatedTag, KaraokeKind};
use crate::rule::block::Part;

pub const WIDTH: usize = 8;

pub type Record = [u32; WIDTH];

/// The place of the case in `AnimatedTag`, counted from 1.
pub fn kind(tag: &AnimatedTag) -> u32 {
    use AnimatedTag::*;
    match tag {
        Fad { .. } => 1,
        Fade { .. } => 2,
        Pos { .. } => 3,
        Move { .. } => 4,
        Frz(_) => 5,
        Blur(_) => 6,
        Fscx(_) => 7,
        Fscy(_) => 8,
        Color1(_) => 9,
        Fs(_) => 10,
        ClipRect { .. } => 11,
        ClipDrawing(_) => 12,
        Frx(_) => 13,
        Fry(_) => 14,
        Org { .. } => 15,
        Bord(_) => 16,
        Xbord(_) => 17,
        Ybord(_) => 18,
        Shad(_) => 19,
        Xshad(_) => 20,
        Yshad(_) => 21,
        Be(_) => 22,
        Fax(_) => 23,
        Fay(_) => 24,
        IClipRect { .. } => 25,
        IClipDrawing(_) => 26,
        Color2(_) => 27,
        Color3(_) => 28,
        Color4(_) => 29,
        Alpha(_) => 30,
        Alpha1(_) => 31,
        Alpha2(_) => 32,
        Alpha3(_) => 33,
        Alpha4(_) => 34,
        Fsp(_) => 35,
        Q(_) => 36,
        An(_) => 37,
        A(_) => 38,
        Fn(_) => 39,
        Fe(_) => 40,
        R(_) => 41,
        B(_) => 42,
        I(_) => 43,
        U(_) => 44,
        S(_) => 45,
        Karaoke { .. } => 46,
        Pbo(_) => 47,
        P(_) => 48,
        T { .. } => 49,
    }
}

/// The record of a tag whose strings are the given parts and which has so many tags inside.
pub fn record(tag: &AnimatedTag, parts: [Part; 2], inside: usize) -> Record {
    let mut record = [0; WIDTH];
    record[0] = kind(tag);
    let fields = fields(tag, parts, inside);
    record[1..=fields.len()].copy_from_slice(&fields);
    record
}

fn fields(tag: &AnimatedTag, [first, second]: [Part; 2], inside: usize) -> Vec<u32> {
    use AnimatedTag::*;
    match tag {
        Fad { t1_ms, t2_ms } => vec![*t1_ms, *t2_ms],
        Fade {
            a1,
            a2,
            a3,
            t1_ms,
            t2_ms,
            t3_ms,
            t4_ms,
        } => {
            let times = [t1_ms, t2_ms, t3_ms, t4_ms];
            let alphas = [a1, a2, a3].map(|&alpha| u32::from(alpha));
            alphas
                .into_iter()
                .chain(times.map(|&time| time as u32))
                .collect()
        }
        Move {
            x1,
            y1,
            x2,
            y2,
            t1_ms,
            t2_ms,
        } => {
            let mut words = bits(&[*x1, *y1, *x2, *y2]);
            words.extend(times(*t1_ms, *t2_ms));
            words
        }
        Pos { x, y } | Org { x, y } => bits(&[*x, *y]),
        ClipRect { x1, y1, x2, y2 } | IClipRect { x1, y1, x2, y2 } => bits(&[*x1, *y1, *x2, *y2]),
        Frz(v) | Blur(v) | Fscx(v) | Fscy(v) | Fs(v) | Frx(v) | Fry(v) | Bord(v) | Xbord(v)
        | Ybord(v) | Shad(v) | Xshad(v) | Yshad(v) | Fax(v) | Fay(v) | Fsp(v) => bits(&[*v]),
        Color1((r, g, b)) | Color2((r, g, b)) | Color3((r, g, b)) | Color4((r, g, b)) => {
            [*r, *g, *b].map(u32::from).to_vec()
        }
        ClipDrawing(_) | IClipDrawing(_) => part(first).to_vec(),
        Fn(_) => [part(first), part(second)].concat(),
        R(name) => {
            let [offset, length] = part(first);
            vec![u32::from(name.is_some()), offset, length]
        }
        Be(n) | Alpha(n) | Alpha1(n) | Alpha2(n) | Alpha3(n) | Alpha4(n) | Q(n) | An(n) | A(n)
        | Fe(n) | P(n) => vec![u32::from(*n)],
        B(weight) => vec![u32::from(*weight)],
        I(flag) | U(flag) | S(flag) => vec![u32::from(*flag)],
        Karaoke { kind, cs } => vec![karaoke_kind(*kind), *cs],
        Pbo(y) => vec![*y as u32],
        T {
            t1_ms,
            t2_ms,
            accel,
            ..
        } => {
            let mut words = times(*t1_ms, *t2_ms).to_vec();
            words.extend([accel.to_bits(), inside as u32]);
            words
        }
    }
}

/// Fill 0, Sweep 1, Outline 2.
pub fn karaoke_kind(kind: KaraokeKind) -> u32 {
    match kind {
        KaraokeKind::Fill => 0,
        KaraokeKind::Sweep => 1,
        KaraokeKind::Outline => 2,
    }
}

fn bits(values: &[f32]) -> Vec<u32> {
    values.iter().map(|value| value.to_bits()).collect()
}

fn part(part: Part) -> [u32; 2] {
    [part.offset as u32, part.length as u32]
}

/// One flag for both times; absent times are 0.
fn times(first: Option<i32>, second: Option<i32>) -> [u32; 3] {
    match (first, second) {
        (Some(first), Some(second)) => [1, first as u32, second as u32],
        _ => [0, 0, 0],
    }
}
