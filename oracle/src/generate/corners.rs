//! Lines for evaluation and marks: odd orders of times, accelerations, resets, and times above what
//! an f32 holds whole.

use crate::answer::record::WIDTH;
use crate::random::Random;
use crate::rule::table::TRANSITION;

/// Durations: beyond the range, at its ends, negative, 0, short, and above 2^24.
pub const DURATIONS: [i32; 13] = [
    -1_000_000_001,
    -1_000_000_000,
    -5,
    -1,
    0,
    1,
    2,
    250,
    1_000,
    16_777_219,
    999_999_999,
    1_000_000_000,
    1_000_000_001,
];

/// Bits of accelerations: 0 and around f32::EPSILON, fractions, whole numbers, around 64, far ones.
pub const ACCELERATIONS: [u32; 22] = [
    0x0000_0000,
    0x0000_0001,
    0x0080_0000,
    0x33FF_FFFF,
    0x3400_0000,
    0x3400_0001,
    0x3B7F_FFFF, // below 1/256
    0x3B80_0000,
    0x3DCC_CCCD, // 0.1
    0x3F00_0000,
    0x3F7F_FFFF,
    0x3F80_0000,
    0x3F8C_CCCD, // 1.1
    0x3FC0_0000,
    0x4000_0000,
    0x4049_0FDB,
    0x40F1_0000, // 7.53125
    0x427F_FFFF,
    0x4280_0000,
    0x4280_0001,
    0x42C8_0000, // 100
    0x4E6E_6B28, // 10^9
];

/// Each field one way.
const FIELDS: &str = "\\fs20\\pos(10.5,-20)\\frz30\\frx-40\\fry50.5\\blur3\\fscx80\\fscy125\
    \\1c&H1020FF&\\2c&H00FF01&\\3c&H808081&\\4c&HFFFFFF&\\1a&HFF&\\2a&H01&\\3a&H80&\\4a&H00&\
    \\clip(1,2,30,40)\\clip(m 0 0 l 1 1)\\iclip(9,8,7,6)\\iclip(m 5 5)\\org(0,-0)\\xbord1.5\
    \\ybord2\\xshad-3\\yshad4.25\\be7\\fax0.1\\fay-0.2\\fsp2\\q2\\an7\\fnArial\\fe1\\b700\\i1\\u0\\s1\
    \\pbo-51\\p1\\k20\\fad(300,200)";

/// Each field another way.
const OTHERS: &str = "\\fs40.5\\pos(-5,64)\\frz-390\\frx12\\fry0\\blur-1\\fscx-20\\fscy0\
    \\1c&HFF2010&\\2c&H010000&\\3c&H7F7F7F&\\4c&H000000&\\1a&H00&\\2a&HFE&\\3a&H7F&\\4a&HFF&\
    \\clip(100,90,3,4)\\clip(m 2 2)\\iclip(0,0,0,0)\\iclip(m 6 6)\\org(-0,0)\\bord5\
    \\shad-6\\be250\\fax-0.5\\fay0.25\\fsp-3.5\\q1\\a10\\fnTimes(x)\\fe204\\b0\\i0\\u1\\s0\
    \\pbo1000\\p0\\kf5\\fade(255,32,128,100,300,600,900)";

/// Texts of lines; `<` stands for FIELDS and `>` for OTHERS.
const TEXTS: &[&str] = &[
    "<",
    ">",
    "\\t(100,900,<)",
    "\\t(>)",
    "<\\t(100,900,>)",
    "<\\t(2,>)",
    ">\\t(900,100,0.5,<)",
    "<\\t(500,500,>)",
    "<\\t(100,900,\\r)",
    "<\\t(100,900,\\rAlt)",
    "<\\t(100,900,\\rAlt\\fs9>)",
    "\\rAlt\\t(100,900,\\r)",
    "\\r\\t(100,900,\\rAlt)\\t(200,300,\\rOther)",
    "<\\t(0,500,\\t(200,800,\\r))",
    "<\\t(0,500,>\\t(200,800,1.5,<))\\t(400,600,\\rAlt)",
    "\\org(0,0)\\t(100,900,\\org(-0,0))",
    "\\org(-0,-0)\\t(100,900,\\org(0,0))",
    "\\t(100,900,\\org(0,-0))",
    "\\org(0,1)\\t(100,900,\\org(-0,2))",
    "\\frz-0\\t(100,900,\\frz0)\\fax-0\\t(\\fax0)",
    "\\blur2\\t(100,900,\\blur-0)\\t(0,800,-1,\\blur0.5)",
    "\\t(0,100,\\pbo1)\\t(50,150,\\pbo-3)\\t(0,1000,\\be1)",
    "\\pbo999999999\\t(0,777,\\pbo-999999999)",
    "\\alpha&HFF&\\t(0,2,\\alpha&H00&)\\1c&HFF0000&\\t(0,2,\\1c&H000000&)",
    "\\move(0,0,100,50)",
    "\\move(0,0,100,50,900,100)",
    "\\move(1,2,3,4,500,500)\\t(\\move(5,6,7,8))",
    "\\move(0,0,1000.5,-7,-16777219,16777217)",
    "\\fs1\\t(16777217,33554435,1.5,\\fs1000)",
    "\\fs1\\t(-999999999,999999999,\\fs1000)\\t(-33554433,7,\\1a&HFF&)",
    "\\fade(255,0,64,16777217,33554433,500000001,999999999)",
    "\\fad(16777217,33554433)\\t(\\fad(3,5))",
    "\\fad(2147483647,0)",
    "\\fad(0,2147483647)\\fad(2147483647,2147483647)",
    "\\t(\\t(\\t(\\t(\\t(\\t(\\t(\\t(<))))))))",
    "<\\t(0,900,2,\\fs30\\t(100,800,0.5,\\fs9\\t(1.1,\\frz9\\t(\\t(0,70,\\t(3,\\t(80,90,\\t(5,6,>))))))))",
    "<\\t(0,900,2,\\fs30\\t(0.5,\\frz9\\t(50,950,\\t(1.1,\\be3\\t(\\t(3,\\t(100,800,0.5,\\frx9\\t(5,6,\\t(0.7,\
    \\t(10,990,\\bord3\\t(2,\\t(\\t(80,90,\\fs9\\t(60,900,3,\\t(0,999,1.5,\\t(0.9,>))))))))))))))))",
];

/// Lines that are over within 70 milliseconds, to be walked whole.
const SHORT_TEXTS: &[&str] = &[
    "\\fad(7,9)",
    "\\fad(0,90)",
    "\\fad(50,50)\\i1",
    "\\fade(255,0,128,30,20,5,9)",
    "\\fade(0,255,0,3,9,9,33)",
    "\\move(0,0,10,10)",
    "\\move(0,0,10,10,30,12)\\t(\\fs9)",
    "\\fs20\\t(5,25,2,\\fs40)\\t(31,31,\\b1)",
    "\\t(10,20,-1,\\fs9\\t(40,44,\\fad(3,4)))",
    "<\\t(9,11,\\t(0.001,\\t(50,66,\\r)))",
    "<\\t(20,30,\\rAlt>)",
    "\\an8\\k20",
    "",
];

/// Lines in which \t blends opacities, up to 1 and down from it; `@` stands for each of FADED.
const BLENDS: &[&str] = &[
    "@\\t(0,29,\\r)",
    "\\t(@)",
    "@\\t(3,31,0.1,\\t(2,37,3,\\r))",
    "\\t(0,37,1.1,@\\t(3,\\r\\t(0.7,@)))",
    "@\\t(0,23,\\r)\\t(1,19,-1,@)\\t(5,17,0.3,\\r@)",
];

const FADED: &[&str] = &[
    "\\fad(7,5)",
    "\\fad(31,29)",
    "\\fad(0,16777213)",
    "\\fad(2147483647,0)",
    "\\fade(255,0,254,3,11,19,41)",
    "\\fade(1,254,0,-7,13,13,29)",
    "\\fad(13,11)\\fade(128,1,127,2,5,23,47)",
];

pub fn texts() -> impl Iterator<Item = Vec<u8>> {
    TEXTS.iter().map(filled)
}

/// One of the texts of lines.
pub fn corner(random: &mut Random) -> Vec<u8> {
    filled(random.pick(TEXTS))
}

pub fn short_texts() -> impl Iterator<Item = Vec<u8>> {
    SHORT_TEXTS.iter().map(filled)
}

pub fn blends() -> impl Iterator<Item = Vec<u8>> {
    let pairs = BLENDS
        .iter()
        .flat_map(|text| FADED.iter().map(move |fade| (text, fade)));
    pairs.map(|(text, fade)| text.replace('@', fade).into_bytes())
}

fn filled(text: &&str) -> Vec<u8> {
    let text = text.replace('<', FIELDS).replace('>', OTHERS);
    text.into_bytes()
}

/// The table with each \t's acceleration replaced by each of both signs.
pub fn accelerated(table: &[u32]) -> impl Iterator<Item = Vec<u32>> + '_ {
    let signed = ACCELERATIONS.into_iter().flat_map(|a| [a, a | 1 << 31]);
    signed.map(|acceleration| {
        let mut table = table.to_vec();
        for record in table.chunks_exact_mut(WIDTH) {
            if record[0] == TRANSITION {
                record[4] = acceleration;
            }
        }
        table
    })
}

/// \fade with its times in every order, equal ones among them.
pub fn fades() -> Vec<Vec<u32>> {
    let times = [-20, 0, 30, 700].map(|time: i32| time as u32);
    let mut tables = Vec::new();
    for choice in 0..256 {
        let time = |place: u32| times[choice >> (2 * place) & 3];
        tables.push(vec![2, 255, 0, 128, time(0), time(1), time(2), time(3)]);
    }
    tables
}

/// \fad with short, long and no times.
pub fn fads() -> Vec<Vec<u32>> {
    let times = [
        0,
        1,
        2,
        251,
        1_000,
        1_001,
        16_777_219,
        1_000_000_000,
        i32::MAX as u32,
    ];
    let pairs = times.iter().flat_map(|&t1| times.map(|t2| (t1, t2)));
    pairs
        .map(|(t1, t2)| vec![1, t1, t2, 0, 0, 0, 0, 0])
        .collect()
}

#[cfg(test)]
mod tests {
    use super::*;
    use crate::built::animate::{AnimatedTag, CueAnimation, parse_overrides};
    use crate::rule::block::overrides;
    use crate::rule::numeral::ascii;

    fn read(text: &str) -> Vec<AnimatedTag> {
        let mut tags = Vec::new();
        parse_overrides(ascii(&filled(&text)), &mut tags);
        tags
    }

    #[test]
    fn every_tag_of_the_lines_is_kept() {
        for text in texts().chain(short_texts()).chain(blends()) {
            let text = String::from_utf8(text).unwrap();
            let count = text.matches('\\').count();
            assert_eq!(tags_in(&read(&text)), count, "{text}");
        }
    }

    #[test]
    fn lines_nest_eight_and_sixteen_deep() {
        let depths: Vec<usize> = texts().map(|text| overrides(&text).depth).collect();
        assert!(depths.contains(&8) && depths.contains(&16), "{depths:?}");
    }

    fn tags_in(tags: &[AnimatedTag]) -> usize {
        let inside = tags.iter().map(|tag| match tag {
            AnimatedTag::T { inner, .. } => tags_in(inner),
            _ => 0,
        });
        tags.len() + inside.sum::<usize>()
    }

    #[test]
    fn every_option_but_the_reset_is_set() {
        for text in ["<", ">"] {
            let state = CueAnimation { tags: read(text) }.evaluate_at(450, 1_000);
            assert_eq!(state.reset_to_style, None);
            assert_eq!(format!("{state:?}").matches("None").count(), 1);
        }
    }

    /// Behind its first line's \t, at the share 1, an opacity goes to 1 by a sum that is above it
    /// before it is rounded.
    #[test]
    fn blends_meet_both_ends_and_pass_1_before_rounding() {
        let opacity = |text: &str, t| {
            CueAnimation { tags: read(text) }
                .evaluate_at(t, 61)
                .alpha_mul
        };
        let (mut ends, mut between, mut above) = ([0, 0], 0, 0);
        for text in blends() {
            let text = String::from_utf8(text).unwrap();
            for t in 0..61 {
                match opacity(&text, t) {
                    0.0 => ends[0] += 1,
                    1.0 => ends[1] += 1,
                    _ => between += 1,
                }
            }
        }
        for fade in FADED {
            for t in 29..61 {
                let start = opacity(fade, t);
                above += i32::from(f64::from(start) + f64::from(1.0 - start) > 1.0);
                let text = format!("{fade}\\t(0,29,\\r)");
                assert_eq!(opacity(&text, t), start + (1.0 - start));
            }
        }
        assert!(
            ends[0] > 10 && ends[1] > 100 && between > 1_000 && above > 10,
            "{ends:?} {between} {above}"
        );
    }

    #[test]
    fn accelerations_stand_on_both_sides_of_the_least() {
        let least = f32::EPSILON.to_bits();
        assert!(
            [least - 1, least, least + 1]
                .iter()
                .all(|a| ACCELERATIONS.contains(a))
        );
        let t = [TRANSITION, 0, 0, 0, 0, 0, 0, 0];
        let tables: Vec<Vec<u32>> = accelerated(&t).collect();
        assert_eq!(tables.len(), 2 * ACCELERATIONS.len());
        assert_eq!(tables[1][4], 1 << 31);
    }
}
