//! Texts to measure with: short ones as typesetters write them, and long ones made from pieces.

mod kinds;

pub use kinds::{DURATION, INSTANT, kinds};

use crate::rule::refusal::MOST_BYTES;

/// Short blocks, most of one tag.
pub fn typical() -> Vec<String> {
    lines(include_str!("typical.txt"))
}

/// Blocks of karaoke and signs, with \t, moves and clips.
pub fn scripts() -> Vec<String> {
    lines(include_str!("scripts.txt"))
}

/// Blocks of signs: a place, a font, colours, turns, clips.
pub fn signs() -> Vec<String> {
    lines(include_str!("signs.txt"))
}

/// Blocks of karaoke: beats, and \t that light a syllable up and let it go.
pub fn karaoke() -> Vec<String> {
    lines(include_str!("karaoke.txt"))
}

/// Blocks that move and fade.
pub fn moves() -> Vec<String> {
    lines(include_str!("moves.txt"))
}

/// Drawings, which are clip arguments too.
pub fn drawings() -> Vec<String> {
    lines(include_str!("drawings.txt"))
}

fn lines(file: &str) -> Vec<String> {
    file.lines().map(str::to_owned).collect()
}

/// Tags of many kinds, twelve bytes to a tag.
pub const MIXED: &str = "\\an8\\pos(320,50)\\fad(200,200)\\1c&HF2E6D8&\\3c&H3A2B1C&\\b1\\fs36\
    \\blur0.6\\fscx110\\frz-12.5\\fnTimes New Roman\\move(120,40,520,40)\\clip(100,200,540,280)\
    \\t(0,300,\\fscx120\\1a&H40&)\\k25\\org(640.5,360.5)\\i1\\fade(255,0,255,0,300,2000,2400)\
    \\iclip(m 0 0 l 80 0 80 40 0 40)\\rDefault";

/// Tags of many kinds without \t, twelve bytes to a tag.
const FLAT: [&str; 23] = [
    "\\an8",
    "\\pos(320,50)",
    "\\fad(200,200)",
    "\\1c&HF2E6D8&",
    "\\b1",
    "\\fs36",
    "\\blur0.6",
    "\\fscx110",
    "\\frz-12.5",
    "\\fnTimes",
    "\\move(1,4,5,4,0,250)",
    "\\clip(1,2,54,28)",
    "\\1a&H40&",
    "\\be1",
    "\\k25",
    "\\org(640.5,360.5)",
    "\\i1",
    "\\fade(255,0,255,0,300,2000,2400)",
    "\\iclip(m 0 0 l 8 0)",
    "\\bord2",
    "\\fsp1.5",
    "\\3c&H3A2B1C&",
    "\\pbo3",
];

/// So many tags without \t.
pub fn flat(records: usize) -> String {
    FLAT.iter().cycle().take(records).copied().collect()
}

/// So many beats, one behind the other.
pub fn beats(records: usize) -> String {
    let beats = ["\\k12", "\\kf25", "\\ko9"].iter().cycle().take(records);
    beats.copied().collect()
}

/// Numerals of up to nine and nine digits.
pub const NUMERALS: &str = "\\pos(123456789.987654321,-640.123456789)\\fscx98765432.1\
    \\pos(0.000123456,999999999)\\fscx100.123456789";

/// Numerals with an exponent, as drawing tools export them.
pub const EXPONENTS: &str = "\\fscx2.5E-3\\pos(1.25e2,3e+1)\\fay-7.8125E-02\\move(0e0,1.5e2,6.4e+2,4.8e+2)\
    \\frz-4.5e1\\org(3.203125e+02,1.8e+02)\\blur6e-1\\clip(1e2,2e2,5.4e2,2.8E2)";

/// Tags that may stand in \t.
pub const INNER: &str = "\\fscx123.25\\frz(-123.500)   ";

/// What stands before tags that are so many \t deep.
pub fn opened(depth: usize) -> String {
    let numbers = ["0,100,", "", "2,", "", "", "", "", ""].iter().cycle();
    let fronts = numbers.take(depth).map(|numbers| format!("\\t({numbers}"));
    fronts.collect()
}

/// Lines, cubics and splines, thirteen bytes to a command.
pub const DRAWN_MIX: &str = "m 10 0 l 290.5 0 b 296.25 0 300 4.5 300 10 l 300.5 50 310.25 55 \
    b 300.75 56 296.5 60.25 290 60 280.5 60 270.25 58.5 262 61 s 40 0.5 40.5 40 12.75 40.5 p 12 18.25 c ";

/// Lines and cubics whose numbers have an exponent.
pub const DRAWN_EXPONENTS: &str = "m 1e1 0e0 l 2.905e2 0e0 b 2.9625e+02 0e+00 3.0e+02 4.5e+00 3.0e+02 1.0e+01 \
    l 3.005e2 5e1 3.1025E2 5.5E1 b 7.8125E-3 5.6e1 -2.965e-1 6.025e1 2.9e2 6e1 c ";

/// The front, then the piece again and again, cut to the number of bytes.
pub fn repeated(front: &str, piece: &str, bytes: usize) -> String {
    let mut text = front.to_owned();
    while text.len() < bytes {
        text.push_str(piece);
    }
    text.truncate(bytes);
    text
}

/// The longest text of the front and whole pieces; the front alone for an empty piece.
pub fn longest(front: &str, piece: &str) -> String {
    let pieces = (MOST_BYTES - front.len())
        .checked_div(piece.len())
        .unwrap_or(0);
    front.to_owned() + &piece.repeat(pieces)
}

/// A short block so many \t deep.
pub fn deep(depth: usize) -> String {
    let (front, rest) = (opened(depth), ")".repeat(depth - 1));
    format!("{front}\\fscx120\\frz-12.5)\\1a&H40&{rest}")
}

/// The longest block so many \t deep, closed.
pub fn longest_deep(depth: usize) -> String {
    let mut text = longest(&opened(depth), INNER);
    text.truncate(text.len() - depth);
    text + &")".repeat(depth)
}

/// So many records of accelerated \t, each with one tag inside.
pub fn accelerated(records: usize) -> String {
    const PIECES: [&str; 4] = [
        "\\t(0,2999,1.5,\\fs9)",
        "\\t(0,2000,0.3,\\frz9)",
        "\\t(7.53125,\\bord2)",
        "\\t(90,2950,3,\\be2)",
    ];
    let pieces = PIECES.iter().cycle().take(records / 2);
    pieces.copied().collect()
}

/// So many records in groups of so many \t, one inside the other, around a tag.
pub fn nested(depth: usize, records: usize) -> String {
    let mut text = String::new();
    let mut left = records;
    while left > 0 {
        let group = left.min(depth + 1);
        let around = group.min(depth);
        let tag = if group > depth { "\\frz9" } else { "" };
        text += &"\\t(9,90,.5,".repeat(around);
        text += tag;
        text += &")".repeat(around);
        left -= group;
    }
    text
}

/// Short blocks that 01 refuses: ten digits before or behind the point, written out or by an exponent,
/// and a far \fade.
pub fn refused() -> Vec<String> {
    let texts = [
        "\\fs1e9",
        "\\pos(1234567890,50)",
        "\\an8\\fscx100.1234567890",
        "\\fade(255,0,255,0,300,2000,2000000000)",
        "\\t(0,1e9,\\fs40)",
        "\\pos(320,50)\\frz4.5e9\\i1",
    ];
    texts.map(str::to_owned).to_vec()
}

/// Long ones, refused for a tag at the front and for one at the end.
pub fn refused_long() -> Vec<String> {
    let mut texts = Vec::new();
    for tag in refused() {
        let block = repeated("", MIXED, 45 * MIXED.len());
        texts.push(format!("{tag}{block}"));
        texts.push(format!("{block}{tag}"));
    }
    texts
}

/// Each text between braces, as the raw call takes it.
pub fn in_braces(texts: &[String]) -> Vec<String> {
    texts.iter().map(|text| format!("{{{text}}}")).collect()
}

/// Each text behind a scale and a comma.
pub fn with_scale(texts: &[String]) -> Vec<String> {
    texts.iter().map(|text| format!("2,{text}")).collect()
}

#[cfg(test)]
mod tests {
    use super::*;
    use crate::built::drawing::parse_drawing;
    use crate::rule::block::{Reading, overrides};
    use crate::rule::drawing::refused_token;
    use crate::rule::refusal::MOST_PLACES;

    fn median(mut numbers: Vec<usize>) -> usize {
        numbers.sort_unstable();
        numbers[numbers.len() / 2]
    }

    fn is_read(reading: &Reading) -> bool {
        reading.too_long.is_none() && reading.far_fade.is_none()
    }

    fn kept(text: &str) -> usize {
        assert!(text.len() <= MOST_BYTES);
        let reading = overrides(text.as_bytes());
        assert!(is_read(&reading), "{text}");
        reading.kept.len()
    }

    #[test]
    fn typical_blocks_are_short_and_kept_whole() {
        let texts = typical();
        assert!((60..=100).contains(&texts.len()));
        assert_eq!(median(texts.iter().map(String::len).collect()), 14);
        assert_eq!(median(texts.iter().map(|text| kept(text)).collect()), 1);
        let scripts = [scripts(), signs(), karaoke(), moves()].concat();
        for text in texts.iter().chain(&scripts) {
            assert_eq!(kept(text), text.matches('\\').count(), "{text}");
        }
        assert!(scripts.iter().all(|text| (60..=200).contains(&text.len())));
    }

    #[test]
    fn long_blocks_fill_the_table_and_no_more() {
        assert!((1_000..=1_024).contains(&kept(&repeated("", MIXED, MOST_BYTES))));
        assert_eq!(kept(&longest("", NUMERALS)) % 4, 0);
        let exponents = kept(&longest("", EXPONENTS));
        assert!(exponents.is_multiple_of(8) && exponents <= MOST_PLACES);
    }

    #[test]
    fn deep_blocks_are_as_deep_as_they_say() {
        assert_eq!(opened(8), "\\t(0,100,\\t(\\t(2,\\t(\\t(\\t(\\t(\\t(");
        for depth in [1, 8, 16] {
            assert_eq!(kept(&deep(depth)), depth + 3);
            assert!(kept(&longest_deep(depth)) > 800);
            for text in [deep(depth), longest_deep(depth), nested(depth, 100)] {
                assert_eq!(overrides(text.as_bytes()).depth, depth);
            }
        }
    }

    #[test]
    fn blocks_have_the_records_asked_for() {
        for records in [1, 8, 9, 10, 16, 17, 18, 100, 1_000] {
            assert_eq!(kept(&flat(records)), records);
            assert_eq!(kept(&nested(8, records)), records);
            assert_eq!(kept(&nested(16, records)), records);
        }
        assert_eq!(kept(&accelerated(1_000)), 1_000);
    }

    #[test]
    fn refused_texts_are_refused() {
        for text in refused().iter().chain(&refused_long()) {
            assert!(text.len() <= MOST_BYTES);
            assert!(!is_read(&overrides(text.as_bytes())), "{text}");
        }
    }

    #[test]
    fn drawings_are_read_and_fit() {
        let long = [DRAWN_MIX, DRAWN_EXPONENTS].map(|piece| longest("", piece));
        for text in drawings().iter().chain(&long) {
            assert_eq!(refused_token(text.as_bytes()), None);
            assert!(parse_drawing(text, 1).words.len() <= 8 * MOST_PLACES);
        }
    }
}
