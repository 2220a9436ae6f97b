//! Numerals, whole numbers and hexadecimal spellings, good, at a limit and malformed; and bit
//! patterns of floats.

use crate::random::Random;

/// Blanks of 01, with the rarer ones among them.
const BLANKS: &[u8] = b"  \t\n\x0b\x0c\r ";

/// A few blanks, mostly none.
pub fn blanks(random: &mut Random, text: &mut Vec<u8>) {
    if random.one_in(8) {
        for _ in 0..random.between(1, 3) {
            text.push(*random.pick(BLANKS));
        }
    }
}

fn sign(random: &mut Random, text: &mut Vec<u8>) {
    match random.below(8) {
        0 => text.push(b'+'),
        1 | 2 => text.push(b'-'),
        3 if random.one_in(8) => {
            text.extend_from_slice(random.pick(&["--", "+-", "++"]).as_bytes())
        }
        _ => {}
    }
}

fn digits(random: &mut Random, text: &mut Vec<u8>, count: usize) {
    let fill = *random.pick(b"00019");
    let mixed = random.one_in(2);
    for _ in 0..count {
        let digit = if mixed {
            b'0' + random.below(10) as u8
        } else {
            fill
        };
        text.push(digit);
    }
}

/// Lengths that matter: few digits, the limit of 9, and what u64 can no longer hold.
fn digit_count(random: &mut Random) -> usize {
    match random.below(32) {
        0 => random.between(10, 11),
        1 => random.between(17, 21),
        2..=5 => random.between(8, 9),
        6 => 0,
        _ => random.between(1, 4),
    }
}

/// The farthest shift of the point.
const FARTHEST: isize = 12;

/// Digits, a point and an exponent. A good half of the shifts are short, and half of the numerals
/// have 9 or 10 digits on a side of the point once it is shifted.
fn with_exponent(random: &mut Random, text: &mut Vec<u8>) {
    let most = *random.pick(&[3, FARTHEST]);
    let shift = random.below(2 * most as usize + 1) as isize - most;
    let [mut before, mut behind] = [shifted_count(random), shifted_count(random)];
    let limit = *random.pick(&[9, 9, 9, 10]);
    match random.below(4) {
        0 => before = (limit - shift).max(0) as usize,
        1 => behind = (limit + shift).max(0) as usize,
        _ => {}
    }
    digits(random, text, before);
    if behind > 0 || random.one_in(4) {
        text.push(b'.');
    }
    digits(random, text, behind);
    if random.one_in(8) {
        odd_exponent(random, text);
    } else {
        exponent(random, text, shift);
    }
}

/// How many digits stand on a side of the point before it is shifted.
fn shifted_count(random: &mut Random) -> usize {
    match random.below(16) {
        0 => random.between(0, 19),
        1 | 2 => random.between(0, 12),
        _ => random.between(0, 4),
    }
}

/// An exponent of one or two digits.
fn exponent(random: &mut Random, text: &mut Vec<u8>, shift: isize) {
    let letter = *random.pick(&["e", "E"]);
    let sign = match shift {
        0 => *random.pick(&["", "+", "-"]),
        1.. => *random.pick(&["", "", "+"]),
        _ => "-",
    };
    let (width, places) = (random.between(1, 2), shift.unsigned_abs());
    text.extend_from_slice(format!("{letter}{sign}{places:0width$}").as_bytes());
}

/// One of any two digits, of three, of more than a word holds, or what is none.
fn odd_exponent(random: &mut Random, text: &mut Vec<u8>) {
    text.push(*random.pick(b"eE"));
    text.extend_from_slice(random.pick(&["", "", "+", "-"]).as_bytes());
    match random.below(6) {
        0 => digits(random, text, 2),
        1 => {
            let places = random.below(FARTHEST as usize + 1);
            text.extend_from_slice(format!("{places:03}").as_bytes());
        }
        2 => digits(random, text, 3),
        3 => digits(random, text, 20),
        4 => {}
        _ => text.extend_from_slice(
            random
                .pick(&["+-1", "e1", "1e1", "1.", ".1", "1x"])
                .as_bytes(),
        ),
    }
}

fn mixed_case(random: &mut Random, text: &mut Vec<u8>, word: &str) {
    for byte in word.bytes() {
        let upper = random.one_in(2);
        text.push(if upper {
            byte.to_ascii_uppercase()
        } else {
            byte
        });
    }
}

/// The point half way between two neighbouring floats, or the numeral just below or above it.
/// From 2^15 on it has at most 9 digits behind the point. Every other one is spelled with an
/// exponent.
fn half_way(random: &mut Random, text: &mut Vec<u8>) {
    let biased = 127 + random.between(15, 28) as u32;
    let low = biased << 23 | random.below(1 << 23) as u32;
    let [below, above] = [low, low + 1].map(|bits| f64::from(f32::from_bits(bits)));
    let billionths = ((below + above) / 2.0 * 1e9) as u64 + random.below(3) as u64 - 1;
    let shift = if random.one_in(2) {
        random.below(19) as isize - 9
    } else {
        0
    };
    // The point stands so far left of its place, and the exponent takes it back.
    let behind = (9 + shift) as usize;
    let digits = format!("{billionths:0behind$}");
    let (whole, fraction) = digits.split_at(digits.len() - behind);
    text.extend_from_slice(format!("{whole}.{fraction}").as_bytes());
    if shift != 0 {
        exponent(random, text, shift);
    }
}

/// A decimal numeral or something close to one.
pub fn numeral(random: &mut Random, text: &mut Vec<u8>) {
    blanks(random, text);
    sign(random, text);
    if random.one_in(12) {
        half_way(random, text);
    } else if random.one_in(40) {
        let word = random.pick(&["nan", "inf", "infinity", "in", "nano", "infinit"]);
        mixed_case(random, text, word);
    } else if random.one_in(8) {
        with_exponent(random, text);
    } else {
        let count = digit_count(random);
        digits(random, text, count);
        if random.one_in(3) {
            text.push(b'.');
            let count = digit_count(random);
            digits(random, text, count);
        }
    }
    if random.one_in(60) {
        text.push(*random.pick(b"x.,_ -\0"));
    }
    blanks(random, text);
}

/// A number that an author would write.
pub fn plain_numeral(random: &mut Random, text: &mut Vec<u8>) {
    let number = random.below(4_000) as f32 / *random.pick(&[1.0, 1.0, 4.0, 10.0, 128.0]);
    let sign = if random.one_in(5) { "-" } else { "" };
    text.extend_from_slice(sign.as_bytes());
    exported(random, text, number);
}

/// The number as a tool exports it: now and then with an exponent.
pub fn exported(random: &mut Random, text: &mut Vec<u8>, number: f32) {
    let spelled = match random.below(24) {
        0 => format!("{number:e}"),
        1 => format!("{number:E}"),
        _ => number.to_string(),
    };
    text.extend_from_slice(spelled.as_bytes());
}

const WHOLE_LIMITS: &[i64] = &[
    0,
    1,
    9,
    10,
    99,
    100,
    255,
    256,
    900,
    901,
    999_999_999,
    1_000_000_000,
    1_000_000_001,
    2_147_483_647,
    2_147_483_648,
    2_147_483_649,
    4_294_967_295,
    4_294_967_296,
    9_999_999_999,
];

/// A whole number or something close to one.
pub fn whole(random: &mut Random, text: &mut Vec<u8>) {
    blanks(random, text);
    sign(random, text);
    if random.one_in(8) {
        let zeros = random.below(12);
        text.extend(std::iter::repeat_n(b'0', zeros));
    }
    match random.below(8) {
        0..=2 => {
            let limit = random.pick(WHOLE_LIMITS);
            text.extend_from_slice(limit.to_string().as_bytes());
        }
        3 => {
            let count = digit_count(random);
            digits(random, text, count);
        }
        4 => text.extend_from_slice(random.word().to_string().as_bytes()),
        _ => text.extend_from_slice(random.below(1_000).to_string().as_bytes()),
    }
    if random.one_in(30) {
        text.extend_from_slice(random.pick(&["x", ".", " ", "-", "e1"]).as_bytes());
    }
    blanks(random, text);
}

const HEX_PIECES: &[&str] = &[
    "&", "&H", "H", "h", "0x", "0X", "+", "-", " ", "00", "x", "0",
];

/// A hexadecimal number in one of many spellings.
pub fn hexadecimal(random: &mut Random, text: &mut Vec<u8>) {
    blanks(random, text);
    if random.one_in(2) {
        text.extend_from_slice(b"&H");
    } else {
        for _ in 0..random.below(4) {
            text.extend_from_slice(random.pick(HEX_PIECES).as_bytes());
        }
    }
    let count = *random.pick(&[0, 1, 2, 2, 3, 6, 6, 7, 8, 9, 10]);
    for _ in 0..count {
        text.push(*random.pick(b"0123456789abcdefABCDEF0fF"));
    }
    if random.one_in(30) {
        text.push(*random.pick(b"gGxX_ \0"));
    }
    if random.one_in(2) {
        let ends = random.between(1, 2);
        text.extend(std::iter::repeat_n(b'&', ends));
    }
    blanks(random, text);
}

/// Bit patterns at which something changes.
pub const PATTERNS: &[u32] = &[
    0x0000_0000, // 0
    0x8000_0000, // -0
    0x0000_0001, // the least above 0
    0x8000_0001,
    0x007F_FFFF, // subnormal below normal
    0x0080_0000,
    0x8080_0000,
    0x3380_0000, // 2^-24
    0x3400_0000, // f32::EPSILON
    0x33FF_FFFF,
    0x3B80_0000, // 1/256
    0x3E80_0000, // 0.25
    0x3EFF_FFFF, // below 0.5
    0x3F00_0000, // 0.5
    0x3F00_0001,
    0x3F7F_FFFF, // below 1
    0x3F80_0000, // 1
    0x3F80_0001,
    0xBF80_0000, // -1
    0xBF00_0000, // -0.5
    0xBEFF_FFFF,
    0x3FC0_0000, // 1.5
    0x4000_0000, // 2
    0x4020_0000, // 2.5
    0xC020_0000,
    0x4049_0FDB, // pi
    0x4280_0000, // 64
    0x427F_FFFF,
    0x4280_0001,
    0x4334_0000, // 180
    0x437E_8000, // 254.5
    0x437F_0000, // 255
    0x437F_8000, // 255.5
    0x4380_0000, // 256
    0x42FF_0000, // 127.5
    0x4AFF_FFFF, // 8388607.5
    0x4B00_0000, // 2^23
    0x4B7F_FFFF,
    0x4B80_0000, // 2^24
    0x4E6E_6B27, // below 10^9
    0x4E6E_6B28, // 10^9
    0x4E6E_6B29, // above 10^9
    0xCE6E_6B28,
    0xCE6E_6B29,
    0x4EFF_FFFF, // below 2^31
    0x4F00_0000, // 2^31
    0xCF00_0000,
    0x4F7F_FFFF,
    0x4F80_0000, // 2^32
    0x5F00_0000, // 2^63
    0x7F7F_FFFF, // the greatest
    0xFF7F_FFFF,
    0x7F80_0000, // infinite
    0xFF80_0000,
    0x7FC0_0000, // not a number
    0x7F80_0001,
    0xFFFF_FFFF,
    0x00FF_FFFF, // whole numbers that do not fit 24 binary digits
    0x0100_0001,
    0x0100_0003,
    0x7FFF_FFFF,
    0xFFFF_FF7F,
    0xFFFF_FF80,
    0x3B9A_CA00, // 10^9 as a whole number
];

/// A bit pattern: any, a boundary, a fraction of 1, or a small number with a few digits.
pub fn pattern(random: &mut Random) -> u32 {
    match random.below(8) {
        0..=2 => random.word(),
        3 => *random.pick(PATTERNS),
        4 | 5 => (random.below(0x0100_0001) as f32 / 16_777_216.0).to_bits(),
        6 => {
            let half = random.below(2_000) as f32 / 2.0;
            let sign = if random.one_in(2) { -1.0 } else { 1.0 };
            (sign * half).to_bits()
        }
        _ => random
            .pick(PATTERNS)
            .wrapping_add(random.below(5) as u32)
            .wrapping_sub(2),
    }
}

#[cfg(test)]
mod tests {
    use super::*;
    use crate::rule::numeral::{Numeral, numeral as read, written_out};

    fn made(make: fn(&mut Random, &mut Vec<u8>), seed: u64, case: u64) -> String {
        let mut text = Vec::new();
        make(&mut Random::new(seed, case), &mut text);
        String::from_utf8(text).unwrap().trim().to_owned()
    }

    #[test]
    fn half_way_numerals_are_ties_or_beside_one() {
        let [mut ties, mut shifted] = [0; 2];
        for case in 0..3_000 {
            let text = made(half_way, 1, case);
            assert!(matches!(read(&text), Numeral::Good(_)), "{text}");
            let value: f64 = text.parse().unwrap();
            let bits = (value as f32).to_bits();
            let neighbours = [bits - 1, bits + 1].map(|bits| f64::from(f32::from_bits(bits)));
            let near = f64::from(f32::from_bits(bits));
            let tie = neighbours.iter().any(|other| (other + near) / 2.0 == value);
            ties += usize::from(tie);
            shifted += usize::from(tie && text.contains(['e', 'E']));
        }
        assert!(ties > 700, "{ties}");
        assert!(shifted > 300, "{shifted}");
    }

    #[test]
    fn numerals_of_every_sort_are_made() {
        let mut sorts = [0; 4];
        for case in 0..5_000 {
            let sort = match read(&made(numeral, 2, case)) {
                Numeral::None => 0,
                Numeral::Good(_) => 1,
                Numeral::TooLong => 2,
                Numeral::NotFinite => 3,
            };
            sorts[sort] += 1;
        }
        assert!(
            sorts[0] > 100 && sorts[1] > 2_500 && sorts[2] > 300 && sorts[3] > 20,
            "{sorts:?}"
        );
    }

    /// What a numeral with an exponent is, and why.
    fn sort(text: &str) -> &'static str {
        let unsigned = text.strip_prefix(['+', '-']).unwrap_or(text);
        let (_, exponent) = unsigned.split_once(['e', 'E']).unwrap();
        match (read(text), exponent.as_bytes()) {
            (Numeral::None | Numeral::NotFinite, _) => "no number",
            (Numeral::TooLong, _) => match written_out(unsigned) {
                None => "three digits or more in the exponent",
                Some((10, 0..10)) => "ten digits before the point",
                Some((0..10, 10)) => "ten digits behind the point",
                Some(_) => "more digits",
            },
            (Numeral::Good(_), exponent) => match (exponent[0], written_out(unsigned)) {
                (_, Some((9, 9))) => "nine digits on both sides",
                (_, Some((9, _))) => "nine digits before the point",
                (_, Some((_, 9))) => "nine digits behind the point",
                _ if exponent.iter().all(|byte| b"+-0".contains(byte)) => "exponent 0",
                (b'-', _) => "point to the left",
                _ => "point to the right",
            },
        }
    }

    #[test]
    fn exponents_of_every_sort_are_made() {
        let mut sorts = std::collections::BTreeMap::new();
        let mut count = 0;
        for text in (0..20_000).map(|case| made(numeral, 3, case)) {
            if text.contains(['e', 'E']) {
                *sorts.entry(sort(&text)).or_insert(0) += 1;
                count += 1;
            }
        }
        assert!((2_000..4_000).contains(&count), "{count}");
        assert_eq!(sorts.len(), 11, "{sorts:?}");
        assert!(sorts.values().all(|&made| made > 40), "{sorts:?}");
    }

    #[test]
    fn exported_numbers_are_read() {
        let texts: Vec<String> = (0..5_000)
            .map(|case| made(plain_numeral, 4, case))
            .collect();
        for text in &texts {
            assert!(matches!(read(text), Numeral::Good(_)), "{text}");
        }
        let shifted = texts.iter().filter(|text| text.contains(['e', 'E']));
        assert!(shifted.count() > 300);
    }
}
