//! The leaves: every small function of our library, with its letter in stored lists, what it
//! answers by the Rust and by 01, and the call.

use crate::built::animate;
use crate::library as lib;
use crate::rule::numeral::{Numeral, ascii, field, parts, trim};
use crate::stand_in::StandIn;

type TextCall = unsafe extern "C" fn(*const u8, usize) -> u64;
type ListCall = unsafe extern "C" fn(*const u8, usize, *mut u32, usize) -> u64;

/// Words of a list that a list leaf writes: seven parts and the place of a numeral that is too
/// long.
pub const LIST_WORDS: usize = 8;

pub struct Leaf {
    pub letter: char,
    pub symbol: &'static str,
    pub work: Work,
}

pub enum Work {
    Text(fn(&[u8]) -> u64, Option<TextCall>),
    List(fn(&[u8]) -> (u64, [u32; LIST_WORDS]), Option<ListCall>),
    Number(Number, NumberCall),
}

/// A function of one, two or three words.
#[derive(Clone, Copy)]
pub enum Number {
    One(fn(u32) -> u32),
    Two(fn(u32, u32) -> u32),
    Three(fn(u32, u32, u32) -> u32),
}

impl Number {
    pub fn arity(self) -> usize {
        match self {
            Number::One(_) => 1,
            Number::Two(_) => 2,
            Number::Three(_) => 3,
        }
    }

    pub fn answer(self, [a, b, c]: [u32; 3]) -> u32 {
        match self {
            Number::One(f) => f(a),
            Number::Two(f) => f(a, b),
            Number::Three(f) => f(a, b, c),
        }
    }
}

#[derive(Clone, Copy)]
pub enum NumberCall {
    Absent,
    One(unsafe extern "C" fn(u32) -> u32),
    Two(unsafe extern "C" fn(u32, u32) -> u32),
    Three(unsafe extern "C" fn(u32, u32, u32) -> u32),
}

impl NumberCall {
    pub fn call(self, [a, b, c]: [u32; 3]) -> u32 {
        // SAFETY: the functions take and give numbers alone.
        unsafe {
            match self {
                NumberCall::Absent => unreachable!("absent functions are reported before a run"),
                NumberCall::One(f) => f(a),
                NumberCall::Two(f) => f(a, b),
                NumberCall::Three(f) => f(a, b, c),
            }
        }
    }
}

impl Leaf {
    pub fn is_absent(&self) -> bool {
        match &self.work {
            Work::Text(_, call) => call.is_none(),
            Work::List(_, call) => call.is_none(),
            Work::Number(_, call) => matches!(call, NumberCall::Absent),
        }
    }
}

macro_rules! leaf {
    (text $letter:literal $symbol:ident $answer:expr) => {
        leaf!($letter $symbol, Work::Text($answer, lib::$symbol()))
    };
    (list $letter:literal $symbol:ident $answer:expr) => {
        leaf!($letter $symbol, Work::List($answer, lib::$symbol()))
    };
    ($arity:ident $letter:literal $symbol:ident $answer:expr) => {{
        let call = lib::$symbol().map_or(NumberCall::Absent, NumberCall::$arity);
        leaf!($letter $symbol, Work::Number(Number::$arity($answer), call))
    }};
    ($letter:literal $symbol:ident, $work:expr) => {
        Leaf { letter: $letter, symbol: stringify!($symbol), work: $work }
    };
}

pub fn leaves() -> Vec<Leaf> {
    vec![
        leaf!(text 'N' hannuvel_leaf_numeral numeral),
        leaf!(text 'I' hannuvel_leaf_i32 whole),
        leaf!(text 'H' hannuvel_leaf_hexadecimal hexadecimal),
        leaf!(text 'A' hannuvel_leaf_alpha alpha),
        leaf!(text 'C' hannuvel_leaf_colour colour),
        leaf!(text 'T' hannuvel_leaf_trim trimmed),
        leaf!(text 'P' hannuvel_leaf_parenthesis parenthesis),
        leaf!(list 'F' hannuvel_leaf_floats floats),
        leaf!(list 'G' hannuvel_leaf_ints ints),
        leaf!(One 'r' hannuvel_leaf_root root),
        leaf!(Two 'p' hannuvel_leaf_power power),
        leaf!(Three 'l' hannuvel_leaf_lerp lerp),
        leaf!(Three 'c' hannuvel_leaf_clamp clamp),
        leaf!(One 'm' hannuvel_leaf_max_zero |x| f32::from_bits(x).max_zero().to_bits()),
        leaf!(One 'd' hannuvel_leaf_radians |x| canonical(f32::from_bits(x).radians())),
        leaf!(One 'o' hannuvel_leaf_round |x| in_reach_or_far(x, f32::round)),
        leaf!(One 't' hannuvel_leaf_cut |x| in_reach_or_far(x, |value| value)),
        leaf!(One 'y' hannuvel_leaf_cut_byte |x| u32::from(f32::from_bits(x) as u8)),
        leaf!(One 'b' hannuvel_leaf_round_byte round_byte),
        leaf!(One 'i' hannuvel_leaf_nearest_i32 |w| (w as i32 as f32).to_bits()),
        leaf!(One 'u' hannuvel_leaf_nearest_u32 |w| (w as f32).to_bits()),
        leaf!(One 'e' hannuvel_leaf_in_reach |w| u32::from(in_reach(w))),
    ]
}

const NAN: u32 = 0x7FC0_0000;
const FAR: u32 = 0x8000_0000;

fn found(value: u32) -> u64 {
    1 << 32 | u64::from(value)
}

fn or_none(value: Option<u32>) -> u64 {
    value.map_or(0, found)
}

fn numeral(text: &[u8]) -> u64 {
    let (numeral, place) = field(text, 0, text.len());
    match numeral {
        Numeral::None | Numeral::NotFinite => 0,
        Numeral::Good(bits) => found(bits),
        Numeral::TooLong => 2 << 32 | place as u64,
    }
}

fn whole(text: &[u8]) -> u64 {
    or_none(ascii(text).trim().parse::<i32>().ok().map(|n| n as u32))
}

fn hexadecimal(text: &[u8]) -> u64 {
    or_none(u32::from_str_radix(ascii(text), 16).ok())
}

fn alpha(text: &[u8]) -> u64 {
    or_none(animate::parse_alpha_byte(ascii(text)).map(u32::from))
}

fn colour(text: &[u8]) -> u64 {
    let colour = animate::parse_color_rgb(ascii(text));
    or_none(colour.map(|(r, g, b)| u32::from_be_bytes([0, r, g, b])))
}

fn trimmed(text: &[u8]) -> u64 {
    let (start, end) = trim(text, 0, text.len());
    (start as u64) << 32 | end as u64
}

fn parenthesis(text: &[u8]) -> u64 {
    let (inside, _) = animate::read_param(&format!("({}", ascii(text)));
    inside.len() as u64
}

fn floats(text: &[u8]) -> (u64, [u32; LIST_WORDS]) {
    let fields = parts(text, 0, text.len());
    let read: Vec<(Numeral, usize)> = fields.iter().map(|&(a, b)| field(text, a, b)).collect();
    let good = |numeral: &Numeral| match numeral {
        Numeral::Good(bits) => Some(*bits),
        _ => None,
    };
    let words: Vec<Option<u32>> = read.iter().map(|(numeral, _)| good(numeral)).collect();
    let long = read
        .iter()
        .find(|(numeral, _)| *numeral == Numeral::TooLong);
    let (result, mut list) = listed(&words);
    list[LIST_WORDS - 1] = long.map_or(0, |(_, place)| 1 + *place as u32);
    (result, list)
}

fn ints(text: &[u8]) -> (u64, [u32; LIST_WORDS]) {
    let parts = ascii(text).split(',');
    let words: Vec<Option<u32>> = parts
        .map(|part| part.trim().parse::<i32>().ok().map(|n| n as u32))
        .collect();
    listed(&words)
}

fn listed(words: &[Option<u32>]) -> (u64, [u32; LIST_WORDS]) {
    let mut list = [0; LIST_WORDS];
    for (place, word) in list[..LIST_WORDS - 1].iter_mut().zip(words) {
        *place = word.unwrap_or(0);
    }
    let all = words.iter().all(Option::is_some);
    (u64::from(all) << 32 | words.len() as u64, list)
}

/// All NaNs count as the same bits.
pub fn canonical(value: f32) -> u32 {
    if value.is_nan() { NAN } else { value.to_bits() }
}

fn root(a: u32) -> u32 {
    let value = f32::from_bits(a);
    if value >= 0.0 && value.is_finite() {
        value.sqrt().to_bits()
    } else {
        NAN
    }
}

fn power(x: u32, a: u32) -> u32 {
    let (base, exponent) = (f32::from_bits(x), f32::from_bits(a));
    if base >= 0.0 && base.is_finite() && exponent.is_finite() {
        canonical(base.power(exponent))
    } else {
        NAN
    }
}

fn lerp(a: u32, b: u32, k: u32) -> u32 {
    let [a, b, k] = [a, b, k].map(f32::from_bits);
    canonical(animate::lerp_f32(a, b, k))
}

fn clamp(x: u32, low: u32, high: u32) -> u32 {
    let [x, low, high] = [x, low, high].map(f32::from_bits);
    canonical(if x < low {
        low
    } else if x > high {
        high
    } else {
        x
    })
}

fn in_reach(word: u32) -> bool {
    f32::from_bits(word).abs() <= 1e9
}

fn in_reach_or_far(word: u32, rounded: fn(f32) -> f32) -> u32 {
    if in_reach(word) {
        rounded(f32::from_bits(word)) as i32 as u32
    } else {
        FAR
    }
}

fn round_byte(word: u32) -> u32 {
    u32::from(f32::from_bits(word).clamp(0.0, 255.0).round() as u8)
}

#[cfg(test)]
mod tests {
    use super::*;

    #[test]
    fn text_leaves_answer_as_stated() {
        assert_eq!(numeral(b" 20"), found(20f32.to_bits()));
        assert_eq!(numeral(b"2E1 "), found(20f32.to_bits()));
        assert_eq!(numeral(b" -1e9"), 2 << 32 | 1);
        assert_eq!(numeral(b"nan"), 0);
        assert_eq!(whole(b" -1 "), found(u32::MAX));
        assert_eq!(hexadecimal(b" 1"), 0);
        assert_eq!(alpha(b"&H1FF&"), found(255));
        assert_eq!(colour(b"&H0000FF&"), found(0xFF_0000));
        assert_eq!(trimmed(b" a "), 1 << 32 | 2);
        assert_eq!(trimmed(b"  "), 2 << 32 | 2);
        assert_eq!(parenthesis(b"a(b))c"), 4);
        assert_eq!(parenthesis(b"a(b)"), 4);
    }

    #[test]
    fn list_leaves_answer_as_stated() {
        let one = 1f32.to_bits();
        assert_eq!(
            floats(b"1,1e0"),
            (1 << 32 | 2, [one, one, 0, 0, 0, 0, 0, 0])
        );
        assert_eq!(floats(b"x,+1e9"), (2, [0, 0, 0, 0, 0, 0, 0, 3]));
        assert_eq!(
            ints(b"1,2,3,4,5,6,7,8"),
            (1 << 32 | 8, [1, 2, 3, 4, 5, 6, 7, 0])
        );
        assert_eq!(ints(b""), (1, [0; 8]));
    }

    #[test]
    fn lists_agree_with_the_rust() {
        const PIECES: &[&str] = &[",", "-", ".", "0", "7", " ", "\x0b", "nan", "x", "e1 "];
        for text in crate::generate::exhaustive::texts(PIECES, 5) {
            let (result, words) = floats(&text);
            let rust = animate::parse_float_list(ascii(&text));
            assert_eq!(result >> 32 == 1, !rust.is_empty());
            let bits: Vec<u32> = rust.iter().map(|value| value.to_bits()).collect();
            assert!(bits.iter().zip(&words[..7]).all(|(a, b)| a == b));
            let (result, words) = ints(&text);
            let rust = animate::parse_int_list(ascii(&text));
            assert_eq!(result >> 32 == 1, !rust.is_empty());
            assert!(rust.iter().zip(&words[..7]).all(|(&a, &b)| a as u32 == b));
            let single = animate::parse_finite_f32(ascii(&text));
            assert_eq!(numeral(&text), or_none(single.map(f32::to_bits)));
        }
    }

    #[test]
    fn number_leaves_answer_as_stated() {
        assert_eq!(root(0x8000_0000), 0x8000_0000);
        assert_eq!(root(0xBF80_0000), NAN);
        assert_eq!(power(0, 0), 1f32.to_bits());
        assert_eq!(clamp(NAN, 0, 0), NAN);
        assert_eq!(in_reach_or_far(2.5f32.to_bits(), f32::round), 3);
        assert_eq!(
            in_reach_or_far((-2.5f32).to_bits(), |value| value),
            -2i32 as u32
        );
        assert_eq!(in_reach_or_far(0x4E6E_6B29, f32::round), FAR);
        assert_eq!(round_byte(127.5f32.to_bits()), 128);
        assert_eq!(round_byte(NAN), 0);
    }

    #[test]
    fn letters_differ() {
        let mut letters: Vec<char> = leaves().iter().map(|leaf| leaf.letter).collect();
        letters.sort();
        letters.dedup();
        assert_eq!(letters.len(), leaves().len());
    }
}
