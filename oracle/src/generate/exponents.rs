//! Numerals of every length with every small exponent.

/// Most digits on a side of the point: 18 become nine and nine where the exponent is 9.
const MOST_DIGITS: usize = 19;
const FARTHEST: usize = 12;

/// A numeral's digits are the first of one of these. With the point behind the eighth, the last two
/// are just above and just below the half way between two floats, which the first 8 to 16 digits of
/// the former are.
const DIGITS: [&str; 5] = [
    "00000000012345678901234567890123456789",
    "99999999999999999999999999999999999999",
    "12345678901234567890123456789012345678",
    "16777217000000001000000000000000000000",
    "16777216999999999000000000000000000000",
];

/// Every numeral of the digits, up to 19 on each side of the point, with each exponent.
pub fn numerals() -> impl Iterator<Item = Vec<u8>> {
    DIGITS.into_iter().flat_map(spelled).flat_map(|numeral| {
        let exponents = exponents().into_iter();
        exponents.map(move |exponent| format!("{numeral}{exponent}").into_bytes())
    })
}

/// Without a point or with one at every place; the sign goes round.
fn spelled(digits: &'static str) -> impl Iterator<Item = String> {
    (0..=MOST_DIGITS).flat_map(move |before| {
        let whole = &digits[..before];
        let sign = ["", "-", "+"][before % 3];
        let pointed = (0..=MOST_DIGITS).map(move |behind| {
            let fraction = &digits[before..before + behind];
            format!("{sign}{whole}.{fraction}")
        });
        pointed.chain([format!("{sign}{whole}")])
    })
}

/// No exponent, and 0 to 12 in one, two and three digits, with both letters and every sign.
fn exponents() -> Vec<String> {
    let mut exponents = vec![String::new()];
    for places in 0..=FARTHEST {
        for width in places.to_string().len()..=3 {
            for sign in ["", "+", "-"] {
                exponents.extend(["e", "E"].map(|e| format!("{e}{sign}{places:0width$}")));
            }
        }
    }
    exponents
}

#[cfg(test)]
mod tests {
    use super::*;
    use crate::rule::numeral::{Numeral, numeral, written_out};
    use std::collections::{HashMap, HashSet};

    #[test]
    fn every_limit_is_reached_from_every_exponent() {
        assert_eq!(exponents().len(), 1 + 6 * (10 * 3 + 3 * 2));
        let mut reached: HashMap<String, HashSet<(usize, usize)>> = HashMap::new();
        let mut count = 0;
        for text in numerals() {
            count += 1;
            let text = String::from_utf8(text).unwrap();
            let unsigned = text.trim_start_matches(['+', '-']);
            if numeral(&text) == Numeral::None {
                assert!(
                    !unsigned.starts_with(|c: char| c.is_ascii_digit()),
                    "{text}"
                );
                continue;
            }
            let exponent = unsigned.trim_start_matches(|c: char| c == '.' || c.is_ascii_digit());
            if let Some(sides) = written_out(unsigned) {
                let exponent = exponent.to_ascii_lowercase().replace('+', "");
                reached.entry(exponent).or_default().insert(sides);
            }
        }
        assert_eq!(count, 5 * 20 * 21 * exponents().len());
        for places in 0..=9 {
            for sign in ["", "-"] {
                let sides = &reached[&format!("e{sign}{places}")];
                for limit in [(9, 9), (10, 9), (9, 10)] {
                    assert!(sides.contains(&limit), "{sign}{places} {limit:?}");
                }
            }
        }
    }

    #[test]
    fn ties_and_their_neighbours_are_among_them() {
        let wanted = [
            "-1677.7217e4",
            "-1677721700000000e-8",
            ".16777217000000001E8",
            ".16777216999999999E08",
            "-0.0000000012e+5",
        ];
        let found = numerals().filter(|text| wanted.iter().any(|word| word.as_bytes() == text));
        assert_eq!(found.count(), wanted.len());
    }
}
