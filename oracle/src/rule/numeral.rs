//! 01, Numerals and Blanks; exponents as 02, N4, has them.

pub fn is_blank(byte: u8) -> bool {
    matches!(byte, 9..=13 | 32)
}

/// What is left of `from..to` without the blanks at either end; all blank: `to..to`.
pub fn trim(text: &[u8], from: usize, to: usize) -> (usize, usize) {
    let start = (from..to).find(|&i| !is_blank(text[i])).unwrap_or(to);
    (start, trim_end(text, start, to))
}

pub fn trim_end(text: &[u8], from: usize, to: usize) -> usize {
    (from..to)
        .rfind(|&i| !is_blank(text[i]))
        .map_or(from, |last| last + 1)
}

#[derive(Clone, Copy, Debug, PartialEq)]
pub enum Numeral {
    None,
    /// The bits of the nearest f32.
    Good(u32),
    TooLong,
    /// `inf`, `infinity` or `nan`, perhaps signed: no number in a tag, refused in a drawing.
    NotFinite,
}

const MOST_DIGITS: usize = 9;
const MOST_EXPONENT_DIGITS: usize = 2;

/// Reads a token without blanks at either end.
pub fn numeral(token: &str) -> Numeral {
    let Ok(value) = token.parse::<f32>() else {
        return Numeral::None;
    };
    let unsigned = token.strip_prefix(['+', '-']).unwrap_or(token);
    if !unsigned.starts_with(|c: char| c == '.' || c.is_ascii_digit()) {
        return Numeral::NotFinite;
    }
    match written_out(unsigned) {
        Some((before, behind)) if before <= MOST_DIGITS && behind <= MOST_DIGITS => {
            Numeral::Good(value.to_bits())
        }
        _ => Numeral::TooLong,
    }
}

/// How many digits a numeral without its sign has before the point and behind it, once the exponent
/// has shifted the point; `None`: the exponent has more than two digits.
pub fn written_out(unsigned: &str) -> Option<(usize, usize)> {
    let (digits, exponent) = unsigned.split_once(['e', 'E']).unwrap_or((unsigned, "0"));
    let (whole, fraction) = digits.split_once('.').unwrap_or((digits, ""));
    let shift = exponent.strip_prefix(['+', '-']).unwrap_or(exponent);
    if shift.len() > MOST_EXPONENT_DIGITS {
        return None;
    }
    let shift: usize = shift.parse().expect("Rust has read the exponent");
    if exponent.starts_with('-') {
        let before = whole.len().saturating_sub(shift);
        Some((before, fraction.len() + shift))
    } else {
        let behind = fraction.len().saturating_sub(shift);
        Some((whole.len() + shift, behind))
    }
}

/// Reads the field `from..to` less its blanks, and says where it begins.
pub fn field(text: &[u8], from: usize, to: usize) -> (Numeral, usize) {
    let (start, end) = trim(text, from, to);
    (numeral(ascii(&text[start..end])), start)
}

/// Texts that reach this far have no byte of 128 or more.
pub fn ascii(text: &[u8]) -> &str {
    std::str::from_utf8(text).expect("an ASCII text")
}

/// The parts of `from..to` between commas.
pub fn parts(text: &[u8], from: usize, to: usize) -> Vec<(usize, usize)> {
    let mut parts = Vec::new();
    let mut start = from;
    for comma in (from..to).filter(|&i| text[i] == b',') {
        parts.push((start, comma));
        start = comma + 1;
    }
    parts.push((start, to));
    parts
}

#[cfg(test)]
mod tests {
    use super::*;

    #[test]
    fn numerals_are_told_apart() {
        let bits = |value: f32| Numeral::Good(value.to_bits());
        assert_eq!(numeral("20"), bits(20.0));
        assert_eq!(numeral("-.5"), bits(-0.5));
        assert_eq!(numeral("+1."), bits(1.0));
        assert_eq!(numeral("999999999.999999999"), bits(1e9));
        for none in [
            "",
            ".",
            "+",
            "1e",
            "1e+",
            "e5",
            ".e5",
            "--1",
            "1 2",
            "1e5x",
            "1e9x",
            "12345678901x",
            "in",
        ] {
            assert_eq!(numeral(none), Numeral::None, "{none}");
        }
        for long in [
            "1000000000",
            "0000000001",
            "1.0000000000",
            "1e9",
            "+.5E-9",
            "1e999",
        ] {
            assert_eq!(numeral(long), Numeral::TooLong, "{long}");
        }
        for other in ["nan", "+NaN", "-inf", "InFiNiTy"] {
            assert_eq!(numeral(other), Numeral::NotFinite, "{other}");
        }
    }

    #[test]
    fn an_exponent_shifts_the_point() {
        for (text, plain) in [
            ("1e2", "100"),
            ("-1E+02", "-100"),
            ("1e5", "100000"),
            ("+.5E-3", "0.0005"),
            ("2.5E-3", "0.0025"),
            ("1234567890e-1", "123456789"),
            ("0.0000000001e5", "0.00001"),
            ("0e8", "0"),
            ("1e-9", "0.000000001"),
            ("123456789.e-0", "123456789"),
            (".123456789012345678e9", "123456789.012345678"),
            ("123456789012345678e-09", "123456789.012345678"),
            ("999999999999999999E-9", "999999999.999999999"),
        ] {
            let bits = plain.parse::<f32>().unwrap().to_bits();
            assert_eq!(numeral(text), Numeral::Good(bits), "{text}");
            assert_eq!(numeral(plain), Numeral::Good(bits), "{plain}");
        }
    }

    #[test]
    fn an_exponent_shifts_too_far_or_is_too_long() {
        for long in [
            "1e9",
            "0e9",
            "01e8",
            "1e-10",
            "10e-10",
            "+12345678901e-1",
            ".12345678901E1",
            "1e39",
            "1e99",
            "1e-99",
            "1e002",
            "1e+000",
            "1e-001",
            "1e100",
            "0e18446744073709551616",
        ] {
            assert_eq!(numeral(long), Numeral::TooLong, "{long}");
        }
    }

    #[test]
    fn digits_are_counted_behind_the_shift() {
        assert_eq!(written_out("12.345"), Some((2, 3)));
        assert_eq!(written_out("12.345e2"), Some((4, 1)));
        assert_eq!(written_out("12.345E+04"), Some((6, 0)));
        assert_eq!(written_out("12.345e-1"), Some((1, 4)));
        assert_eq!(written_out("12.345e-4"), Some((0, 7)));
        assert_eq!(written_out("12.345e004"), None);
    }

    #[test]
    fn a_field_begins_at_its_sign_behind_the_blanks() {
        assert_eq!(field(b" \x0b-1e9\t", 0, 7), (Numeral::TooLong, 2));
        assert_eq!(field(b"  ", 0, 2), (Numeral::None, 2));
    }

    #[test]
    fn parts_stand_between_commas() {
        assert_eq!(parts(b"a,,b", 0, 4), [(0, 1), (2, 2), (3, 4)]);
        assert_eq!(parts(b"", 0, 0), [(0, 0)]);
    }
}
