//! 01, src/drawing.rs: which drawings are refused.

use super::numeral::{Numeral, ascii, is_blank, numeral};

/// The place of the first token that is refusal 3.
pub fn refused_token(text: &[u8]) -> Option<usize> {
    let mut start = 0;
    for token in text.split(|&byte| is_blank(byte)) {
        if matches!(numeral(ascii(token)), Numeral::TooLong | Numeral::NotFinite) {
            return Some(start);
        }
        start += token.len() + 1;
    }
    None
}

#[cfg(test)]
mod tests {
    use super::*;

    #[test]
    fn the_first_refused_token_is_found() {
        assert_eq!(refused_token(b"m 0 0 l 1 1e9 inf"), Some(10));
        assert_eq!(refused_token(b"x\x0b -NaN"), Some(3));
        assert_eq!(refused_token(b" +1234567890"), Some(1));
        assert_eq!(refused_token(b"m 123456789 0 in 1e 1e5"), None);
        assert_eq!(refused_token(b""), None);
    }
}
