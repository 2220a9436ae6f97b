//! Texts and words as hexadecimal digits.

use std::fmt::Write as _;

pub fn hex_text(text: &[u8]) -> String {
    let mut digits = String::with_capacity(2 * text.len());
    for byte in text {
        let _ = write!(digits, "{byte:02X}");
    }
    digits
}

/// Each word as a space and 8 digits.
pub fn hex_words(words: &[u32]) -> String {
    let mut digits = String::with_capacity(9 * words.len());
    for word in words {
        let _ = write!(digits, " {word:08X}");
    }
    digits
}

/// A text in quotes and as hexadecimal digits.
pub fn show_text(text: &[u8]) -> String {
    format!("\"{}\" (hex {})", text.escape_ascii(), hex_text(text))
}
