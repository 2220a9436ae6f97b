//! The text: an argument, a file or standard input.

use crate::arguments::Source;
use std::fs;
use std::io::{self, Read};
use std::path::Path;

/// A text and what it is called in messages.
#[derive(Debug, PartialEq)]
pub struct Text {
    pub name: String,
    pub text: String,
}

impl Text {
    /// The text that the arguments name.
    pub fn take(source: &Source) -> Result<Text, String> {
        match (&source.file, source.text.as_deref()) {
            (Some(file), _) => Text::file(file),
            (None, Some("-")) => Text::standard_input(),
            (None, Some(word)) if names_a_file(word) => Text::file(Path::new(word)),
            (None, word) => Ok(Text { name: "text".into(), text: word.unwrap_or_default().into() }),
        }
    }

    fn standard_input() -> Result<Text, String> {
        let mut bytes = Vec::new();
        let name = "standard input";
        io::stdin().read_to_end(&mut bytes).map_err(|error| format!("{name} cannot be read: {error}"))?;
        Text::of(name.into(), bytes)
    }

    fn file(path: &Path) -> Result<Text, String> {
        let name = path.display().to_string();
        let bytes = fs::read(path).map_err(|error| format!("{name} cannot be read: {error}"))?;
        Text::of(name, bytes)
    }

    /// The bytes as a text, less one line end behind them: editors and `echo` put one there.
    fn of(name: String, bytes: Vec<u8>) -> Result<Text, String> {
        let mut text = String::from_utf8(bytes).map_err(|error| {
            let place = error.utf8_error().valid_up_to();
            format!("{name} is no text: byte {place} is not part of any UTF-8 character")
        })?;
        if text.ends_with('\n') {
            text.pop();
            if text.ends_with('\r') {
                text.pop();
            }
        }
        Ok(Text { name, text })
    }
}

/// Whether an argument is a file's name: it has no backslash, as a block with a tag has, and something of this name is
/// there.
fn names_a_file(word: &str) -> bool {
    !word.contains('\\') && !word.is_empty() && Path::new(word).exists()
}

#[cfg(test)]
mod tests {
    use super::*;

    fn word(text: &str) -> Result<Text, String> {
        Text::take(&Source { text: Some(text.into()), file: None })
    }

    #[test]
    fn a_word_is_a_text_or_a_file() {
        assert_eq!(word(r"\fs20").unwrap().name, "text");
        assert_eq!(word("no file of this name").unwrap().text, "no file of this name");
        assert_eq!(word("Cargo.toml").unwrap().name, "Cargo.toml");
        assert!(word("src").unwrap_err().starts_with("src cannot be read"));
    }

    #[test]
    fn one_line_end_is_dropped() {
        let text = |bytes: &[u8]| Text::of(String::new(), bytes.to_vec()).map(|text| text.text);
        assert_eq!(text(b"a\n").as_deref(), Ok("a"));
        assert_eq!(text(b"a\r\n").as_deref(), Ok("a"));
        assert_eq!(text(b"a\n\n").as_deref(), Ok("a\n"));
        assert_eq!(text(b"a\r").as_deref(), Ok("a\r"));
        assert!(text(b"ab\xFF").unwrap_err().contains("byte 2"));
    }
}
