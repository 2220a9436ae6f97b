//! Aligned columns, coloured or plain.

use codespan_reporting::term::termcolor::{Color, ColorSpec, WriteColor};
use std::io;

/// How a word looks on a terminal.
#[derive(Clone, Copy, Debug, PartialEq)]
pub enum Look {
    Plain,
    Heading,
    Good,
    Name,
    Faint,
}

impl Look {
    fn spec(self) -> ColorSpec {
        let mut spec = ColorSpec::new();
        match self {
            Look::Plain => &mut spec,
            Look::Heading => spec.set_bold(true),
            Look::Good => spec.set_fg(Some(Color::Green)).set_bold(true),
            Look::Name => spec.set_fg(Some(Color::Cyan)),
            Look::Faint => spec.set_dimmed(true),
        };
        spec
    }
}

/// A word with its look.
pub struct Cell(pub Look, pub String);

impl<T: Into<String>> From<T> for Cell {
    fn from(word: T) -> Self {
        Cell(Look::Plain, word.into())
    }
}

/// Writes rows of cells, each column as wide as its widest cell, with so many blanks in front.
pub fn write(to: &mut dyn WriteColor, indent: usize, rows: &[Vec<Cell>]) -> io::Result<()> {
    let columns = rows.iter().map(Vec::len).max().unwrap_or(0);
    let width = |column: usize| rows.iter().filter_map(|row| row.get(column)).map(|cell| length(&cell.1)).max();
    let widths: Vec<usize> = (0..columns).map(|column| width(column).unwrap_or(0)).collect();
    for row in rows {
        write!(to, "{:indent$}", "")?;
        let last = row.iter().rposition(|cell| !cell.1.is_empty()).map_or(0, |place| place + 1);
        for (column, cell) in row[..last].iter().enumerate() {
            word(to, cell.0, &cell.1)?;
            if column + 1 < last {
                write!(to, "{:blanks$}", "", blanks = widths[column] - length(&cell.1) + 2)?;
            }
        }
        writeln!(to)?;
    }
    Ok(())
}

/// Writes a word in its look. What a text holds of control characters does not reach a terminal.
pub fn word(to: &mut dyn WriteColor, look: Look, word: &str) -> io::Result<()> {
    let word = word.replace(char::is_control, "·");
    if look == Look::Plain {
        return write!(to, "{word}");
    }
    to.set_color(&look.spec())?;
    write!(to, "{word}")?;
    to.reset()
}

fn length(word: &str) -> usize {
    word.chars().count()
}

#[cfg(test)]
mod tests {
    use super::*;
    use codespan_reporting::term::termcolor::Buffer;

    fn rows() -> Vec<Vec<Cell>> {
        vec![
            vec!["a".into(), Cell(Look::Name, "1–2".into()), "".into()],
            vec!["bcd".into(), "".into(), "x".into()],
            vec![],
        ]
    }

    fn written(mut buffer: Buffer) -> String {
        write(&mut buffer, 2, &rows()).unwrap();
        String::from_utf8(buffer.into_inner()).unwrap()
    }

    #[test]
    fn columns_are_aligned() {
        assert_eq!(written(Buffer::no_color()), "  a    1–2\n  bcd       x\n  \n");
    }

    #[test]
    fn control_characters_are_not_written() {
        let mut buffer = Buffer::no_color();
        word(&mut buffer, Look::Plain, "a\x1b[31m\nb").unwrap();
        assert_eq!(buffer.as_slice(), "a·[31m·b".as_bytes());
    }

    #[test]
    fn colour_takes_no_room() {
        let coloured = written(Buffer::ansi());
        assert!(coloured.starts_with("  a    \x1b[0m\x1b[36m1–2\x1b[0m\n  bcd       x\n"), "{coloured:?}");
    }
}
