//! The style in force.

use hannuvel::Refusal::*;
use hannuvel::words::{Style, style_in_force};
use hannuvel::{MOST_BYTES, MOST_MS, StyleName, Table, parse_overrides};

const TOP: [u32; 8] = [41, 1, 2, 3, 0, 0, 0, 0];

#[test]
fn a_name_of_the_block_or_the_lines_own() {
    let style = |text, t| {
        let mut table = Table::<8>::new();
        let tags = parse_overrides(text, &mut table).unwrap();
        tags.style_in_force(t, 1000, "Default").unwrap().as_str().to_owned()
    };
    assert_eq!(style("", 0), "Default");
    assert_eq!(style(r"\fs20", 0), "Default");
    assert_eq!(style(r"\r", 0), "Default");
    assert_eq!(style(r"\rTop", 0), "Top");
    assert_eq!(style(r"\rTop\r", 0), "Default");
    assert_eq!(style(r"\rTop\rSign", 0), "Sign");
}

#[test]
fn a_name_inside_a_t_comes_with_it() {
    let mut table = Table::<8>::new();
    let tags = parse_overrides(r"\t(500,600,\rTop)", &mut table).unwrap();
    for (t, name) in [(0, "Default"), (500, "Default"), (501, "Top"), (1000, "Top")] {
        assert_eq!(tags.style_in_force(t, 1000, "Default").unwrap().as_str(), name, "{t}");
    }
    let Ok(StyleName::Block(part)) = tags.style_in_force(1000, 1000, "Default") else {
        panic!("the name is the block's")
    };
    assert_eq!(part.range(), 13..16);
}

#[test]
fn every_refusal() {
    let long = [b'x'; MOST_BYTES + 1];
    let most = &long[..MOST_BYTES];
    assert_eq!(style_in_force(&[], 0, 0, b"", most), Ok(Style::Own(0..MOST_BYTES)));
    assert_eq!(style_in_force(&TOP, 0, 0, most, b""), Ok(Style::Block(2..5)));
    assert_eq!(style_in_force(&[9; 8], 0, 0, &long, b""), Err(TextTooLong));
    assert_eq!(style_in_force(&TOP, 0, 0, b"\xFF", &long), Err(TextTooLong));
    assert_eq!(style_in_force(&[9; 8], 0, 0, b"12\xFF", b"\xFF"), Err(NotAscii(2)));
    assert_eq!(style_in_force(&[9; 8], 0, 0, b"", b"1\xFF"), Err(NotAscii(1)));
    assert_eq!(style_in_force(&[9; 8], i32::MAX, 0, b"", b""), Err(TableMalformed(0)));
    assert_eq!(style_in_force(&TOP, MOST_MS + 1, 0, b"", b""), Err(TimeOutOfRange));
    assert_eq!(style_in_force(&TOP, 0, -MOST_MS - 1, b"", b""), Err(TimeOutOfRange));
    assert_eq!(style_in_force(&TOP, 0, 0, b"1234", b""), Err(NameBeyondText));
    assert_eq!(style_in_force(&TOP, 0, 0, b"12345", b""), Ok(Style::Block(2..5)));
    assert_eq!(style_in_force(&[], 0, 0, b"", b""), Ok(Style::Own(0..0)));
}
