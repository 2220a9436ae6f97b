//! The bytes of the text that a tag came from.
//!
//! A record does not hold them, so they are found by asking: a scan over backslashes and parentheses proposes the bytes
//! of each tag, and the library reads them alone, as deep inside \t as they stand. Only where that gives the very
//! records of the tag are they taken for its bytes.

use hannuvel::{MOST_PLACES, RECORD_WORDS, Tag, Tags, parse_overrides};
use std::ops::Range;

/// The bytes of each of the tags and of those inside them, by record; `None` where they were not found.
pub fn bytes_of(tags: &Tags, block: Range<usize>) -> Vec<Option<Range<usize>>> {
    let mut finder = Finder { text: tags.text(), found: vec![None; tags.places()], table: table() };
    finder.find(tags, block, 0);
    finder.found
}

/// The bytes of a text that are the block: all, or for a raw block those that its call reads.
pub fn block_in(text: &str, raw: bool) -> Range<usize> {
    if !raw {
        return 0..text.len();
    }
    let trimmed = text.trim();
    let inner = trimmed.strip_prefix('{').unwrap_or(trimmed);
    let start = text.len() - text.trim_start().len() + (trimmed.len() - inner.len());
    start..start + inner.strip_suffix('}').unwrap_or(inner).len()
}

fn table() -> Vec<u32> {
    vec![0; MOST_PLACES * RECORD_WORDS]
}

struct Finder<'t> {
    text: &'t str,
    found: Vec<Option<Range<usize>>>,
    table: Vec<u32>,
}

impl Finder<'_> {
    /// Finds tags, so many \t deep, in a range of the text.
    fn find(&mut self, tags: &Tags, range: Range<usize>, depth: usize) {
        let mut left = tags.iter().peekable();
        for item in items(self.text, range) {
            let Some(tag) = left.peek().copied() else { return };
            if self.gives(&item.bytes, &tag, depth) {
                self.find(&tag.inner(), item.parameter, depth + 1);
                self.found[tag.place()] = Some(item.bytes);
                left.next();
            }
        }
    }

    /// Whether bytes, read alone and so many \t deep, give a tag and nothing else. The rest of the text in front of them
    /// is blank, so that places stay; the \t need no end.
    fn gives(&mut self, bytes: &Range<usize>, tag: &Tag, depth: usize) -> bool {
        let item = &self.text[bytes.clone()];
        let open = if depth == 0 { String::new() } else { WRAP.repeat(depth) + &"(".repeat(unopened(item)) };
        let Some(before) = bytes.start.checked_sub(open.len()) else { return false };
        let alone = format!("{:before$}{open}{item}", "");
        let read = parse_overrides(&alone, &mut self.table);
        let words = [&tag.words()[..], tag.inner().words()].concat();
        read.is_ok_and(|read| read.words()[RECORD_WORDS * depth..] == words)
    }
}

/// How many parentheses a text closes that were opened before it.
fn unopened(text: &str) -> usize {
    let (mut open, mut most) = (0, 0);
    for byte in text.bytes() {
        open += i32::from(byte == b')') - i32::from(byte == b'(');
        most = most.max(open);
    }
    most.unsigned_abs() as usize
}

/// What stands in front of the tags inside a \t.
const WRAP: &str = r"\t(";

/// What a tag can have: its bytes, and those of its parameter without the parentheses.
struct Item {
    bytes: Range<usize>,
    parameter: Range<usize>,
}

/// The stretches of a range that tags can have: from a backslash over a name and a parameter, in parentheses or up to
/// the next backslash.
fn items(text: &str, range: Range<usize>) -> impl Iterator<Item = Item> {
    let bytes = &text.as_bytes()[..range.end];
    let mut at = range.start;
    std::iter::from_fn(move || {
        let name = next_name(bytes, at)?;
        let parameter = match bytes.get(name.end) {
            Some(b'(') => name.end + 1..closing(bytes, name.end),
            _ => name.end..name.end + bytes[name.end..].iter().take_while(|&&byte| byte != b'\\').count(),
        };
        let closed = parameter.start > name.end && parameter.end < bytes.len();
        at = parameter.end + usize::from(closed);
        Some(Item { bytes: name.start - 1..at, parameter })
    })
}

/// The next name behind a backslash: a digit may lead, letters follow. A backslash without one is passed over.
fn next_name(bytes: &[u8], from: usize) -> Option<Range<usize>> {
    let backslashes = (from..bytes.len()).filter(|&place| bytes[place] == b'\\');
    backslashes.map(|place| place + 1..name_end(bytes, place + 1)).find(|name| !name.is_empty())
}

fn name_end(bytes: &[u8], start: usize) -> usize {
    let letters = start + usize::from(bytes.get(start).is_some_and(u8::is_ascii_digit));
    letters + bytes[letters..].iter().take_while(|byte| byte.is_ascii_alphabetic()).count()
}

/// The place of the parenthesis that closes the one at a place, or the end.
fn closing(bytes: &[u8], open: usize) -> usize {
    let mut depth = 0;
    for (place, byte) in bytes.iter().enumerate().skip(open) {
        depth += i32::from(*byte == b'(') - i32::from(*byte == b')');
        if depth == 0 {
            return place;
        }
    }
    bytes.len()
}

#[cfg(test)]
mod tests {
    use super::*;
    use hannuvel::{MOST_DEPTH, parse_raw_block};

    fn sources(text: &str) -> Vec<Option<&str>> {
        let mut table = table();
        let tags = parse_overrides(text, &mut table).unwrap();
        let found = bytes_of(&tags, 0..text.len());
        found.into_iter().map(|range| range.map(|range| &text[range])).collect()
    }

    #[test]
    fn bytes_of_plain_tags() {
        assert_eq!(
            sources(r"x\fs20\foo\fnArial text\unknown(\i1)\i1"),
            [Some(r"\fs20"), Some(r"\fnArial text"), Some(r"\i1")]
        );
        assert_eq!(sources(r"\fnArial(x)y\an8\\\1c&HFF&"), [Some(r"\fnArial(x)"), Some(r"\an8"), Some(r"\1c&HFF&")]);
    }

    #[test]
    fn bytes_of_nested_tags() {
        let text = r"\t(0,10,\fs40\t(\foo)\rTop)\b1";
        let found = [text.strip_suffix(r"\b1"), Some(r"\fs40"), Some(r"\t(\foo)"), Some(r"\rTop"), Some(r"\b1")];
        assert_eq!(sources(text), found);
        assert_eq!(sources(r"\t(\fs20)"), [Some(r"\t(\fs20)"), Some(r"\fs20")]);
        assert_eq!(sources(r"\t(\fs20"), [Some(r"\t(\fs20"), Some(r"\fs20")]);
    }

    #[test]
    fn bytes_at_the_seventeenth_depth() {
        for (depth, records) in [(MOST_DEPTH, MOST_DEPTH + 1), (MOST_DEPTH + 2, MOST_DEPTH)] {
            let deep = format!("{}\\fs20{}", WRAP.repeat(depth), ")".repeat(depth));
            let found = sources(&deep);
            assert_eq!(found.len(), records);
            for (outside, source) in found.into_iter().enumerate() {
                assert_eq!(source, Some(&deep[3 * outside..deep.len() - outside]));
            }
        }
    }

    #[test]
    fn bytes_of_a_raw_block() {
        let text = " {\\k50\\rTop} ";
        assert_eq!(block_in(text, true), 2..11);
        let mut table = table();
        let tags = parse_raw_block(text, &mut table).unwrap();
        assert_eq!(bytes_of(&tags, block_in(text, true)), [Some(2..6), Some(6..11)]);
        assert_eq!(block_in("{", true), 1..1);
        assert_eq!(block_in("", true), 0..0);
    }

    /// Texts of pieces in any order, at any depth: the bytes of every tag are found, in order and inside those of its
    /// \t.
    #[test]
    fn bytes_of_any_tags() {
        let pieces = [
            r"\t(",
            r"\t(0,9,",
            r"\fs20",
            r"\b1",
            ")",
            "(",
            r"\fnA",
            r"\pos(1,2)",
            "1",
            " ",
            r"\",
            r"\foo",
            r"\rTop",
            r"\k5",
            r"\clip(m 0 0)",
            ",",
            r"\1c&HFF&",
            "x",
        ];
        let mut seed = 1u64;
        let mut random = |below: usize| {
            seed = seed.wrapping_mul(6_364_136_223_846_793_005).wrapping_add(1_442_695_040_888_963_407);
            (seed >> 33) as usize % below
        };
        for _ in 0..5000 {
            let outside = WRAP.repeat(random(MOST_DEPTH + 2));
            let count = random(30);
            let text = (0..count).fold(outside, |text, _| text + pieces[random(pieces.len())]);
            let mut table = table();
            let tags = parse_overrides(&text, &mut table).unwrap();
            in_order(&tags, &bytes_of(&tags, 0..text.len()), 0..text.len());
        }
    }

    fn in_order(tags: &Tags, found: &[Option<Range<usize>>], mut within: Range<usize>) {
        for tag in tags.iter() {
            let bytes = found[tag.place()].clone().unwrap_or_else(|| panic!("{:?} in {}", tag.value(), tags.text()));
            assert!(within.start <= bytes.start && bytes.end <= within.end, "{}", tags.text());
            in_order(&tag.inner(), found, bytes.clone());
            within.start = bytes.end;
        }
    }
}
