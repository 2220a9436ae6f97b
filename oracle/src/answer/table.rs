//! A whole table: the tags that the built Rust reads, with the parts that the rule finds for their
//! strings. The two must agree on every kind, every count and every byte of a string.

use super::record::{kind, record};
use crate::built::animate::AnimatedTag;
use crate::rule::block::{Kept, Part, Reading};

/// The words of the tags in the order of the table.
pub fn table(text: &[u8], tags: &[AnimatedTag], reading: &Reading) -> Vec<u32> {
    let mut writer = Writer {
        text,
        kept: reading.kept.iter(),
        words: Vec::with_capacity(8 * reading.kept.len()),
    };
    writer.tags(tags);
    if writer.kept.next().is_some() {
        writer.disagree("the Rust keeps fewer tags than the rule");
    }
    writer.words
}

struct Writer<'a> {
    text: &'a [u8],
    kept: std::slice::Iter<'a, Kept>,
    words: Vec<u32>,
}

impl Writer<'_> {
    fn tags(&mut self, tags: &[AnimatedTag]) {
        tags.iter().for_each(|tag| self.tag(tag));
    }

    fn tag(&mut self, tag: &AnimatedTag) {
        let Some(kept) = self.kept.next() else {
            self.disagree("the Rust keeps more tags than the rule");
        };
        if kept.kind != kind(tag) {
            self.disagree("the Rust keeps another tag than the rule");
        }
        if string(tag).is_some_and(|bytes| bytes != named(self.text, kept.parts)) {
            self.disagree("the rule's parts are not the string of the Rust");
        }
        self.words.extend(record(tag, kept.parts, kept.inside));
        if let AnimatedTag::T { inner, .. } = tag {
            let before = self.kept.len();
            self.tags(inner);
            if before - self.kept.len() != kept.inside {
                self.disagree("the rule counts other tags inside a \\t");
            }
        }
    }

    fn disagree(&self, what: &str) -> ! {
        panic!("{what}: {:?}", String::from_utf8_lossy(self.text));
    }
}

/// The bytes of a tag's string, if it has one.
fn string(tag: &AnimatedTag) -> Option<&[u8]> {
    use AnimatedTag::*;
    match tag {
        ClipDrawing(s) | IClipDrawing(s) | Fn(s) => Some(s.as_bytes()),
        R(name) => Some(name.as_deref().unwrap_or("").as_bytes()),
        _ => None,
    }
}

/// The bytes that two parts name together.
pub fn named(text: &[u8], parts: [Part; 2]) -> Vec<u8> {
    parts
        .iter()
        .flat_map(|part| &text[part.offset..part.offset + part.length])
        .copied()
        .collect()
}

#[cfg(test)]
mod tests {
    use super::*;
    use crate::built::animate::parse_overrides;
    use crate::rule::block::overrides;

    fn words(text: &str) -> Vec<u32> {
        let mut tags = Vec::new();
        parse_overrides(text, &mut tags);
        table(text.as_bytes(), &tags, &overrides(text.as_bytes()))
    }

    #[test]
    fn records_follow_01() {
        let bits = f32::to_bits;
        assert_eq!(words(r"\fs20"), [10, bits(20.0), 0, 0, 0, 0, 0, 0]);
        assert_eq!(
            words(r"\t(1,2,3,\i1)")[..8],
            [49, 1, 1, 2, bits(3.0), 1, 0, 0]
        );
        assert_eq!(
            words(r"\t(\i1)"),
            [49, 0, 0, 0, bits(1.0), 1, 0, 0, 43, 1, 0, 0, 0, 0, 0, 0]
        );
        assert_eq!(words(r"\fnArial(x)"), [39, 3, 5, 9, 1, 0, 0, 0]);
        assert_eq!(words(r"\1c&H0000FF&"), [9, 255, 0, 0, 0, 0, 0, 0]);
        assert_eq!(words(r"\r"), [41, 0, 0, 0, 0, 0, 0, 0]);
        assert_eq!(
            words(r"\fade(1,2,3,-4,5,6,7)"),
            [2, 1, 2, 3, (-4i32) as u32, 5, 6, 7]
        );
        assert_eq!(words(r"\K3.5"), [46, 1, 4, 0, 0, 0, 0, 0]);
        let x = bits(1.0);
        assert_eq!(
            words(r"\move(1,1,1,1,-2,3)"),
            [4, x, x, x, x, 1, (-2i32) as u32, 3]
        );
    }

    #[test]
    #[should_panic(expected = "fewer tags")]
    fn a_disagreement_is_loud() {
        table(b"\\b1", &[], &overrides(b"\\b1"));
    }
}
