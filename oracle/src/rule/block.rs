//! 01, Reading: what is kept of a block, which parts of the text the strings are, and the places
//! of refusals 3 and 4. A walk from position to position over the whole text.

use super::numeral::{Numeral, ascii, field, parts, trim, trim_end};
use super::refusal::{FARTHEST, MOST_DEPTH};

/// A part of the text; an empty one has offset and length 0.
#[derive(Clone, Copy, Debug, Default, PartialEq)]
pub struct Part {
    pub offset: usize,
    pub length: usize,
}

impl Part {
    fn new(from: usize, to: usize) -> Self {
        if from == to {
            return Part::default();
        }
        Part {
            offset: from,
            length: to - from,
        }
    }
}

/// A kept tag. `inside` counts the kept tags inside a \t, all depths.
#[derive(Debug, PartialEq)]
pub struct Kept {
    pub kind: u32,
    pub parts: [Part; 2],
    pub inside: usize,
}

#[derive(Default)]
pub struct Reading {
    pub kept: Vec<Kept>,
    /// How deep the kept \t stand inside each other.
    pub depth: usize,
    /// The first byte of the first numeral that is too long.
    pub too_long: Option<usize>,
    /// The backslash of the first kept \fade with a time out of range.
    pub far_fade: Option<usize>,
}

/// How a tag's parameter is read.
enum Shape {
    Float,
    Floats(&'static [usize]),
    /// At least so many whole numbers.
    Ints(usize),
    Whole(i32, i32),
    Weight,
    Flag,
    Alpha,
    Colour,
    /// A rectangle of the kind, or a drawing of the second kind.
    Clip(u32),
    Reset,
    Transition,
}

const FADE: u32 = 2;
const FONT: u32 = 39;
const RESET: u32 = 41;
const TRANSITION: u32 = 49;

/// Name in lower case, kind and shape.
const TAGS: &[(&str, u32, Shape)] = &[
    ("fad", 1, Shape::Ints(2)),
    ("fade", FADE, Shape::Ints(7)),
    ("pos", 3, Shape::Floats(&[2])),
    ("move", 4, Shape::Floats(&[4, 6])),
    ("frz", 5, Shape::Float),
    ("fr", 5, Shape::Float),
    ("blur", 6, Shape::Float),
    ("fscx", 7, Shape::Float),
    ("fscy", 8, Shape::Float),
    ("c", 9, Shape::Colour),
    ("1c", 9, Shape::Colour),
    ("fs", 10, Shape::Float),
    ("clip", 11, Shape::Clip(12)),
    ("frx", 13, Shape::Float),
    ("fry", 14, Shape::Float),
    ("org", 15, Shape::Floats(&[2])),
    ("bord", 16, Shape::Float),
    ("xbord", 17, Shape::Float),
    ("ybord", 18, Shape::Float),
    ("shad", 19, Shape::Float),
    ("xshad", 20, Shape::Float),
    ("yshad", 21, Shape::Float),
    ("be", 22, Shape::Float),
    ("fax", 23, Shape::Float),
    ("fay", 24, Shape::Float),
    ("iclip", 25, Shape::Clip(26)),
    ("2c", 27, Shape::Colour),
    ("3c", 28, Shape::Colour),
    ("4c", 29, Shape::Colour),
    ("alpha", 30, Shape::Alpha),
    ("1a", 31, Shape::Alpha),
    ("2a", 32, Shape::Alpha),
    ("3a", 33, Shape::Alpha),
    ("4a", 34, Shape::Alpha),
    ("fsp", 35, Shape::Float),
    ("q", 36, Shape::Whole(0, 3)),
    ("an", 37, Shape::Whole(1, 9)),
    ("a", 38, Shape::Whole(0, 255)),
    ("fe", 40, Shape::Whole(0, 255)),
    ("r", RESET, Shape::Reset),
    ("b", 42, Shape::Weight),
    ("i", 43, Shape::Flag),
    ("u", 44, Shape::Flag),
    ("s", 45, Shape::Flag),
    ("k", 46, Shape::Float),
    ("kf", 46, Shape::Float),
    ("ko", 46, Shape::Float),
    ("pbo", 47, Shape::Float),
    ("p", 48, Shape::Whole(0, 255)),
    ("t", TRANSITION, Shape::Transition),
];

/// Reads the text as `parse_overrides` does.
pub fn overrides(text: &[u8]) -> Reading {
    read(text, 0, text.len())
}

/// Reads the text as `parse_raw_block` does; places count from the text given.
pub fn raw_block(text: &[u8]) -> Reading {
    let (mut from, mut to) = trim(text, 0, text.len());
    if from < to && text[from] == b'{' {
        from += 1;
    }
    if from < to && text[to - 1] == b'}' {
        to -= 1;
    }
    read(text, from, to)
}

fn read(text: &[u8], from: usize, to: usize) -> Reading {
    let mut walk = Walk {
        text,
        reading: Reading::default(),
    };
    walk.block(from, to, 0);
    walk.reading
}

struct Walk<'a> {
    text: &'a [u8],
    reading: Reading,
}

/// A tag as it stands in the text: its backslash, its name and its parameter.
#[derive(Clone, Copy)]
struct Tag {
    backslash: usize,
    name: (usize, usize),
    param: (usize, usize),
}

impl Walk<'_> {
    fn block(&mut self, from: usize, to: usize, depth: usize) {
        let mut at = from;
        while at < to {
            let backslash = at;
            at += 1;
            if self.text[backslash] != b'\\' {
                continue;
            }
            let name = (at, self.name_end(at, to));
            at = name.1;
            if name.0 == name.1 {
                continue;
            }
            let (param, next) = self.param(at, to);
            at = next;
            let tag = Tag {
                backslash,
                name,
                param,
            };
            self.tag(tag, depth);
        }
    }

    /// One digit may stand before the letters.
    fn name_end(&self, from: usize, to: usize) -> usize {
        let digit = from < to && self.text[from].is_ascii_digit();
        let letters = from + usize::from(digit);
        (letters..to)
            .find(|&i| !self.text[i].is_ascii_alphabetic())
            .unwrap_or(to)
    }

    /// The parameter and where reading goes on behind it.
    fn param(&self, from: usize, to: usize) -> ((usize, usize), usize) {
        if from < to && self.text[from] == b'(' {
            let start = from + 1;
            return match self.closing(start, to) {
                Some(end) => ((start, end), end + 1),
                None => ((start, to), to),
            };
        }
        let end = (from..to).find(|&i| self.text[i] == b'\\').unwrap_or(to);
        ((from, end), end)
    }

    /// The `)` that closes the `(` before `from`.
    fn closing(&self, from: usize, to: usize) -> Option<usize> {
        let mut open = 1;
        (from..to).find(|&i| {
            match self.text[i] {
                b'(' => open += 1,
                b')' => open -= 1,
                _ => {}
            }
            open == 0
        })
    }

    fn tag(&mut self, tag: Tag, depth: usize) {
        let (from, to) = tag.name;
        let name = ascii(&self.text[from..to]).to_ascii_lowercase();
        if name.starts_with("fn") && name.len() > 2 {
            let end = trim_end(self.text, tag.param.0, tag.param.1);
            self.keep(FONT, [Part::new(from + 2, to), Part::new(tag.param.0, end)]);
        } else if name.starts_with('r') && name.len() > 1 && tag.param.0 == tag.param.1 {
            self.keep(RESET, [Part::new(from + 1, to), Part::default()]);
        } else if let Some((_, kind, shape)) = TAGS.iter().find(|entry| entry.0 == name) {
            self.shaped(tag, *kind, shape, depth);
        }
    }

    fn shaped(&mut self, tag: Tag, kind: u32, shape: &Shape, depth: usize) {
        let (from, to) = tag.param;
        let kept = match shape {
            Shape::Transition => return self.transition(tag, depth),
            Shape::Clip(drawing) => return self.clip(tag, kind, *drawing),
            Shape::Reset => {
                let (start, end) = trim(self.text, from, to);
                return self.keep(kind, [Part::new(start, end), Part::default()]);
            }
            Shape::Float => self.floats(&[(from, to)]),
            Shape::Floats(counts) => {
                let list = parts(self.text, from, to);
                self.floats(&list) && counts.contains(&list.len())
            }
            Shape::Ints(count) => self.ints(tag, kind, *count),
            Shape::Whole(low, high) => self
                .int(from, to)
                .is_some_and(|n| (*low..=*high).contains(&n)),
            Shape::Weight => self
                .int(from, to)
                .is_some_and(|n| matches!(n, 0 | 1 | 100..=900)),
            Shape::Flag => matches!(self.trimmed(from, to), b"0" | b"1"),
            Shape::Alpha => self.hexadecimal(from, to, true),
            Shape::Colour => self.hexadecimal(from, to, false),
        };
        if kept {
            self.keep(kind, Default::default());
        }
    }

    fn keep(&mut self, kind: u32, parts: [Part; 2]) {
        self.reading.kept.push(Kept {
            kind,
            parts,
            inside: 0,
        });
    }

    fn trimmed(&self, from: usize, to: usize) -> &[u8] {
        let (start, end) = trim(self.text, from, to);
        &self.text[start..end]
    }

    /// Looks at every field, also behind one that is no number.
    fn floats(&mut self, fields: &[(usize, usize)]) -> bool {
        let mut all = true;
        for &(from, to) in fields {
            all &= self.float(from, to);
        }
        all
    }

    fn float(&mut self, from: usize, to: usize) -> bool {
        let (numeral, place) = field(self.text, from, to);
        if numeral == Numeral::TooLong {
            self.reading.too_long.get_or_insert(place);
        }
        matches!(numeral, Numeral::Good(_) | Numeral::TooLong)
    }

    fn int(&self, from: usize, to: usize) -> Option<i32> {
        ascii(self.trimmed(from, to)).parse().ok()
    }

    fn ints(&mut self, tag: Tag, kind: u32, least: usize) -> bool {
        let list = parts(self.text, tag.param.0, tag.param.1);
        let numbers: Option<Vec<i32>> = list.iter().map(|&(from, to)| self.int(from, to)).collect();
        let Some(numbers) = numbers.filter(|numbers| numbers.len() >= least) else {
            return false;
        };
        let far = |&time: &i32| i64::from(time).abs() > FARTHEST;
        if kind == FADE && numbers[3..7].iter().any(far) {
            self.reading.far_fade.get_or_insert(tag.backslash);
        }
        true
    }

    /// A colour's last `&`s are taken at the end alone, an alpha's at both ends.
    fn hexadecimal(&self, from: usize, to: usize, alpha: bool) -> bool {
        let mut rest = self.trimmed(from, to);
        rest = strip_end(strip_start(rest, b"&"), b'&');
        while let [b'H' | b'h', tail @ ..] = rest {
            rest = tail;
        }
        rest = strip_start(rest, b"0x");
        if alpha {
            rest = strip_start(rest, b"&");
        }
        rest = strip_end(rest, b'&');
        let (start, end) = trim(rest, 0, rest.len());
        u32::from_str_radix(ascii(&rest[start..end]), 16).is_ok()
    }

    /// Four numbers are a rectangle, all else a drawing.
    fn clip(&mut self, tag: Tag, rectangle: u32, drawing: u32) {
        let (from, to) = tag.param;
        let list = parts(self.text, from, to);
        if list.len() == 4 && self.floats(&list) {
            self.keep(rectangle, Default::default());
        } else {
            self.keep(drawing, [Part::new(from, to), Part::default()]);
        }
    }

    fn transition(&mut self, tag: Tag, depth: usize) {
        if depth >= MOST_DEPTH {
            return;
        }
        self.reading.depth = self.reading.depth.max(depth + 1);
        let index = self.reading.kept.len();
        self.keep(TRANSITION, Default::default());
        let start = self.leading_numbers(tag.param.0, tag.param.1);
        self.block(start, tag.param.1, depth + 1);
        self.reading.kept[index].inside = self.reading.kept.len() - index - 1;
    }

    /// Passes over the numbers at the front of a \t, up to the first head that is no number.
    fn leading_numbers(&mut self, from: usize, to: usize) -> usize {
        let mut at = trim(self.text, from, to).0;
        loop {
            let end = (at..to)
                .find(|&i| matches!(self.text[i], b',' | b'\\'))
                .unwrap_or(to);
            if !self.float(at, end) {
                return at;
            }
            if end == to || self.text[end] == b'\\' {
                return end;
            }
            at = trim(self.text, end + 1, to).0;
        }
    }
}

/// Drops a prefix as often as it stands there.
fn strip_start<'a>(mut text: &'a [u8], prefix: &[u8]) -> &'a [u8] {
    while let Some(rest) = text.strip_prefix(prefix) {
        text = rest;
    }
    text
}

fn strip_end(mut text: &[u8], last: u8) -> &[u8] {
    while let [rest @ .., byte] = text
        && *byte == last
    {
        text = rest;
    }
    text
}

#[cfg(test)]
mod tests {
    use super::*;

    fn kinds(text: &str) -> Vec<u32> {
        let reading = overrides(text.as_bytes());
        reading.kept.iter().map(|kept| kept.kind).collect()
    }

    fn part(offset: usize, length: usize) -> Part {
        Part { offset, length }
    }

    #[test]
    fn the_sheet_is_read() {
        assert_eq!(kinds(r"\fs20\t(0,1000,\fs40)"), [10, 49, 10]);
        assert_eq!(kinds(r"\rAlt Style\fn8x\fs(nan)"), []);
        assert_eq!(kinds(r"\fs1e2\fad(1e2,5)\t(1e2,\b1)"), [10, 49, 42]);
    }

    #[test]
    fn t_is_kept_sixteen_deep() {
        let nested = |depth: usize, tags: &str| "\\t(".repeat(depth) + tags;
        let sixteen_and_bold = [vec![TRANSITION; 16], vec![42]].concat();
        assert_eq!(kinds(&nested(9, "\\b1")).len(), 10);
        assert_eq!(kinds(&nested(16, "\\b1")), sixteen_and_bold);
        assert_eq!(kinds(&nested(17, "\\b1")), [TRANSITION; 16]);
        assert_eq!(kinds(&nested(17, "")), [TRANSITION; 16]);
        assert_eq!(kinds(&nested(17, ")\\b1")), sixteen_and_bold);
        let depth = |text: &str| overrides(text.as_bytes()).depth;
        let depths = [0, 1, 16, 17].map(|count| depth(&nested(count, "")));
        assert_eq!(depths, [0, 1, 16, 16]);
        assert_eq!(depth(r"\t(\b1\t())\t(\fs1e9"), 2);
    }

    #[test]
    fn parts_of_names_and_drawings() {
        let parts = |text: &str| overrides(text.as_bytes()).kept[0].parts;
        let none = part(0, 0);
        assert_eq!(parts(r"\fnArial(x)"), [part(3, 5), part(9, 1)]);
        assert_eq!(parts("\\fnA B \t"), [part(3, 1), part(4, 2)]);
        assert_eq!(parts("\\fnA( \t)"), [part(3, 1), none]);
        assert_eq!(parts(r"\rAlt()"), [part(2, 3), none]);
        assert_eq!(parts(r"\r( A )"), [part(4, 1), none]);
        assert_eq!(parts(r"\clip( m )"), [part(6, 3), none]);
        assert_eq!(parts(r"\clip"), [none, none]);
    }

    #[test]
    fn refusal_3_looks_where_floats_are_read() {
        let place = |text: &str| overrides(text.as_bytes()).too_long;
        assert_eq!(place(r"\pos(x,1e9)"), Some(7));
        assert_eq!(place(r"\pos(1,2,1e9)"), Some(9));
        assert_eq!(place(r"\clip(1,2,3, +1e9)"), Some(13));
        assert_eq!(
            place(r"\pos(x,1e5)\pos(1e2,2E-3)\t(1,1e2)\clip(1e0,2,3,4)"),
            None
        );
        assert_eq!(
            place(r"\clip(1,2,1e9)\fad(1e9,5)\foo1e9\t(x,1e9,\b1)"),
            None
        );
        assert_eq!(place(r"\t(1,1e9)"), Some(5));
        assert_eq!(place(&format!("{}1e9", "\\t(".repeat(16))), Some(48));
        assert_eq!(place(&format!("{}1e9", "\\t(".repeat(17))), None);
    }

    #[test]
    fn refusal_4_looks_at_kept_fades() {
        let place = |text: &str| overrides(text.as_bytes()).far_fade;
        assert_eq!(place(r"\b1\fade(0,0,0,0,0,0,1000000001)"), Some(3));
        assert_eq!(place(r"\fade(0,0,0,0,0,0,1000000000,2000000000)"), None);
        assert_eq!(place(r"\fade(2000000000,0,0,0,0,0,-1000000000)"), None);
        assert_eq!(place(r"\fade(0,0,0,0,0,0,1000000001,x)"), None);
    }

    #[test]
    fn a_raw_block_counts_from_the_text_given() {
        let reading = raw_block(b" {\\fnA}\x0b");
        assert_eq!(reading.kept[0].parts, [part(5, 1), part(0, 0)]);
        let reading = raw_block(b"{\\fnA}}");
        assert_eq!(reading.kept[0].parts, [part(4, 1), part(5, 1)]);
    }
}
