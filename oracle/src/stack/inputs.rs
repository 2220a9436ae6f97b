//! What the calls are measured on: short, long, refused and random texts and tables, by how deep \t
//! stands in them.

use super::painted::Arguments;
use crate::answer::record::WIDTH;
use crate::calls::WORDS;
use crate::generate::block::{block, nested_block, raw_block};
use crate::generate::corners;
use crate::generate::drawing::drawing;
use crate::generate::limits::{around, faulty_tables, good_records};
use crate::generate::table::{damage, well_formed};
use crate::random::Random;
use crate::rule::block::overrides;
use crate::rule::refusal::{self, MOST_BYTES, MOST_DEPTH};
use crate::rule::table::{self, TRANSITION};
use crate::suites::source::Source;
use crate::texts::{self, DRAWN_EXPONENTS, DRAWN_MIX, EXPONENTS, MIXED, NUMERALS, longest, opened};

/// How many \t inside each other a row's inputs have at most, and what the row is called.
pub const DEPTHS: [(usize, &str); 4] = [
    (0, "no \\t"),
    (1, "one \\t"),
    (8, "to eight \\t"),
    (MOST_DEPTH, "to sixteen \\t"),
];

/// One for each of the depths.
pub type ByDepth<T> = [T; DEPTHS.len()];

/// What is lent to the calls: texts, tables, and words with room for every record.
pub struct Inputs {
    pub blocks: ByDepth<Vec<Vec<u8>>>,
    pub drawings: Vec<Vec<u8>>,
    pub clips: Vec<Vec<u8>>,
    /// Some of them at fault.
    pub tables: ByDepth<Vec<Vec<u32>>>,
    pub words: Vec<u32>,
    /// A block and a name that are as long as may be.
    pub block: Vec<u8>,
    pub own: Vec<u8>,
}

impl Inputs {
    pub fn new() -> Self {
        let drawings = drawing_texts();
        let scaled = drawings.iter().map(|text| [b"2,", &text[..]].concat());
        Inputs {
            blocks: sorted(block_texts(), |text| text_depth(text)),
            clips: drawings.iter().cloned().chain(scaled).collect(),
            drawings,
            tables: sorted(tables(), |table| table::depth(table)),
            words: vec![0; WORDS],
            block: vec![b'a'; MOST_BYTES],
            own: vec![b'b'; MOST_BYTES],
        }
    }
}

fn sorted<T>(inputs: Vec<T>, depth: impl Fn(&T) -> usize) -> ByDepth<Vec<T>> {
    let mut rows = DEPTHS.map(|_| Vec::new());
    for input in inputs {
        let depth = depth(&input);
        let row = DEPTHS.iter().position(|&(most, _)| depth <= most);
        rows[row.expect("no \\t is read that is deeper")].push(input);
    }
    rows
}

/// How deep the reader goes into the text: not at all where that is refused unread. Braces around it
/// change nothing.
fn text_depth(text: &[u8]) -> usize {
    match refusal::text(text) {
        Some(_) => 0,
        None => overrides(text).depth,
    }
}

/// Every depth, and one too deep.
fn depths() -> impl Iterator<Item = usize> {
    0..=MOST_DEPTH + 1
}

/// Tables of blocks and of lines, random ones, damaged ones, and ones nested to every depth.
fn tables() -> Vec<Vec<u32>> {
    let groups = [1, 8, 16].map(|depth| texts::nested(depth, 1_000));
    let made = [texts::flat(1_000), texts::accelerated(1_000)];
    let made = made.into_iter().chain(groups).map(String::into_bytes);
    let texts = block_texts().into_iter().chain(corners::texts());
    let read = texts.chain(made).filter_map(Source::of_text);
    let mut tables: Vec<Vec<u32>> = read.map(|source| source.words).collect();
    for case in 0..500 {
        let random = &mut Random::new(1, case);
        let mut table = well_formed(random);
        tables.push(table.clone());
        damage(random, &mut table);
        tables.push(table);
    }
    tables.extend(faulty_tables().into_iter().map(|(table, _)| table));
    tables.extend(depths().flat_map(nested_tables));
    tables
}

/// So many \t inside each other around nothing, around tags of each kind, and around these with a
/// fault behind them; with every acceleration.
fn nested_tables(depth: usize) -> impl Iterator<Item = Vec<u32>> {
    let mut tags = good_records();
    tags.retain(|record| record[0] != TRANSITION);
    let fault = [0; WIDTH];
    let tables = [vec![], tags.concat(), [tags, vec![fault]].concat().concat()];
    tables.into_iter().flat_map(move |inside| {
        let table = [around(depth, inside.len() / WIDTH), inside].concat();
        corners::accelerated(&table).collect::<Vec<_>>()
    })
}

fn block_texts() -> Vec<Vec<u8>> {
    let mut blocks = [texts::typical(), texts::scripts(), texts::refused()].concat();
    let pieces = pieces();
    for depth in depths() {
        // Read in one run, in two, and refused.
        for first in ["", "\\fs1e2", "\\fs1e9"] {
            let front = format!("{first}{}", opened(depth));
            blocks.extend(pieces.iter().map(|piece| longest(&front, piece)));
        }
    }
    blocks.extend([1, 8, 16].map(texts::longest_deep));
    let braced = texts::in_braces(&blocks);
    let written = blocks.into_iter().chain(braced).map(String::into_bytes);
    let made = [block, nested_block, raw_block]
        .into_iter()
        .flat_map(random);
    written.chain(made).collect()
}

/// What blocks are made of, at every depth.
fn pieces() -> Vec<String> {
    let typical = texts::typical().into_iter();
    let flat = typical.filter(|text| !text.contains("\\t")).collect();
    let mut pieces = vec![flat, of_each_kind()];
    let others = [
        MIXED,
        NUMERALS,
        EXPONENTS,
        "\\fs.123456789012345678e9",
        "\\t(1.5e2,2.5E-3,.123456789012345678e9,\\fs1e1)",
        "\\fs(\\fs(12.5 ",
        "\\r",
        " ",
        "(",
        "é",
        "",
    ];
    pieces.extend(others.map(str::to_owned));
    pieces
}

/// A tag for each way in which a kind is evaluated, but for \t.
fn of_each_kind() -> String {
    let flat = texts::kinds().filter(|(name, _)| !name.contains("\\t "));
    let tags = flat.map(|(_, tags)| tags.split('\\').nth(1).map(|tag| format!("\\{tag}")));
    tags.flatten().collect()
}

fn drawing_texts() -> Vec<Vec<u8>> {
    let mut drawings = texts::drawings();
    let numbers = "123456789.987654321 0.000001 ";
    for front in [
        "", "m 0 0 l ", "m 0 0 s ", "m 0 0 b ", "m 0 1e2 ", "m 0 1e9 ",
    ] {
        for piece in [
            DRAWN_MIX,
            DRAWN_EXPONENTS,
            numbers,
            ".123456789012345678e9 123456789012345678E-9 ",
            "123.5 -45.25 ",
            "m 1 2 ",
            "x ",
            " ",
            "é",
            "",
        ] {
            drawings.push(longest(front, piece));
        }
    }
    let made = random(|random| {
        let mut text = Vec::new();
        drawing(random, &mut text);
        text
    });
    drawings
        .into_iter()
        .map(String::into_bytes)
        .chain(made)
        .collect()
}

fn random(text: impl Fn(&mut Random) -> Vec<u8>) -> impl Iterator<Item = Vec<u8>> {
    (0..500).map(move |case| text(&mut Random::new(1, case)))
}

/// Arguments of the reading calls: each text with a whole table and with none.
pub fn reading(texts: &[Vec<u8>], words: &mut [u32]) -> Vec<Arguments> {
    let table = words.as_mut_ptr() as u64;
    let inputs = texts.iter().flat_map(|text| {
        let [address, bytes] = bytes_of(text);
        [words.len() as u64, 0].map(|count| [address, bytes, table, count, 0, 0, 0, 0])
    });
    inputs.collect()
}

/// Each drawing at small and large exponents, with a whole path and with none.
pub fn drawings(texts: &[Vec<u8>], words: &mut [u32]) -> Vec<Arguments> {
    let inputs = reading(texts, words).into_iter().flat_map(|input| {
        let [address, bytes, path, count, ..] = input;
        [0, 1, 32, 33].map(|exponent| [address, bytes, exponent, path, count, 0, 0, 0])
    });
    inputs.collect()
}

pub fn clips(texts: &[Vec<u8>]) -> Vec<Arguments> {
    let inputs = texts.iter().map(|text| {
        let [address, bytes] = bytes_of(text);
        [address, bytes, 0, 0, 0, 0, 0, 0]
    });
    inputs.collect()
}

/// Each table at instants before, amid and behind what changes, and at one that is refused.
pub fn lines(tables: &[Vec<u32>], words: &mut [u32]) -> Vec<Arguments> {
    let state = words.as_mut_ptr() as u64;
    let inputs = tables.iter().flat_map(|table| {
        let (address, count) = (table.as_ptr() as u64, table.len() as u64);
        let at = move |t: i32| [address, count, t as u64, 1_000, state, 0, 0, 0];
        [-1, 150, 450, 1_000, i32::MAX].map(at)
    });
    inputs.collect()
}

/// Each table, with room for every span and with none.
pub fn spans(tables: &[Vec<u32>], words: &mut [u32]) -> Vec<Arguments> {
    let list = words.as_mut_ptr() as u64;
    let inputs = tables.iter().flat_map(|table| {
        let (address, count) = (table.as_ptr() as u64, table.len() as u64);
        [words.len() as u64, 0].map(|places| [address, count, list, places, 0, 0, 0, 0])
    });
    inputs.collect()
}

/// Spans of every order, at instants before, amid and behind them, and at one that is refused.
pub fn progress() -> Vec<Arguments> {
    let ends = [0, 500, 750, 1 << 31, u64::from(u32::MAX)];
    let spans = ends
        .into_iter()
        .flat_map(move |start| ends.map(|end| (start, end)));
    let inputs = spans.flat_map(|(start, end)| {
        [-1, 600, i32::MAX].map(|t: i32| [start, end, t as u64, 0, 0, 0, 0, 0])
    });
    inputs.collect()
}

/// The lines again, as tables of a block, with an own name.
pub fn styles(lines: &[Arguments], block: &[u8], own: &[u8]) -> Vec<Arguments> {
    let ([block, bytes], [own, letters]) = (bytes_of(block), bytes_of(own));
    let inputs = lines.iter().map(|&[table, count, t, duration, ..]| {
        [table, count, t, duration, block, bytes, own, letters]
    });
    inputs.collect()
}

fn bytes_of(text: &[u8]) -> [u64; 2] {
    [text.as_ptr() as u64, text.len() as u64]
}

#[cfg(test)]
mod tests {
    use super::*;
    use std::collections::HashSet;

    #[test]
    fn the_inputs_of_a_row_are_as_deep_as_it_says() {
        let inputs = Inputs::new();
        for ((texts, tables), (most, name)) in inputs.blocks.iter().zip(&inputs.tables).zip(DEPTHS)
        {
            let deepest = texts.iter().map(|text| text_depth(text)).max();
            assert_eq!(deepest, Some(most), "{name}");
            let deepest = tables.iter().map(|table| table::depth(table)).max();
            assert_eq!(deepest, Some(most), "{name}");
        }
    }

    #[test]
    fn every_kind_stands_at_the_bottom() {
        let reading = overrides(of_each_kind().as_bytes());
        let kinds: HashSet<u32> = reading.kept.iter().map(|kept| kept.kind).collect();
        assert_eq!(kinds, (1..TRANSITION).collect());
        let tables: Vec<Vec<u32>> = nested_tables(16).collect();
        assert!(tables.iter().all(|table| table::depth(table) == 16));
        let records = tables.iter().flat_map(|table| table.chunks(WIDTH));
        let kinds: HashSet<u32> = records.map(|record| record[0]).collect();
        assert_eq!(kinds, (0..=TRANSITION).collect());
    }
}
