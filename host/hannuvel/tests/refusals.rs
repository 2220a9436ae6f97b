//! Every ground of every call, its number and place, with guard words around all that is lent: after a refusal nothing
//! is touched, after an answer only what was written.

mod lent;

use hannuvel::Refusal::{self, *};
use hannuvel::words::{
    Style, evaluate_at, karaoke_spans, next_mark, parse_drawing, parse_overrides, parse_raw_block, split_clip_arg,
    style_in_force,
};
use hannuvel::{MOST_BYTES, MOST_DEPTH, MOST_MS, STATE_WORDS, Tags};
use lent::Lent;

type Reading = fn(&[u8], &mut [u32]) -> Result<usize, Refusal>;

fn drawing_1(text: &[u8], path: &mut [u32]) -> Result<usize, Refusal> {
    parse_drawing(text, 1, path)
}

const READINGS: [Reading; 3] = [parse_overrides, parse_raw_block, drawing_1];

/// The answer of a reading into so many words, which touches nothing but the records it wrote.
#[track_caller]
fn read(call: Reading, text: &[u8], words: usize) -> Result<usize, Refusal> {
    let mut table = Lent::new(words);
    let answer = call(text, table.lend());
    let end = answer.map_or(0, |written| 8 * written as isize);
    assert_eq!(table.touched(), 0..end);
    answer
}

/// The answer of evaluation, which touches all 92 words or none.
#[track_caller]
fn evaluate(table: &[u32], t: i32, duration: i32) -> Result<(), Refusal> {
    let mut state = Lent::new(STATE_WORDS);
    let answer = evaluate_at(table, t, duration, state.lend().try_into().unwrap());
    let end = answer.map_or(0, |()| STATE_WORDS as isize);
    assert_eq!(state.touched(), 0..end);
    answer
}

fn record<const N: usize>(words: [u32; N]) -> [u32; 8] {
    let mut record = [0; 8];
    record[..N].copy_from_slice(&words);
    record
}

#[test]
fn a_text_is_too_long() {
    let mut text = vec![b' '; MOST_BYTES];
    for call in READINGS {
        assert_eq!(read(call, &text, 16), Ok(0));
    }
    assert_eq!(split_clip_arg(&text), Ok((1, MOST_BYTES)));
    text.push(200);
    for call in READINGS {
        assert_eq!(read(call, &text, 16), Err(TextTooLong));
    }
    assert_eq!(split_clip_arg(&text), Err(TextTooLong));
    assert_eq!(Tags::stored(&text, &[]), Err(TextTooLong));
}

#[test]
fn a_byte_is_no_ascii() {
    let text = b"m 1e9 \x80 \xFF";
    for call in READINGS {
        assert_eq!(read(call, text, 16), Err(NotAscii(6)));
    }
    assert_eq!(split_clip_arg(text), Err(NotAscii(6)));
    assert_eq!(Tags::stored(text, &[]), Err(NotAscii(6)));
    assert_eq!(read(parse_overrides, "\\fnÄrger".as_bytes(), 16), Err(NotAscii(3)));
}

#[test]
fn a_numeral_is_too_long() {
    assert_eq!(read(parse_overrides, br"\fs999999999", 16), Ok(1));
    assert_eq!(read(parse_overrides, br"\fs1000000000", 16), Err(NumeralTooLong(3)));
    assert_eq!(read(parse_overrides, br"\fs1e9", 16), Err(NumeralTooLong(3)));
    assert_eq!(read(parse_overrides, br"\pos(x,1e9)", 16), Err(NumeralTooLong(7)));
    assert_eq!(read(parse_raw_block, br" {\fs1e9} ", 16), Err(NumeralTooLong(5)));
    assert_eq!(read(drawing_1, b"m 1 0.0000000001", 16), Err(NumeralTooLong(4)));
    assert_eq!(read(drawing_1, b"l inf 0", 16), Err(NumeralTooLong(2)));
}

#[test]
fn a_t_too_deep_is_not_read() {
    let text = |depth| (r"\t(".repeat(depth) + r"\fs1e9").into_bytes();
    for call in [parse_overrides, parse_raw_block] {
        assert_eq!(read(call, &text(MOST_DEPTH), 200), Err(NumeralTooLong(3 * MOST_DEPTH + 3)));
        assert_eq!(read(call, &text(MOST_DEPTH + 1), 200), Ok(MOST_DEPTH));
    }
}

#[test]
fn a_fade_is_too_far() {
    let fade = |time| format!(r"\b1\fade(0,0,0,0,0,0,{time})");
    for call in [parse_overrides, parse_raw_block] {
        assert_eq!(read(call, fade("-1000000000").as_bytes(), 16), Ok(2));
        assert_eq!(read(call, fade("1000000001").as_bytes(), 16), Err(FadeTooFar(3)));
        assert_eq!(read(call, fade("-1000000001").as_bytes(), 16), Err(FadeTooFar(3)));
    }
}

/// Tables at fault, with the record that is.
fn malformed() -> Vec<(Vec<u32>, usize)> {
    let good = record([42, 700]);
    let float = |value: f32| value.to_bits();
    let at_fault = [
        record([0]),
        record([50]),
        record([42, 99]),
        record([42, 700, 1]),
        record([10, float(f32::NAN)]),
        record([10, float(f32::INFINITY)]),
        record([10, float(1_000_000_064.0)]),
        record([46, 3, 1]),
        record([46, 0, 1_000_000_001]),
        record([41, 1, 0, 0]),
        record([41, 0, 1, 1]),
        record([39, 0, 0, 0, 0]),
        record([12, 12_288, 1]),
        record([4, 0, 0, 0, 0, 0, 1, 0]),
        record([49, 0, 0, 0, float(1.0), 1]),
    ];
    let mut tables: Vec<_> = at_fault.map(|record| ([good, record].concat(), 1)).into();
    tables.push(([good.as_slice(), &[42]].concat(), 1));
    tables.push((good.repeat(1025), 1024));
    tables.extend(too_deep());
    tables
}

/// So many \t one inside the other and, in the last of them, these records.
fn nested(depth: usize, inmost: &[[u32; 8]]) -> Vec<[u32; 8]> {
    let level = |inside| record([49, 0, 0, 0, 1f32.to_bits(), (inside + inmost.len()) as u32]);
    (0..depth).rev().map(level).chain(inmost.iter().copied()).collect()
}

/// Tables that nest too deep: the \t too many is empty or holds records, is the first or not, and has another fault
/// behind it or ahead of it.
fn too_deep() -> Vec<(Vec<u32>, usize)> {
    let (good, bad, empty) = (record([42, 700]), record([42, 99]), record([49, 0, 0, 0, 1f32.to_bits()]));
    let deep = nested(MOST_DEPTH, &[empty]);
    let tables = [
        (deep.clone(), MOST_DEPTH),
        (nested(MOST_DEPTH, &[good, empty, good]), MOST_DEPTH + 1),
        (nested(2 * MOST_DEPTH, &[good]), MOST_DEPTH),
        ([nested(MOST_DEPTH, &[good]), deep.clone()].concat(), 2 * MOST_DEPTH + 1),
        (nested(MOST_DEPTH, &[empty, bad]), MOST_DEPTH),
        (nested(MOST_DEPTH, &[bad, empty]), MOST_DEPTH),
        ([vec![bad], deep].concat(), 0),
    ];
    tables.map(|(records, place)| (records.concat(), place)).into()
}

#[test]
fn a_table_is_malformed() {
    let good = record([42, 700]);
    for table in [good.repeat(1024), nested(MOST_DEPTH, &[good]).concat()] {
        assert_eq!(evaluate(&table, 0, 0), Ok(()));
        assert_eq!(next_mark(&table, 0, 0), Ok(None));
        assert_eq!(karaoke_spans(&table, &mut []), Ok(0));
        assert_eq!(style_in_force(&table, 0, 0, b"", b""), Ok(Style::Own(0..0)));
        assert_eq!(Tags::stored("", &table).map(|tags| tags.words() == table), Ok(true));
    }
    for (table, place) in malformed() {
        assert_eq!(evaluate(&table, 0, 0), Err(TableMalformed(place)));
        assert_eq!(evaluate(&table, i32::MAX, 0), Err(TableMalformed(place)));
        assert_eq!(next_mark(&table, 0, 0), Err(TableMalformed(place)));
        assert_eq!(karaoke_spans(&table, &mut []), Err(TableMalformed(place)));
        assert_eq!(style_in_force(&table, 0, 0, b"", b""), Err(TableMalformed(place)));
        assert_eq!(Tags::stored("", &table), Err(TableMalformed(place)));
    }
}

#[test]
fn a_time_is_out_of_range() {
    let table = record([1, 200, 300]);
    for time in [MOST_MS, -MOST_MS] {
        assert_eq!(evaluate(&table, time, 0), Ok(()));
        assert_eq!(evaluate(&table, 0, time), Ok(()));
        assert!(next_mark(&table, time, 0).is_ok());
        assert!(next_mark(&table, 0, time).is_ok());
    }
    for time in [MOST_MS + 1, -MOST_MS - 1, i32::MAX, i32::MIN] {
        assert_eq!(evaluate(&table, time, 0), Err(TimeOutOfRange));
        assert_eq!(evaluate(&table, 0, time), Err(TimeOutOfRange));
        assert_eq!(next_mark(&table, time, 0), Err(TimeOutOfRange));
        assert_eq!(next_mark(&table, 0, time), Err(TimeOutOfRange));
    }
}

#[test]
fn a_scale_is_too_large() {
    for (exponent, answer) in [(32, Ok(1)), (33, Err(ScaleTooLarge)), (u32::MAX, Err(ScaleTooLarge))] {
        let mut path = Lent::new(20);
        assert_eq!(parse_drawing(b"m 0 0", exponent, path.lend()), answer);
        assert_eq!(path.touched(), 0..answer.map_or(0, |_| 8));
    }
}

#[test]
fn a_stored_name_ends_beyond_the_text() {
    let records = [
        record([41, 1, 2, 3]),
        record([39, 2, 3, 0, 0]),
        record([39, 0, 0, 4, 1]),
        record([12, 0, 5]),
        record([26, 1, 4]),
    ];
    for record in records {
        assert!(Tags::stored("12345", &record).is_ok());
        assert_eq!(Tags::stored("1234", &record), Err(NameBeyondText));
        assert_eq!(Tags::stored("", &record), Err(NameBeyondText));
    }
}

#[test]
fn there_is_no_room() {
    let block = br"\b1\t(\i1\u1)\s1";
    for words in 0..40 {
        for call in [parse_overrides, parse_raw_block] {
            assert_eq!(read(call, block, words), Err(NoRoom(5)));
        }
    }
    for words in 40..60 {
        assert_eq!(read(parse_overrides, block, words), Ok(5));
    }
    assert_eq!(read(drawing_1, b"m 0 0 l 1 1 2 2", 23), Err(NoRoom(3)));
    assert_eq!(read(drawing_1, b"m 0 0 l 1 1 2 2", 24), Ok(3));
}

#[test]
fn of_places_1024_count() {
    let block = |tags| r"\b1".repeat(tags).into_bytes();
    assert_eq!(read(parse_overrides, &block(1024), 8 * 2000), Ok(1024));
    assert_eq!(read(parse_overrides, &block(1025), 8 * 2000), Err(NoRoom(1025)));
    assert_eq!(read(parse_overrides, &block(4096), 8 * 5000), Err(NoRoom(4096)));
}

#[test]
fn the_lower_ground_is_given() {
    let fade = r"\fade(0,0,0,2000000000,0,0,0)";
    assert_eq!(read(parse_overrides, format!(r"{fade}\fs1e9").as_bytes(), 0), Err(NumeralTooLong(32)));
    assert_eq!(read(parse_overrides, fade.as_bytes(), 0), Err(FadeTooFar(0)));
    let mut path = Lent::new(0);
    assert_eq!(parse_drawing(b"m 1e9 0", 99, path.lend()), Err(NumeralTooLong(2)));
    assert_eq!(parse_drawing(b"m 0 0", 99, path.lend()), Err(ScaleTooLarge));
}

#[test]
fn nothing_is_lent() {
    for call in READINGS {
        assert_eq!(read(call, b"", 0), Ok(0));
        assert_eq!(read(call, b"", 7), Ok(0));
    }
    assert_eq!(read(parse_raw_block, b"{}", 0), Ok(0));
    assert_eq!(evaluate(&[], 5, 10), Ok(()));
    assert_eq!(next_mark(&[], 5, 10), Ok(None));
    assert_eq!(split_clip_arg(b""), Ok((1, 0)));
    assert!(Tags::stored("", &[]).unwrap().is_empty());
}
