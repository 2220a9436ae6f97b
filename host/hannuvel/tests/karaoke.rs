//! Karaoke spans and their progress.

mod lent;

use hannuvel::KaraokeKind::{Fill, Outline, Sweep};
use hannuvel::words::{karaoke_spans, progress};
use hannuvel::{KaraokeSpan, MOST_MS, Refusal, SpanList, Table, parse_overrides};
use lent::Lent;

fn beat(kind: u32, cs: u32) -> [u32; 8] {
    [46, kind, cs, 0, 0, 0, 0, 0]
}

/// The answer of a call into so many words, which touches nothing but the spans it wrote.
#[track_caller]
fn spans(table: &[u32], words: usize) -> (Result<usize, Refusal>, Vec<u32>) {
    let mut list = Lent::new(words);
    let answer = karaoke_spans(table, list.lend());
    let end = 3 * answer.unwrap_or(0);
    assert_eq!(list.touched(), 0..end as isize);
    (answer, list.lend()[..end].to_vec())
}

#[test]
fn the_sheets_rows() {
    let mut table = Table::<8>::new();
    let mut list = SpanList::<4>::new();
    let tags = parse_overrides(r"\k50\kf25", &mut table).unwrap();
    let spans: Vec<_> = tags.karaoke_spans(&mut list).unwrap().iter().collect();
    let span = |kind, start_ms, end_ms| KaraokeSpan { kind, start_ms, end_ms };
    assert_eq!(spans, [span(Fill, 0, 500), span(Sweep, 500, 750)]);
    let tags = parse_overrides(r"\t(\k10)", &mut table).unwrap();
    assert!(tags.karaoke_spans(&mut list).unwrap().is_empty());
}

#[test]
fn spans_stand_one_behind_the_other() {
    let mut table = Table::<8>::new();
    let mut list = SpanList::<8>::new();
    let tags = parse_overrides(r"\k10\fs20\kf0\t(\k99\t(\k99))\ko5", &mut table).unwrap();
    let spans = tags.karaoke_spans(&mut list).unwrap();
    assert_eq!(spans.iter().map(|span| span.kind).collect::<Vec<_>>(), [Fill, Sweep, Outline]);
    assert_eq!(spans.words(), [0, 0, 100, 1, 100, 100, 2, 100, 150]);
    assert_eq!(spans.iter().len(), 3);
}

#[test]
fn sums_stop_at_the_largest_number() {
    let longest = [beat(0, 400_000_000), beat(1, 400_000_000)].concat();
    let (answer, words) = spans(&longest, 6);
    assert_eq!(answer, Ok(2));
    assert_eq!(words, [0, 0, 4_000_000_000, 1, 4_000_000_000, u32::MAX]);
}

#[test]
fn a_list_has_room_or_none_is_touched() {
    let table = beat(2, 7).repeat(3);
    for words in 0..9 {
        assert_eq!(spans(&table, words).0, Err(Refusal::NoRoom(3)));
    }
    for words in 9..14 {
        assert_eq!(spans(&table, words), (Ok(3), vec![2, 0, 70, 2, 70, 140, 2, 140, 210]));
    }
    assert_eq!(spans(&beat(0, 1).repeat(1024), 4000).0, Ok(1024));
    assert_eq!(spans(&[], 0).0, Ok(0));
    assert_eq!(spans(&[], 5).0, Ok(0));
}

#[test]
fn a_table_is_malformed() {
    assert_eq!(spans(&beat(3, 1), 9).0, Err(Refusal::TableMalformed(0)));
    assert_eq!(spans(&beat(0, 1)[..7], 9).0, Err(Refusal::TableMalformed(0)));
    assert_eq!(spans(&beat(0, 1).repeat(1025), 0).0, Err(Refusal::TableMalformed(1024)));
}

#[test]
fn progress_through_a_span() {
    let through = [500, 501, 625, 749, 750, 1000].map(|t| progress(500, 750, t).unwrap());
    assert_eq!(through, [0.0, 0.004, 0.5, 0.996, 1.0, 1.0]);
    assert_eq!(progress(0, 0, 0), Ok(0.0));
    assert_eq!(progress(0, 0, 1), Ok(1.0));
    assert_eq!(progress(750, 500, 600), Ok(0.0));
    assert_eq!(progress(750, 500, 751), Ok(1.0));
    assert_eq!(progress(3_000_000_000, 4_000_000_000, MOST_MS), Ok(0.0));
    for t in [MOST_MS, -MOST_MS] {
        assert!(progress(0, 1, t).is_ok());
    }
    for t in [MOST_MS + 1, -MOST_MS - 1] {
        assert_eq!(progress(0, 1, t), Err(Refusal::TimeOutOfRange));
    }
}
