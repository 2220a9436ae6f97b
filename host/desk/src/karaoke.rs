//! Karaoke syllables, in words and as what moves.

use crate::ranges::Range;
use hannuvel::{KaraokeKind, KaraokeSpan, MOST_PLACES, Refusal, SPAN_WORDS, Tags};
use serde::Serialize;

/// A syllable.
#[derive(Clone, Copy, Debug, PartialEq, Serialize)]
pub struct Syllable {
    pub kind: &'static str,
    pub start_ms: u32,
    pub end_ms: u32,
}

/// Where an instant lies in the syllables.
#[derive(Debug, PartialEq, Serialize)]
pub struct Sung {
    /// The syllable's number, counted from 1.
    pub syllable: usize,
    pub progress: f32,
}

/// The spans of a block; there is room for as many as can be.
pub fn spans(tags: &Tags) -> Result<Vec<KaraokeSpan>, Refusal> {
    let mut list = vec![0; SPAN_WORDS * MOST_PLACES];
    Ok(tags.karaoke_spans(&mut list)?.iter().collect())
}

pub fn syllable(span: &KaraokeSpan) -> Syllable {
    Syllable { kind: kind(span.kind), start_ms: span.start_ms, end_ms: span.end_ms }
}

fn kind(kind: KaraokeKind) -> &'static str {
    match kind {
        KaraokeKind::Fill => "fill",
        KaraokeKind::Sweep => "sweep",
        KaraokeKind::Outline => "outline",
    }
}

/// The syllable that an instant lies in, and how far it is through.
pub fn sung(spans: &[KaraokeSpan], at: i32) -> Result<Option<Sung>, Refusal> {
    let holds = |span: &KaraokeSpan| (span.start_ms.into()..span.end_ms.into()).contains(&i64::from(at));
    let found = spans.iter().position(holds);
    found.map(|place| Ok(Sung { syllable: place + 1, progress: spans[place].progress(at)? })).transpose()
}

/// When a syllable moves the picture: a sweep at each of its milliseconds up to its end, as its progress does, and an
/// empty one a millisecond behind its start; another where it begins.
pub fn moves(span: &KaraokeSpan) -> Range {
    let (start, end) = (i64::from(span.start_ms), i64::from(span.end_ms));
    match span.kind {
        KaraokeKind::Sweep => Range::new(start + 1, end.max(start + 1)),
        KaraokeKind::Fill | KaraokeKind::Outline => Range::new(start, start),
    }
}

/// How far a syllable is filled at an instant: a sweep as far as its progress is, another wholly from its start on.
#[cfg(test)]
pub fn filled(span: &KaraokeSpan, t: i32) -> f32 {
    match span.kind {
        KaraokeKind::Sweep => span.progress(t).unwrap(),
        KaraokeKind::Fill | KaraokeKind::Outline => f32::from(i64::from(t) >= span.start_ms.into()),
    }
}

#[cfg(test)]
mod tests {
    use super::*;
    use KaraokeKind::{Fill, Outline, Sweep};

    fn span(kind: KaraokeKind, start_ms: u32, end_ms: u32) -> KaraokeSpan {
        KaraokeSpan { kind, start_ms, end_ms }
    }

    #[test]
    fn a_syllable_moves_where_it_changes() {
        for kind in [Fill, Sweep, Outline] {
            for (start_ms, end_ms) in [(0, 0), (0, 1), (0, 20), (5, 5), (5, 6), (5, 25)] {
                let span = span(kind, start_ms, end_ms);
                let changing = (-5..30).filter(|&t| filled(&span, t - 1) < filled(&span, t)).map(i64::from);
                let mut expected = Vec::new();
                changing.for_each(|t| crate::ranges::add(&mut expected, t));
                assert_eq!([moves(&span)], *expected, "{span:?}");
            }
        }
    }

    #[test]
    fn an_instant_lies_in_one_syllable() {
        let spans = [span(Fill, 0, 500), span(Sweep, 500, 750)];
        assert_eq!(sung(&spans, 625), Ok(Some(Sung { syllable: 2, progress: 0.5 })));
        assert_eq!(sung(&spans, 750), Ok(None));
        assert_eq!(sung(&spans, -1), Ok(None));
    }
}
