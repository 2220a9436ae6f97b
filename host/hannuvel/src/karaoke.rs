//! Karaoke: the syllables of a line in time.

use crate::{Refusal, SPAN_WORDS, words};
use std::fmt;

/// Which tag of the \k family timed a syllable, and so when it moves the picture. No state and no mark speaks of
/// syllables: a host that shows them draws anew at the next mark, or where a syllable moves if that is earlier.
#[derive(Clone, Copy, Debug, PartialEq, Eq, Hash)]
pub enum KaraokeKind {
    /// \k: the fill switches when the syllable begins. It moves at the start of its span.
    Fill,
    /// \kf and \K: the fill sweeps from left to right over the syllable. It moves at every millisecond behind the start
    /// of its span and up to the end; where the span is empty, at the millisecond behind its start, at which
    /// [`progress`](KaraokeSpan::progress) goes from 0 to 1.
    Sweep,
    /// \ko: the outline appears when the syllable begins. It moves at the start of its span.
    Outline,
}

impl KaraokeKind {
    pub(crate) fn of(word: u32) -> Self {
        match word {
            0 => KaraokeKind::Fill,
            1 => KaraokeKind::Sweep,
            2 => KaraokeKind::Outline,
            _ => unreachable!("the library has three kinds of karaoke"),
        }
    }
}

/// A syllable's time within a line, in milliseconds from its start.
#[derive(Clone, Copy, Debug, PartialEq, Eq, Hash)]
pub struct KaraokeSpan {
    /// Which tag timed it.
    pub kind: KaraokeKind,
    /// Where it starts.
    pub start_ms: u32,
    /// Where it ends and the next one starts.
    pub end_ms: u32,
}

impl KaraokeSpan {
    fn of(&[kind, start_ms, end_ms]: &[u32; SPAN_WORDS]) -> Self {
        KaraokeSpan { kind: KaraokeKind::of(kind), start_ms, end_ms }
    }

    /// How far the instant t is through the syllable, 0 up to its start and 1 from its end on: for a
    /// [`Sweep`](KaraokeKind::Sweep) where the fill has come to.
    ///
    /// # Errors
    ///
    /// Ground 6.
    ///
    /// ```
    /// use hannuvel::{KaraokeKind, KaraokeSpan, Refusal};
    ///
    /// let span = KaraokeSpan { kind: KaraokeKind::Sweep, start_ms: 500, end_ms: 750 };
    /// assert_eq!(span.progress(625), Ok(0.5));
    /// assert_eq!(span.progress(i32::MAX), Err(Refusal::TimeOutOfRange));
    /// ```
    pub fn progress(&self, t_in_cue_ms: i32) -> Result<f32, Refusal> {
        words::progress(self.start_ms, self.end_ms, t_in_cue_ms)
    }
}

/// The syllables of a line in their order, a view on the list that they were written to.
#[derive(Clone, Copy, Default, PartialEq, Eq)]
pub struct KaraokeSpans<'l> {
    spans: &'l [[u32; SPAN_WORDS]],
}

impl<'l> KaraokeSpans<'l> {
    /// What a call answered with so many spans wrote.
    pub(crate) fn written(list: &'l [u32], places: usize) -> Self {
        KaraokeSpans { spans: &list.as_chunks().0[..places] }
    }

    /// How many there are.
    ///
    /// ```
    /// let (mut table, mut list) = ([0; 80], [0; 30]);
    /// let tags = hannuvel::parse_overrides(r"\k50\kf25", &mut table)?;
    /// assert_eq!(tags.karaoke_spans(&mut list)?.len(), 2);
    /// # Ok::<(), hannuvel::Refusal>(())
    /// ```
    pub fn len(&self) -> usize {
        self.spans.len()
    }

    /// Whether there is none.
    ///
    /// ```
    /// let mut table = [0; 80];
    /// let tags = hannuvel::parse_overrides(r"\t(\k10)", &mut table)?;
    /// assert!(tags.karaoke_spans(&mut [0; 0])?.is_empty());
    /// # Ok::<(), hannuvel::Refusal>(())
    /// ```
    pub fn is_empty(&self) -> bool {
        self.spans.is_empty()
    }

    /// Their words, three to each.
    ///
    /// ```
    /// let (mut table, mut list) = ([0; 80], [0; 30]);
    /// let tags = hannuvel::parse_overrides(r"\ko5", &mut table)?;
    /// assert_eq!(tags.karaoke_spans(&mut list)?.words(), [2, 0, 50]);
    /// # Ok::<(), hannuvel::Refusal>(())
    /// ```
    pub fn words(&self) -> &'l [u32] {
        self.spans.as_flattened()
    }

    /// The syllables in their order.
    ///
    /// ```
    /// let (mut table, mut list) = ([0; 80], [0; 30]);
    /// let tags = hannuvel::parse_overrides(r"\k50\kf25", &mut table)?;
    /// let ends: Vec<_> = tags.karaoke_spans(&mut list)?.iter().map(|span| span.end_ms).collect();
    /// assert_eq!(ends, [500, 750]);
    /// # Ok::<(), hannuvel::Refusal>(())
    /// ```
    pub fn iter(&self) -> SpanIter<'l> {
        SpanIter { spans: self.spans.iter() }
    }
}

impl fmt::Debug for KaraokeSpans<'_> {
    fn fmt(&self, f: &mut fmt::Formatter) -> fmt::Result {
        f.debug_list().entries(self.iter()).finish()
    }
}

impl<'l> IntoIterator for KaraokeSpans<'l> {
    type Item = KaraokeSpan;
    type IntoIter = SpanIter<'l>;

    fn into_iter(self) -> SpanIter<'l> {
        self.iter()
    }
}

/// The syllables of a [`KaraokeSpans`].
#[derive(Clone, Debug)]
pub struct SpanIter<'l> {
    spans: std::slice::Iter<'l, [u32; SPAN_WORDS]>,
}

impl Iterator for SpanIter<'_> {
    type Item = KaraokeSpan;

    fn next(&mut self) -> Option<KaraokeSpan> {
        self.spans.next().map(KaraokeSpan::of)
    }

    fn size_hint(&self) -> (usize, Option<usize>) {
        self.spans.size_hint()
    }
}

impl ExactSizeIterator for SpanIter<'_> {}
