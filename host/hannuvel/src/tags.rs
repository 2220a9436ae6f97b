//! The tags of a block, as a view on its text and its records.

use crate::{KaraokeSpans, RECORD_WORDS, Refusal, RenderState, STATE_WORDS, StyleName, Tag, words};
use std::fmt;

/// Reads a block and gives its tags. Braces are ordinary bytes.
///
/// ```
/// use hannuvel::{AnimatedTag, Refusal, parse_overrides};
///
/// let mut table = [0; 16];
/// let tags = parse_overrides(r"\an8\fs20", &mut table)?;
/// let values: Vec<_> = tags.iter().map(|tag| tag.value()).collect();
/// assert_eq!(values, [AnimatedTag::An(8), AnimatedTag::Fs(20.0)]);
///
/// let refused = parse_overrides(r"\an8\fs20\b1", &mut table);
/// assert_eq!(refused, Err(Refusal::NoRoom(3)));
/// # Ok::<(), Refusal>(())
/// ```
pub fn parse_overrides<'t>(
    text: &'t (impl AsRef<[u8]> + ?Sized),
    table: &'t mut (impl AsMut<[u32]> + ?Sized),
) -> Result<Tags<'t>, Refusal> {
    let (text, table) = (text.as_ref(), table.as_mut());
    let places = words::parse_overrides(text, table)?;
    Ok(Tags::read(text, table, places))
}

/// The same for the text without blanks around it, less one `{` and one `}`; places and offsets still count from the
/// text given.
///
/// ```
/// use hannuvel::{AnimatedTag, Table, parse_raw_block};
///
/// let mut table = Table::<4>::new();
/// let tags = parse_raw_block(r"{\an8}", &mut table)?;
/// assert_eq!(tags.iter().next().map(|tag| tag.value()), Some(AnimatedTag::An(8)));
/// # Ok::<(), hannuvel::Refusal>(())
/// ```
pub fn parse_raw_block<'t>(
    text: &'t (impl AsRef<[u8]> + ?Sized),
    table: &'t mut (impl AsMut<[u32]> + ?Sized),
) -> Result<Tags<'t>, Refusal> {
    let (text, table) = (text.as_ref(), table.as_mut());
    let places = words::parse_raw_block(text, table)?;
    Ok(Tags::read(text, table, places))
}

/// Tags in their order, a view on the text and on the records that a reading wrote: those of a block, or those inside
/// a \t. Its records are well formed and every part that they name lies in the text.
///
/// The table cannot be written to while they are in use:
///
/// ```compile_fail,E0499
/// let mut table = [0; 80];
/// let first = hannuvel::parse_overrides(r"\b1", &mut table)?;
/// let second = hannuvel::parse_overrides(r"\i1", &mut table)?;
/// assert_ne!(first, second);
/// # Ok::<(), hannuvel::Refusal>(())
/// ```
#[derive(Clone, Copy, Default)]
pub struct Tags<'t> {
    pub(crate) text: &'t str,
    records: &'t [[u32; RECORD_WORDS]],
    /// The place of the first record in its table.
    first: usize,
}

impl<'t> Tags<'t> {
    /// What a reading answered with so many places wrote.
    fn read(text: &'t [u8], table: &'t [u32], places: usize) -> Self {
        Tags {
            text: str::from_utf8(text).expect("a text that is read is ASCII"),
            records: &table.as_chunks().0[..places],
            first: 0,
        }
    }

    /// The tags of a table that was kept from an earlier reading, with the text it was read from. The words are exactly
    /// those of its records.
    ///
    /// # Errors
    ///
    /// Grounds 1 and 2 for the text, 5 for the table, and 8 if a record names a part beyond the end of the text.
    ///
    /// ```
    /// use hannuvel::{Refusal, Tags, parse_overrides};
    ///
    /// let text = r"\rTop";
    /// let mut table = [0; 80];
    /// let kept = parse_overrides(text, &mut table)?.words().to_vec();
    ///
    /// assert_eq!(Tags::stored(text, &kept)?.places(), 1);
    /// assert_eq!(Tags::stored("", &kept), Err(Refusal::NameBeyondText));
    /// assert_eq!(Tags::stored(text, &[99; 8]), Err(Refusal::TableMalformed(0)));
    /// # Ok::<(), Refusal>(())
    /// ```
    pub fn stored(
        text: &'t (impl AsRef<[u8]> + ?Sized),
        table: &'t (impl AsRef<[u32]> + ?Sized),
    ) -> Result<Self, Refusal> {
        let (text, table) = (text.as_ref(), table.as_ref());
        // This call has grounds 1 and 2 on any text and no other, and the next one ground 5 on any table.
        words::split_clip_arg(text)?;
        words::next_mark(table, 0, 0)?;
        let tags = Tags::read(text, table, table.len() / RECORD_WORDS);
        let inside = |&[offset, length]: &[u32; 2]| offset as usize + length as usize <= text.len();
        match tags.records.iter().flat_map(parts).all(|part| inside(&part)) {
            true => Ok(tags),
            false => Err(Refusal::NameBeyondText),
        }
    }

    /// The text that was read, whole.
    ///
    /// ```
    /// let mut table = [0; 8];
    /// assert_eq!(hannuvel::parse_overrides(r"\b1", &mut table)?.text(), r"\b1");
    /// # Ok::<(), hannuvel::Refusal>(())
    /// ```
    pub fn text(&self) -> &'t str {
        self.text
    }

    /// The words of these tags' records, eight to each; to be kept for [`stored`](Tags::stored), or for C.
    ///
    /// ```
    /// let mut table = [0; 80];
    /// assert_eq!(hannuvel::parse_overrides(r"\b1", &mut table)?.words(), [42, 700, 0, 0, 0, 0, 0, 0]);
    /// # Ok::<(), hannuvel::Refusal>(())
    /// ```
    pub fn words(&self) -> &'t [u32] {
        self.records.as_flattened()
    }

    /// How many places of a table these tags take: one for each, and one for each tag inside a \t.
    ///
    /// ```
    /// let mut table = [0; 80];
    /// let tags = hannuvel::parse_overrides(r"\b1\t(\fs20\fsp3)", &mut table)?;
    /// assert_eq!((tags.places(), tags.iter().count()), (4, 2));
    /// # Ok::<(), hannuvel::Refusal>(())
    /// ```
    pub fn places(&self) -> usize {
        self.records.len()
    }

    /// Whether there is no tag.
    ///
    /// ```
    /// assert!(hannuvel::parse_overrides("no tag", &mut [0; 0])?.is_empty());
    /// # Ok::<(), hannuvel::Refusal>(())
    /// ```
    pub fn is_empty(&self) -> bool {
        self.records.is_empty()
    }

    /// The tags in their order, those inside a \t left to it.
    ///
    /// ```
    /// let mut table = [0; 80];
    /// let tags = hannuvel::parse_overrides(r"\b1\t(\fs20)\i1", &mut table)?;
    /// let names: Vec<_> = tags.iter().map(|tag| tag.name()).collect();
    /// assert_eq!(names, ["b", "t", "i"]);
    /// # Ok::<(), hannuvel::Refusal>(())
    /// ```
    pub fn iter(&self) -> TagIter<'t> {
        TagIter { rest: *self }
    }

    /// The state of these tags at the instant t of a line, both it and the duration in milliseconds.
    ///
    /// # Errors
    ///
    /// Ground 6.
    ///
    /// ```
    /// let mut table = [0; 80];
    /// let tags = hannuvel::parse_overrides(r"\fad(200,300)\1c&H0000FF&", &mut table)?;
    /// let state = tags.evaluate_at(850, 1000)?;
    /// assert_eq!(state.alpha_mul, 0.5);
    /// assert_eq!(state.primary_color, Some((255, 0, 0)));
    /// assert_eq!(state.font_size, None);
    /// # Ok::<(), hannuvel::Refusal>(())
    /// ```
    pub fn evaluate_at(&self, t_in_cue_ms: i32, cue_duration_ms: i32) -> Result<RenderState<'t>, Refusal> {
        let mut state = [0; STATE_WORDS];
        words::evaluate_at(self.words(), t_in_cue_ms, cue_duration_ms, &mut state)?;
        Ok(RenderState::of(&state, self.text))
    }

    /// The first millisecond after t at which the state may change: before it every instant from t on has the state
    /// that t has. `None` if it changes no more.
    ///
    /// Marks are the state's, and do not speak of syllables: a host that shows these draws anew also where one moves
    /// the picture, as [`KaraokeKind`](crate::KaraokeKind) has it.
    ///
    /// # Errors
    ///
    /// Ground 6.
    ///
    /// ```
    /// let mut table = [0; 80];
    /// let tags = hannuvel::parse_overrides(r"\fad(200,300)", &mut table)?;
    /// assert_eq!(tags.next_mark(200, 1000)?, Some(701));
    /// assert_eq!(tags.next_mark(1000, 1000)?, None);
    ///
    /// let tags = hannuvel::parse_overrides(r"\kf50\k20", &mut table)?;
    /// assert_eq!(tags.next_mark(0, 1000)?, None);
    /// # Ok::<(), hannuvel::Refusal>(())
    /// ```
    pub fn next_mark(&self, t_in_cue_ms: i32, cue_duration_ms: i32) -> Result<Option<i32>, Refusal> {
        words::next_mark(self.words(), t_in_cue_ms, cue_duration_ms)
    }

    /// The syllables that the \k, \kf and \ko outside any \t time, one behind the other from 0 on, written into the
    /// list lent, three words to each. No mark speaks of them; [`KaraokeKind`](crate::KaraokeKind) says when each moves
    /// the picture.
    ///
    /// # Errors
    ///
    /// Ground 9.
    ///
    /// ```
    /// use hannuvel::{KaraokeKind, KaraokeSpan, SpanList, parse_overrides};
    ///
    /// let (mut table, mut list) = ([0; 80], SpanList::<8>::new());
    /// let tags = parse_overrides(r"\k50\kf25\t(\k10)", &mut table)?;
    /// let spans: Vec<_> = tags.karaoke_spans(&mut list)?.iter().collect();
    /// assert_eq!(spans, [
    ///     KaraokeSpan { kind: KaraokeKind::Fill, start_ms: 0, end_ms: 500 },
    ///     KaraokeSpan { kind: KaraokeKind::Sweep, start_ms: 500, end_ms: 750 },
    /// ]);
    /// # Ok::<(), hannuvel::Refusal>(())
    /// ```
    pub fn karaoke_spans<'l>(&self, list: &'l mut (impl AsMut<[u32]> + ?Sized)) -> Result<KaraokeSpans<'l>, Refusal> {
        let list = list.as_mut();
        let places = words::karaoke_spans(self.words(), list)?;
        Ok(KaraokeSpans::written(list, places))
    }

    /// The style in force at the instant t: the name that the last \r gave, a part of the block, or else the line's own
    /// name.
    ///
    /// # Errors
    ///
    /// Grounds 1 and 2 for the line's own name, and 6.
    ///
    /// ```
    /// use hannuvel::{StyleName, parse_overrides};
    ///
    /// let mut table = [0; 80];
    /// let style = parse_overrides(r"\b1\rTop", &mut table)?.style_in_force(0, 1000, "Default")?;
    /// assert_eq!(style.as_str(), "Top");
    /// let style = parse_overrides(r"\b1\r", &mut table)?.style_in_force(0, 1000, "Default")?;
    /// assert_eq!(style, StyleName::Own("Default"));
    /// # Ok::<(), hannuvel::Refusal>(())
    /// ```
    pub fn style_in_force(
        &self,
        t_in_cue_ms: i32,
        cue_duration_ms: i32,
        own: &'t (impl AsRef<[u8]> + ?Sized),
    ) -> Result<StyleName<'t>, Refusal> {
        let (block, own) = (self.text.as_bytes(), own.as_ref());
        let style = words::style_in_force(self.words(), t_in_cue_ms, cue_duration_ms, block, own)?;
        Ok(StyleName::of(style, self.text, own))
    }

    /// The first record with those inside it, and what is behind them.
    fn split_first(self) -> Option<(Tag<'t>, Tags<'t>)> {
        let (record, behind) = self.records.split_first()?;
        let (inner, rest) = behind.split_at(inside(record));
        let from = |records: &'t [[u32; RECORD_WORDS]], first| Tags { text: self.text, records, first };
        let tag = Tag { record, place: self.first, inner: from(inner, self.first + 1) };
        Some((tag, from(rest, self.first + 1 + inner.len())))
    }
}

/// How many records stand inside one: those of a \t.
fn inside(record: &[u32; RECORD_WORDS]) -> usize {
    match record[0] {
        49 => record[5] as usize,
        _ => 0,
    }
}

/// The parts of the text that a record names, each an offset and a length: two for a \fn, one for a drawing or a \r.
fn parts(record: &[u32; RECORD_WORDS]) -> [[u32; 2]; 2] {
    let [kind, a, b, c, d, ..] = *record;
    match kind {
        12 | 26 => [[a, b], [0, 0]],
        39 => [[a, b], [c, d]],
        41 => [[b, c], [0, 0]],
        _ => [[0, 0], [0, 0]],
    }
}

/// Tags are alike if they say the same and name the same parts, whatever table they are in.
impl PartialEq for Tags<'_> {
    fn eq(&self, other: &Self) -> bool {
        let values = |tags: &Self| tags.iter().map(|tag| tag.value());
        values(self).eq(values(other))
    }
}

impl fmt::Debug for Tags<'_> {
    fn fmt(&self, f: &mut fmt::Formatter) -> fmt::Result {
        f.debug_list().entries(self.iter().map(|tag| tag.value())).finish()
    }
}

impl<'t> IntoIterator for Tags<'t> {
    type Item = Tag<'t>;
    type IntoIter = TagIter<'t>;

    fn into_iter(self) -> TagIter<'t> {
        self.iter()
    }
}

/// The tags of a [`Tags`], each with those inside it.
#[derive(Clone, Debug)]
pub struct TagIter<'t> {
    rest: Tags<'t>,
}

impl<'t> Iterator for TagIter<'t> {
    type Item = Tag<'t>;

    fn next(&mut self) -> Option<Tag<'t>> {
        let (tag, rest) = self.rest.split_first()?;
        self.rest = rest;
        Some(tag)
    }
}
