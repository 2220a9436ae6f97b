//! Memory of a fixed size, for the stack.

use crate::{RECORD_WORDS, SPAN_WORDS};

/// A table or a path table with so many places, eight words to each, on the stack or wherever it is put.
///
/// ```
/// use hannuvel::{Table, parse_drawing, parse_overrides};
///
/// let mut table = Table::<1024>::new();
/// assert_eq!(parse_overrides(r"\b1\i1", &mut table)?.places(), 2);
/// assert_eq!(parse_drawing("m 0 0 l 1 1", 1, &mut table)?.len(), 2);
/// # Ok::<(), hannuvel::Refusal>(())
/// ```
#[derive(Clone, Debug, PartialEq, Eq)]
pub struct Table<const PLACES: usize> {
    records: [[u32; RECORD_WORDS]; PLACES],
}

impl<const PLACES: usize> Table<PLACES> {
    /// A table whose words are 0.
    ///
    /// ```
    /// static EMPTY: hannuvel::Table<16> = hannuvel::Table::new();
    /// assert_eq!(EMPTY.words(), [0; 128]);
    /// ```
    pub const fn new() -> Self {
        Table { records: [[0; RECORD_WORDS]; PLACES] }
    }

    /// All its words.
    ///
    /// ```
    /// let mut table = hannuvel::Table::<2>::new();
    /// hannuvel::parse_overrides(r"\p1", &mut table)?;
    /// assert_eq!(table.words()[..2], [48, 1]);
    /// # Ok::<(), hannuvel::Refusal>(())
    /// ```
    pub const fn words(&self) -> &[u32] {
        self.records.as_flattened()
    }

    /// The same to write to, for the calls on [words](crate::words).
    ///
    /// ```
    /// let mut table = hannuvel::Table::<2>::new();
    /// assert_eq!(hannuvel::words::parse_overrides(br"\p1", table.words_mut()), Ok(1));
    /// ```
    pub const fn words_mut(&mut self) -> &mut [u32] {
        self.records.as_flattened_mut()
    }
}

impl<const PLACES: usize> Default for Table<PLACES> {
    fn default() -> Self {
        Table::new()
    }
}

impl<const PLACES: usize> AsRef<[u32]> for Table<PLACES> {
    fn as_ref(&self) -> &[u32] {
        self.words()
    }
}

impl<const PLACES: usize> AsMut<[u32]> for Table<PLACES> {
    fn as_mut(&mut self) -> &mut [u32] {
        self.words_mut()
    }
}

/// A list of karaoke spans with so many places, three words to each.
///
/// ```
/// use hannuvel::{SpanList, Table, parse_overrides};
///
/// let mut table = Table::<8>::new();
/// let mut list = SpanList::<8>::new();
/// let tags = parse_overrides(r"\k50\kf25", &mut table)?;
/// assert_eq!(tags.karaoke_spans(&mut list)?.len(), 2);
/// # Ok::<(), hannuvel::Refusal>(())
/// ```
#[derive(Clone, Debug, PartialEq, Eq)]
pub struct SpanList<const PLACES: usize> {
    spans: [[u32; SPAN_WORDS]; PLACES],
}

impl<const PLACES: usize> SpanList<PLACES> {
    /// A list whose words are 0.
    ///
    /// ```
    /// assert_eq!(hannuvel::SpanList::<2>::new().words(), [0; 6]);
    /// ```
    pub const fn new() -> Self {
        SpanList { spans: [[0; SPAN_WORDS]; PLACES] }
    }

    /// All its words.
    ///
    /// ```
    /// assert_eq!(hannuvel::SpanList::<4>::new().words().len(), 12);
    /// ```
    pub const fn words(&self) -> &[u32] {
        self.spans.as_flattened()
    }

    /// The same to write to, for the calls on [words](crate::words).
    ///
    /// ```
    /// let mut list = hannuvel::SpanList::<2>::new();
    /// let beat = [46, 0, 50, 0, 0, 0, 0, 0];
    /// assert_eq!(hannuvel::words::karaoke_spans(&beat, list.words_mut()), Ok(1));
    /// assert_eq!(list.words()[..3], [0, 0, 500]);
    /// ```
    pub const fn words_mut(&mut self) -> &mut [u32] {
        self.spans.as_flattened_mut()
    }
}

impl<const PLACES: usize> Default for SpanList<PLACES> {
    fn default() -> Self {
        SpanList::new()
    }
}

impl<const PLACES: usize> AsRef<[u32]> for SpanList<PLACES> {
    fn as_ref(&self) -> &[u32] {
        self.words()
    }
}

impl<const PLACES: usize> AsMut<[u32]> for SpanList<PLACES> {
    fn as_mut(&mut self) -> &mut [u32] {
        self.words_mut()
    }
}
