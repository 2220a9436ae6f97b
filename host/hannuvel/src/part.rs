//! Parts of a text: what stands in for the Rust's strings.

use std::fmt;
use std::ops::{Deref, Range};

/// A part of a text that was read, with its place there. It is used as a `str`.
///
/// ```
/// use hannuvel::{AnimatedTag, Table, parse_overrides};
///
/// let mut table = Table::<4>::new();
/// let tags = parse_overrides(r"\rAlternate", &mut table)?;
/// let Some(AnimatedTag::R(Some(name))) = tags.iter().next().map(|tag| tag.value()) else { panic!() };
/// assert_eq!(name, "Alternate");
/// assert_eq!(name.range(), 2..11);
/// # Ok::<(), hannuvel::Refusal>(())
/// ```
#[derive(Clone, Copy, Debug, Default, PartialEq, Eq, Hash)]
pub struct Part<'t> {
    text: &'t str,
    offset: usize,
}

impl<'t> Part<'t> {
    /// The part of a whole text at an offset and of a length, if it lies in the text.
    pub(crate) fn get(whole: &'t str, offset: usize, length: usize) -> Option<Self> {
        let text = whole.get(offset..offset.checked_add(length)?)?;
        Some(Part { text, offset })
    }

    /// The same for a part that is known to lie in the text.
    pub(crate) fn of(whole: &'t str, offset: u32, length: u32) -> Self {
        Part::get(whole, offset as usize, length as usize).expect("a part lies in its text")
    }

    /// The part itself, for as long as the text lives.
    ///
    /// ```
    /// # use hannuvel::{AnimatedTag, Table, parse_overrides};
    /// # let mut table = Table::<4>::new();
    /// # let tags = parse_overrides(r"\rAlternate", &mut table)?;
    /// # let Some(AnimatedTag::R(Some(name))) = tags.iter().next().map(|tag| tag.value()) else { panic!() };
    /// assert_eq!(name.as_str(), "Alternate");
    /// # Ok::<(), hannuvel::Refusal>(())
    /// ```
    pub fn as_str(self) -> &'t str {
        self.text
    }

    /// The byte of the text at which the part begins; 0 for an empty part.
    ///
    /// ```
    /// # use hannuvel::{AnimatedTag, Table, parse_overrides};
    /// # let mut table = Table::<4>::new();
    /// # let tags = parse_overrides(r"\rAlternate", &mut table)?;
    /// # let Some(AnimatedTag::R(Some(name))) = tags.iter().next().map(|tag| tag.value()) else { panic!() };
    /// assert_eq!(name.offset(), 2);
    /// # Ok::<(), hannuvel::Refusal>(())
    /// ```
    pub fn offset(self) -> usize {
        self.offset
    }

    /// The bytes of the text that the part has.
    ///
    /// ```
    /// # use hannuvel::{AnimatedTag, Table, parse_overrides};
    /// # let mut table = Table::<4>::new();
    /// # let tags = parse_overrides(r"\rAlternate", &mut table)?;
    /// # let Some(AnimatedTag::R(Some(name))) = tags.iter().next().map(|tag| tag.value()) else { panic!() };
    /// assert_eq!(name.range(), 2..11);
    /// # Ok::<(), hannuvel::Refusal>(())
    /// ```
    pub fn range(self) -> Range<usize> {
        self.offset..self.offset + self.text.len()
    }
}

impl Deref for Part<'_> {
    type Target = str;

    fn deref(&self) -> &str {
        self.text
    }
}

impl fmt::Display for Part<'_> {
    fn fmt(&self, f: &mut fmt::Formatter) -> fmt::Result {
        f.pad(self.text)
    }
}

impl PartialEq<str> for Part<'_> {
    fn eq(&self, other: &str) -> bool {
        self.text == other
    }
}

impl PartialEq<&str> for Part<'_> {
    fn eq(&self, other: &&str) -> bool {
        self.text == *other
    }
}

/// The name of a \fn: the letters behind `fn`, then the parameter, as `\fnArial(x)` names `Arialx`. `to_string` joins
/// them.
///
/// ```
/// use hannuvel::{Table, parse_overrides};
///
/// let mut table = Table::<4>::new();
/// let tags = parse_overrides(r"\fnArial(x)", &mut table)?;
/// let name = tags.evaluate_at(0, 1000)?.font_name.unwrap();
/// assert_eq!(name, "Arialx");
/// assert_eq!((name.letters.range(), name.parameter.range()), (3..8, 9..10));
/// assert_eq!(name.to_string(), "Arialx");
/// # Ok::<(), hannuvel::Refusal>(())
/// ```
#[derive(Clone, Copy, Debug, Default, PartialEq, Eq, Hash)]
pub struct FontName<'t> {
    /// The letters behind `fn`.
    pub letters: Part<'t>,
    /// The parameter, less the blanks around it.
    pub parameter: Part<'t>,
}

impl fmt::Display for FontName<'_> {
    fn fmt(&self, f: &mut fmt::Formatter) -> fmt::Result {
        write!(f, "{}{}", self.letters.text, self.parameter.text)
    }
}

impl PartialEq<str> for FontName<'_> {
    fn eq(&self, other: &str) -> bool {
        other.strip_prefix(self.letters.text) == Some(self.parameter.text)
    }
}

impl PartialEq<&str> for FontName<'_> {
    fn eq(&self, other: &&str) -> bool {
        *self == **other
    }
}
