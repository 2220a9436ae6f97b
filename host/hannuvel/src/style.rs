//! The style in force.

use crate::{Part, words};
use std::fmt;

/// The name of the style in force at an instant: what [`Tags::style_in_force`](crate::Tags::style_in_force) answers.
#[derive(Clone, Copy, Debug, PartialEq, Eq, Hash)]
pub enum StyleName<'t> {
    /// The name that a \r gave, a part of the block.
    Block(Part<'t>),
    /// The line's own name.
    Own(&'t str),
}

impl<'t> StyleName<'t> {
    pub(crate) fn of(style: words::Style, block: &'t str, own: &'t [u8]) -> Self {
        match style {
            words::Style::Block(part) => {
                StyleName::Block(Part::get(block, part.start, part.len()).expect("a part of the block"))
            }
            words::Style::Own(part) => {
                StyleName::Own(str::from_utf8(&own[part]).expect("a name that is taken is ASCII"))
            }
        }
    }

    /// The name itself.
    ///
    /// ```
    /// assert_eq!(hannuvel::StyleName::Own("Default").as_str(), "Default");
    /// ```
    pub fn as_str(self) -> &'t str {
        match self {
            StyleName::Block(part) => part.as_str(),
            StyleName::Own(name) => name,
        }
    }
}

impl fmt::Display for StyleName<'_> {
    fn fmt(&self, f: &mut fmt::Formatter) -> fmt::Result {
        f.pad(self.as_str())
    }
}
