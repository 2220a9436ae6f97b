//! The comparisons, one for each call or family of calls.

pub mod blocks;
pub mod clips;
pub mod drawings;
pub mod evaluate;
pub mod instants;
pub mod karaoke;
pub mod leaves;
pub mod marks;
pub mod progress;
pub mod source;
pub mod styles;
