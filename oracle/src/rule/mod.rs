//! 01's rules, written anew beside the Rust: what is refused and where, what is kept, which parts
//! of the text the strings are, which tables are well formed, and the marks.

pub mod block;
pub mod drawing;
pub mod marks;
pub mod numeral;
pub mod opacity;
pub mod refusal;
pub mod table;
pub mod walk;
