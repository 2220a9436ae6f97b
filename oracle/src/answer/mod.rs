//! Canonical answers: what the built Rust gives, as the words of 01 and of the C interface.

pub mod decode;
pub mod record;
pub mod state;
pub mod table;
