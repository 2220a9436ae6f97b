//! Seeded generators of inputs.

pub mod block;
pub mod corners;
pub mod drawing;
pub mod exhaustive;
pub mod exponents;
pub mod limits;
pub mod number;
pub mod size;
pub mod table;
pub mod text;
