//! What the functions on values of encoded.rs give, for words, variants and
//! arguments.

pub mod answer;
pub mod list;
pub mod replay;
