//! `encode_bytes` into lent bytes: the original's bytes and the scope's rule
//! for a lent slice.

pub mod answer;
pub mod list;
pub mod replay;
#[cfg(test)]
mod tests;
