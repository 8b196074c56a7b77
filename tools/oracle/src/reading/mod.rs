//! The reading of words: a judge of its own, and comparisons of a reader with
//! it, with decode.rs and with objdump.

pub mod answer;
pub mod back;
pub mod classes;
pub mod decoder;
mod family;
pub mod judge;
pub mod list;
mod malformed;
pub mod mc68000;
pub mod objdump;
pub mod plain;
mod run;
mod samples;
pub mod sweep;
pub mod tails;
#[cfg(test)]
mod tests;
mod unused;
