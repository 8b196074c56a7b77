//! The second reader, for MC68000 boards: the first reader's answer, or refusal
//! 15 where the manual's entry does not mark what it reads for the MC68000.

pub mod answer;
pub mod decoder;
mod entries;
mod indexed;
pub mod list;
pub mod objdump;
mod samples;
#[cfg(test)]
mod tests;
