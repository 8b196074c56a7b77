//! The S-records: a judge of its own, the stored list, and comparisons of a
//! program with the judge.

pub mod answer;
mod case;
mod cases;
mod generate;
mod judge;
pub mod list;
pub mod manual;
pub mod outside;
mod record;
pub mod replay;
mod spoil;
#[cfg(test)]
mod tests;
