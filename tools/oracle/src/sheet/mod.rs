//! The sheet: a judge of its own, the stored list, and comparisons of a
//! translator with the judge.

pub mod answer;
mod cases;
pub mod generate;
pub mod judge;
pub mod line;
pub mod list;
pub mod made;
pub mod manual;
mod outside;
pub mod record;
pub mod replay;
mod spoil;
#[cfg(test)]
mod tests;
pub mod whole;
