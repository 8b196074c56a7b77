//! The sheet of an image: a judge of its own, the stored list, and comparisons
//! of a program with the judge.

pub mod answer;
mod back;
mod case;
mod cases;
mod generate;
mod judge;
pub mod list;
pub mod manual;
mod outside;
pub mod replay;
mod spell;
mod spoil;
#[cfg(test)]
mod tests;
