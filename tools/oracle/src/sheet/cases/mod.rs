//! The sheets of the stored list that are made by rule, and those of examples/.

pub mod blocks;
pub mod ends;
pub mod immediates;
pub mod instructions;
pub mod large;
pub mod lines;
pub mod named;
pub mod order;
pub mod reach;
pub mod shown;

use super::record::Record;

/// A sheet of these lines.
fn sheet(start: u32, lines: &[impl AsRef<str>]) -> Record {
    Record::of_program(text(&start.to_string(), lines))
}

fn text(start: &str, lines: &[impl AsRef<str>]) -> String {
    let lines = lines.iter().map(|line| format!("{}\n", line.as_ref()));
    format!("START\t{start}\n{}", lines.collect::<String>())
}

/// A sheet whose line 2 is `line`.
fn second(line: &[u8]) -> Record {
    Record::of_program([b"START\t4096\nNOP\n", line, b"\nNOP\n"].concat())
}
