//! Runs a program on all lines and compares its answers.

use std::io;

use super::answer::answer_line;
use super::list::{all, outside};
use crate::batch::Batches;
use crate::compare::Comparison;

pub fn replay(program: &str) -> io::Result<Comparison> {
    let mut comparison = Comparison::default();
    let mut batches = Batches::new(program, |asked: &[u8], expected: String, found: &[u8]| {
        comparison.line(asked, expected.as_bytes(), found)
    });
    let mut failed = Ok(());
    let mut push = |line: &[u8]| {
        if failed.is_ok() {
            failed = batches.push(line, answer_line(line));
        }
    };
    outside().for_each(&mut push);
    all(&mut |line: String| push(line.as_bytes()));
    failed?;
    batches.finish()?;
    Ok(comparison)
}
