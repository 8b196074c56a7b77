//! Runs a program on generated lines and compares its answers.

use std::io;

use crate::answer::answer_line;
use crate::batch::Batches;
use crate::branches;
use crate::compare::{Comparison, Expected};
use crate::generate;
use crate::malformed::{lines as malformed, raw_lines, spoiled};
use crate::random::Random;
use crate::requests::Requests;

/// One line in so many is spoiled.
const SPOILED: u64 = 50;

pub fn replay(program: &str, seed: u64, count: usize) -> io::Result<Comparison> {
    let expected = |line: &[u8]| Expected::new(answer_line(line), Requests::of_line(line));
    replay_as(program, seed, count, b"", |line, _| line, expected)
}

/// Compares the branches around -1 and `count` generated lines of `seed`, as
/// `given` has them and some of them spoiled, after the lines that are not in the
/// form, behind `before`.
pub fn replay_as(
    program: &str,
    seed: u64,
    count: usize,
    before: &[u8],
    given: impl Fn(String, &mut Random) -> String,
    expected: impl Fn(&[u8]) -> Expected,
) -> io::Result<Comparison> {
    let mut comparison = Comparison::default();
    let mut batches = Batches::new(program, |asked: &[u8], due: Expected, found: &[u8]| {
        comparison.due(asked, &due, Some(found))
    });
    for line in malformed().chain(raw_lines()) {
        let line = [before, line].concat();
        batches.push(&line, expected(&line))?;
    }
    let mut random = Random::new(seed);
    let branches = branches::lines().into_iter();
    for line in branches.chain(generate::lines(seed).take(count)) {
        let line = given(line, &mut random);
        let line = match random.below(SPOILED) {
            0 => spoiled(&line, &mut random),
            _ => line.into_bytes(),
        };
        batches.push(&line, expected(&line))?;
    }
    batches.finish()?;
    Ok(comparison)
}
