//! Runs a program on generated lines with bytes lent and compares its answers.

use std::io;

use super::answer::{answer_line, line_requests, MOST};
use super::list::lengths;
use crate::answer::encoded_bytes;
use crate::compare::{Comparison, Expected};
use crate::numeric::placed;
use crate::random::Random;
use crate::replay::replay_as;

pub fn replay(program: &str, seed: u64, count: usize) -> io::Result<Comparison> {
    let given = |line: String, random: &mut Random| format!("{}\t{line}", lent(&line, random));
    let expected = |line: &[u8]| Expected::new(answer_line(line), line_requests(line));
    replay_as(program, seed, count, b"32\t", given, expected)
}

/// A length around the size of an accepted line in two cases of three, else
/// any, one past the most included.
fn lent(line: &str, random: &mut Random) -> u64 {
    let size = encoded_bytes(&placed(line.as_bytes()).expect("in the form"));
    match (size, random.below(3)) {
        (Ok(bytes), 0 | 1) => random.pick(&lengths(bytes.len() as u64)),
        _ => random.below(MOST + 2),
    }
}
