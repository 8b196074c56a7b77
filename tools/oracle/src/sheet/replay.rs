//! Runs a program on random sheets and compares its answers.

use std::io;

use super::generate::either;
use super::{manual, outside};
use crate::compare::Comparison;
use crate::stored::{of_feeds, Replay};

/// Compares lists that are not in the form, the worked sheets, and `count`
/// random ones of `seed`.
pub fn replay(program: &str, seed: u64, count: usize) -> io::Result<Comparison> {
    let replay = Replay {
        before: b"12\t1\t1\t1\nSTART\t0\nNOP\n12\t1\t1\nSTART\t0\nNOP\n",
        outside: outside::lists(),
        of_bytes: |bytes| of_feeds(bytes, "0\t0\t1"),
        examples: manual::examples(),
        case: either,
    };
    replay.run(program, seed, count)
}
