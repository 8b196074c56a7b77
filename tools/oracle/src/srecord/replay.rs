//! Runs a program on random cases and compares its answers.

use std::io;

use super::generate::case;
use super::{manual, outside};
use crate::compare::Comparison;
use crate::stored::{of_feeds, Replay};

/// Compares lists that are not in the form, the worked cases, and `count`
/// random ones of `seed`.
pub fn replay(program: &str, seed: u64, count: usize) -> io::Result<Comparison> {
    let replay = Replay {
        before: b"15\t1\t0\nS70500000000FA\n",
        outside: outside::lists(),
        of_bytes: |bytes| of_feeds(bytes, "1\t0"),
        examples: manual::examples(),
        case,
    };
    replay.run(program, seed, count)
}
