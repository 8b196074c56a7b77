//! Runs a program on random images and compares its answers.

use std::io;

use super::generate::case;
use super::{manual, outside};
use crate::compare::Comparison;
use crate::stored::Replay;

/// Compares lists that are not in the form, the worked cases, and `count`
/// random ones of `seed`.
pub fn replay(program: &str, seed: u64, count: usize) -> io::Result<Comparison> {
    let replay = Replay {
        before: b"7\t17\n0\t4E71\n",
        outside: outside::lists(),
        of_bytes,
        examples: manual::examples(),
        case,
    };
    replay.run(program, seed, count)
}

/// A list of so many bytes: an image of NOPs.
pub fn of_bytes(bytes: usize) -> Vec<u8> {
    let payload = bytes - "1000000\t0\n".len();
    let words = (payload - "2\n".len()) / "\t4E71".len();
    let start = "2".repeat(payload - 1 - 5 * words);
    let header = format!("{payload}\t0\n");
    format!("{header}{start}{}\n", "\t4E71".repeat(words)).into_bytes()
}
