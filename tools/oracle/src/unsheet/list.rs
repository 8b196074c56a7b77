//! The stored list of images.

use std::io::{self, Write};
use std::ops::RangeInclusive;

use super::case::Case;
use super::cases::{
    bounds, branches, broken, extended, instructions, large, lent, order, sheets, targets,
};
use super::generate::case;
use super::manual;
use crate::random::Random;
use crate::stored;

/// Random cases: how many, of how many bytes.
const RANDOM: [(usize, RangeInclusive<usize>); 2] = [(200, 1..=600), (10, 1_000..=5_000)];

/// A header that is not in the form, with too much lent.
const LAST: &[u8] = b"7\t70001\n0\t4E71\n";

pub fn write(seed: u64, output: &mut impl Write) -> io::Result<()> {
    stored::write_list(&cases(seed), LAST, output)
}

/// The cases, none twice.
pub fn cases(seed: u64) -> Vec<Case> {
    let mut random = Random::new(seed);
    let examples = manual::examples().into_iter();
    let all = [
        examples.map(|example| example.case).collect(),
        bounds::all(),
        branches::all(),
        targets::all(),
        extended::all(),
        broken::all(),
        order::all(),
        lent::all(),
        instructions::all(seed),
        sheets::all(seed, &mut random),
        stored::sampled(&RANDOM, case, &mut random),
        large::all(),
    ];
    stored::distinct(all.concat())
}
