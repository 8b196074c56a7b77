//! The stored list of S-records.

use std::io::{self, Write};
use std::ops::RangeInclusive;

use super::case::Case;
use super::cases::{bounds, faults, forms, lent, mixes, order, written};
use super::generate::case;
use super::manual;
use crate::random::Random;
use crate::stored;

/// Random cases: how many, of how many bytes.
const RANDOM: [(usize, RangeInclusive<usize>); 2] = [(200, 1..=600), (20, 1_000..=3_000)];

/// A header that is not in the form, of a way that is none.
const LAST: &[u8] = b"0\t2\t0\n";

pub fn write(seed: u64, output: &mut impl Write) -> io::Result<()> {
    stored::write_list(&cases(seed), LAST, output)
}

/// The cases, none twice.
pub fn cases(seed: u64) -> Vec<Case> {
    let mut random = Random::new(seed);
    let examples = manual::examples().into_iter();
    let all = [
        examples.map(|example| example.case).collect(),
        faults::all(),
        order::all(),
        mixes::all(),
        bounds::all(),
        forms::all(),
        lent::all(),
        written::all(),
        stored::sampled(&RANDOM, case, &mut random),
    ];
    stored::distinct(all.concat())
}
