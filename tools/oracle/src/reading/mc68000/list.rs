//! The stored list of runs for the MC68000.

use std::io::{self, Write};

use super::indexed::indexed;
use super::samples::encoded;
use crate::manual;
use crate::random::Random;
use crate::reading::list::write_lines;
use crate::reading::run::Run;
use crate::reading::samples::{branches, first_words, groups, placed_words, unused};

/// One first word in so many is sampled; odd, so that all low bits come.
const STEP: usize = 97;

/// Runs with an unused bit set.
const UNUSED: usize = 300;

/// The last line, an RTD, which lacks its LF.
const LAST: &str = "4294967294\t4E74\t0004";

pub fn write(seed: u64, output: &mut impl Write) -> io::Result<()> {
    write_lines(&manual::readings_68000(), &runs(seed), LAST, output)
}

fn runs(seed: u64) -> Vec<Run> {
    let mut random = Random::new(seed);
    let encoded = encoded(seed, &mut random);
    [
        placed_words(),
        indexed(&mut random),
        groups(&mut random),
        first_words(STEP, &mut random),
        encoded.runs(),
        unused(UNUSED, &mut random),
        branches(),
    ]
    .concat()
}
