//! The stored list of runs.

use std::collections::HashSet;
use std::io::{self, Write};

use super::answer::answer_line;
use super::malformed;
use super::run::Run;
use super::samples::{branches, encoded, ends, first_words, groups, placed_words, unused, worked};
use crate::answer::NOT_IN_FORM;
use crate::manual::{self, Example};
use crate::random::Random;

/// Small letters, and runs far longer than an instruction.
const SMALL: [&str; 5] = [
    "0\t4e71",
    "0\t4E7a\t0fFf",
    "4096\t60ff\t0000\t0000",
    "4096\tabcd\tef01",
    "0\tfc00",
];
const LONG: usize = 400;

/// One first word in so many is sampled; odd, so that all low bits come.
const STEP: usize = 13;

/// Runs with an unused bit set.
const UNUSED: usize = 600;

/// The last line, a NOP, which lacks its LF.
const LAST: &str = "0\t4E71";

pub fn write(seed: u64, output: &mut impl Write) -> io::Result<()> {
    write_lines(&manual::readings(), &runs(seed), LAST, output)
}

/// Writes worked readings, runs and lines that are not in the form, none of
/// them twice, and `last` without its LF.
pub fn write_lines(
    worked: &[Example],
    runs: &[Run],
    last: &str,
    output: &mut impl Write,
) -> io::Result<()> {
    let mut seen = HashSet::new();
    for line in lines(worked, runs) {
        if seen.insert(line.clone()) {
            output.write_all(&line)?;
            output.write_all(b"\n")?;
        }
    }
    output.write_all(last.as_bytes())?;
    output.flush()
}

fn lines(worked: &[Example], runs: &[Run]) -> Vec<Vec<u8>> {
    let worked = worked.iter().map(|example| example.line.as_bytes());
    let mut lines: Vec<Vec<u8>> = worked.map(<[u8]>::to_vec).collect();
    lines.extend(runs.iter().map(|run| run.line().into_bytes()));
    lines.extend(SMALL.map(|line| line.as_bytes().to_vec()));
    lines.extend(long());
    for line in malformed::lines() {
        assert_eq!(answer_line(line), NOT_IN_FORM);
        lines.push(line.to_vec());
    }
    lines
}

fn runs(seed: u64) -> Vec<Run> {
    let mut random = Random::new(seed);
    let encoded = encoded(seed, &mut random);
    [
        worked(),
        placed_words(),
        groups(&mut random),
        first_words(STEP, &mut random),
        encoded.runs(),
        unused(UNUSED, &mut random),
        ends(&mut random),
        branches(),
    ]
    .concat()
}

/// Many words behind one that reads, one that does not, and a fault behind
/// them all.
fn long() -> [Vec<u8>; 3] {
    let behind = "\t0000".repeat(LONG);
    [
        format!("0\t4E71{behind}").into_bytes(),
        format!("0\t4AFB{behind}").into_bytes(),
        format!("0\t4E71{behind}\t000").into_bytes(),
    ]
}
