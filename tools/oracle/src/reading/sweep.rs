//! Every first word with tails, cut at every length, through a program.

use std::io;

use super::answer::{answer_by, answer_line_by, Text};
use super::malformed;
use super::run::Run;
use super::tails::{tail, LENGTH};
use crate::batch::Batches;
use crate::compare::Comparison;
use crate::generate::random_address;
use crate::random::Random;

/// After one run in so many comes its line spoiled.
const SPOILED: u64 = 50;

/// The runs of `first` with the tails numbered below `tails`, each at an
/// address of its own; the cut after the first word comes once.
fn runs_of(first: u16, tails: usize, random: &mut Random) -> Vec<Run> {
    let mut runs = Vec::new();
    for number in 0..tails {
        let address = random_address(random);
        let words = [vec![first], tail(number, random)].concat();
        let shortest = if number == 0 { 1 } else { 2 };
        let cuts = shortest..=LENGTH + 1;
        runs.extend(cuts.map(|length| Run {
            address,
            words: words[..length].to_vec(),
        }));
    }
    runs
}

/// The runs of all 65,536 first words.
pub fn runs(seed: u64, tails: usize) -> impl Iterator<Item = Run> {
    let mut random = Random::new(seed);
    (0..=u16::MAX).flat_map(move |first| runs_of(first, tails, &mut random))
}

/// Compares a program with the judge, whose answers `text` gives, on the lines
/// that are not in the form and on the whole sweep, with spoiled lines between.
pub fn replay(text: Text, program: &str, seed: u64, tails: usize) -> io::Result<Comparison> {
    let mut comparison = Comparison::default();
    let mut batches = Batches::new(program, |asked: &[u8], expected: String, found: &[u8]| {
        comparison.line(asked, expected.as_bytes(), found)
    });
    for line in malformed::lines().chain(malformed::raw_lines()) {
        batches.push(line, answer_line_by(text, line))?;
    }
    let mut random = Random::new(seed);
    for run in runs(seed, tails) {
        let line = run.line();
        batches.push(line.as_bytes(), answer_by(text, &run))?;
        if random.below(SPOILED) == 0 {
            let line = malformed::spoiled(&line, &mut random);
            batches.push(&line, answer_line_by(text, &line))?;
        }
    }
    batches.finish()?;
    Ok(comparison)
}
