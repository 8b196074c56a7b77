//! The words of accepted instructions, one after the other: an image or more
//! for each of the 97 that have a line, whatever address they were made for.

use std::collections::{BTreeMap, HashSet};

use super::super::case::Case;
use super::{case, STARTS};
use crate::answer::answer;
use crate::generate;
use crate::image::Image;
use crate::numeric::placed;
use crate::schema::instructions;
use crate::sheet::line::WITHOUT_A_LINE;
use crate::written::place;

/// Generated lines looked through, and how many of an instruction are kept.
const GENERATED: usize = 30_000;
const KEPT: usize = 60;

/// Instructions in an image.
const TOGETHER: usize = 20;

/// Branches, which land nowhere here, and are kept alone.
const BRANCHES: [&str; 4] = ["BRA", "BSR", "Bcc", "DBcc"];

pub fn all(seed: u64) -> Vec<Case> {
    let mut images = Vec::new();
    for (place, runs) in by_variant(seed) {
        let together = match BRANCHES.contains(&instructions()[place].name) {
            true => 1,
            false => TOGETHER,
        };
        let kept: Vec<Vec<u16>> = spread(runs);
        for (turn, runs) in kept.chunks(together).take(KEPT / TOGETHER).enumerate() {
            images.push(Image {
                start: STARTS[(place + turn) % STARTS.len()],
                words: runs.concat(),
            });
        }
    }
    images.iter().map(case).collect()
}

/// About so many as are kept, evenly spread.
fn spread(runs: Vec<Vec<u16>>) -> Vec<Vec<u16>> {
    let step = runs.len().div_ceil(KEPT);
    runs.into_iter().step_by(step).collect()
}

/// The words of the accepted generated instructions that have a line, by
/// variant, none twice.
fn by_variant(seed: u64) -> BTreeMap<usize, Vec<Vec<u16>>> {
    let mut seen = HashSet::new();
    let mut found: BTreeMap<usize, Vec<Vec<u16>>> = BTreeMap::new();
    for line in generate::lines(seed).take(GENERATED) {
        let placed = placed(line.as_bytes()).expect("in the form");
        let place = place(&placed.instruction);
        let named = !WITHOUT_A_LINE.contains(&instructions()[place].name);
        if let (true, Ok(words)) = (named, answer(&placed).words) {
            if seen.insert(words.clone()) {
                found.entry(place).or_default().push(words);
            }
        }
    }
    found
}
