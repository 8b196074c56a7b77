//! The lines of a seed: the systematic part, then random instructions.

use std::collections::HashSet;

use crate::draft::{Draft, Kind};
use crate::fill::{accepted, draft};
use crate::kinds::KINDS;
use crate::random::Random;
use crate::schema::{instructions, operands};
use crate::systematic::{drafts, faulty, word_offset};
use crate::values::{ends, ADDRESSES, DISPLACEMENTS};

pub struct Lines {
    systematic: std::vec::IntoIter<String>,
    random: Random,
}

/// The endless lines of `seed`.
pub fn lines(seed: u64) -> Lines {
    let mut seen = HashSet::new();
    let systematic: Vec<String> = drafts(seed)
        .iter()
        .map(Draft::line)
        .filter(|line| seen.insert(line.clone()))
        .collect();
    Lines {
        systematic: systematic.into_iter(),
        random: Random::new(seed ^ 0x5EED),
    }
}

impl Iterator for Lines {
    type Item = String;

    fn next(&mut self) -> Option<String> {
        match self.systematic.next() {
            Some(line) => Some(line),
            None => Some(random_draft(&mut self.random).line()),
        }
    }
}

pub fn random_address(random: &mut Random) -> u32 {
    match random.below(10) {
        0..=3 => random.pick(&ADDRESSES),
        4..=6 => random.next() as u32 & 0xFFFF_FFFE,
        _ => random.next() as u32,
    }
}

/// A random instruction: an accepted one, or one with a number moved to an end
/// or several numbers at fault, or one of any operands.
fn random_draft(random: &mut Random) -> Draft {
    let place = random.below(instructions().len() as u64) as usize;
    let address = random_address(random);
    if random.chance(15) {
        return any_operands(place, address, random);
    }
    let base = accepted(120, || draft(place, address, random));
    match random.below(20) {
        0..=7 => base,
        8..=14 => at_end(&base, random),
        _ => {
            let count = random.between(1, 4) as usize;
            faulty(&base, count, random)
        }
    }
}

/// Every operand of a kind taken at random.
fn any_operands(place: usize, address: u32, random: &mut Random) -> Draft {
    let mut made = draft(place, address, random);
    for field in operands(place) {
        let kind = random.below(KINDS.len() as u64) as usize;
        made.fields[field] = KINDS[kind].leaves(address, random);
    }
    made
}

/// `base` with one number moved to an end of some range.
pub fn at_end(base: &Draft, random: &mut Random) -> Draft {
    let places = base.leaves();
    let mut changed = base.clone();
    if places.is_empty() {
        return changed;
    }
    let at = random.pick(&places);
    let leaf = base.fields[at.0][at.1];
    changed.leaf(at).value = match (leaf.kind, word_offset(base, at)) {
        (Kind::Number(number), Some(offset)) => {
            number.wrap(base.address as i128 + offset + random.pick(&DISPLACEMENTS))
        }
        _ => random.pick(&ends(&leaf, base.address)),
    };
    changed
}
