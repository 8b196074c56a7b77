//! Lines and sheets as they are made: drafts whose numbers can be lines' names.

use std::collections::BTreeMap;

use super::line::{naming, Naming};
use crate::answer::{accepts_without_n5, answer};
use crate::draft::{Draft, Kind, Leaf};
use crate::numeric::placed;
use crate::random::Random;
use crate::schema::{is_bool, is_operand, variants};

/// Lines tried before a target becomes its own line.
const TRIES: usize = 20;

/// How far a near target is, in lines.
const NEAR: i128 = 12;

/// Where a number stands in a draft.
pub type Place = (usize, usize);

#[derive(Clone)]
pub struct Made {
    pub draft: Draft,
    /// The numbers that are lines' names.
    pub names: BTreeMap<Place, String>,
}

#[derive(Clone)]
pub struct Sheet {
    pub start: u32,
    pub lines: Vec<Made>,
    pub words: u64,
}

impl Made {
    fn text(&self) -> String {
        let mut text = self.draft.variant().name.to_string();
        for at in self.draft.leaves() {
            text.push('\t');
            match self.names.get(&at) {
                Some(name) => text.push_str(&format!("@{name}")),
                None => text.push_str(&spelled(&self.draft.fields[at.0][at.1])),
            }
        }
        text
    }

    /// The numbers that may be lines' names.
    pub fn targets(&self) -> Vec<(Place, Naming)> {
        let variant = self.draft.variant();
        let fields = variant.fields.iter().enumerate();
        let all = fields.map(|(field, kind)| match is_operand(kind) {
            true => {
                let place = self.draft.fields[field][0].value as usize;
                ((field, 1), naming(&variants(kind)[place], 0))
            }
            false => ((field, 0), naming(variant, field)),
        });
        all.filter(|(_, naming)| *naming != Naming::Never).collect()
    }
}

fn spelled(leaf: &Leaf) -> String {
    match leaf.kind {
        Kind::Place(variants) if !is_bool(variants) => {
            variants[leaf.value as usize].name.to_string()
        }
        _ => leaf.value.to_string(),
    }
}

impl Sheet {
    pub fn new(start: u32) -> Sheet {
        Sheet {
            start,
            lines: Vec::new(),
            words: 0,
        }
    }

    /// The address of the next line.
    pub fn next(&self) -> u32 {
        (self.start as u64 + 2 * self.words) as u32
    }

    /// The words up to 2^32.
    pub fn left(&self) -> u64 {
        ((1 << 32) - self.start as u64) / 2 - self.words
    }

    /// Adds a line at the next address.
    pub fn push(&mut self, mut draft: Draft) {
        draft.address = self.next();
        self.words += words(&draft);
        let names = BTreeMap::new();
        self.lines.push(Made { draft, names });
    }

    /// Names a line within reach for every branch, for some operands, and for
    /// those that are not accepted as they are.
    pub fn name_targets(&mut self, random: &mut Random) {
        for line in 0..self.lines.len() {
            let accepted = accepts_without_n5(&self.lines[line].draft.line());
            for (at, naming) in self.lines[line].targets() {
                if naming == Naming::Only || random.chance(60) || !accepted {
                    let target = self.reachable(line, at, random);
                    self.name(line, at, target);
                }
            }
        }
    }

    /// Makes a number of a line the name of another, both counted from 0.
    pub fn name(&mut self, line: usize, at: Place, target: usize) {
        let address = self.lines[target].draft.address;
        let made = &mut self.lines[line];
        made.draft.leaf(at).value = address as i128;
        made.names.insert(at, (target + 1).to_string());
    }

    /// A line that the number can name so that the line is still accepted.
    fn reachable(&self, line: usize, at: Place, random: &mut Random) -> usize {
        let last = self.lines.len() as i128 - 1;
        for _ in 0..TRIES {
            let target = match random.chance(70) {
                true => line as i128 + random.between(-NEAR, NEAR),
                false => random.between(0, last),
            };
            let target = target.clamp(0, last) as usize;
            if self.reaches(line, at, target) {
                return target;
            }
        }
        line
    }

    /// Whether the line is accepted where the number names the target.
    pub fn reaches(&self, line: usize, at: Place, target: usize) -> bool {
        let mut draft = self.lines[line].draft.clone();
        draft.leaf(at).value = self.lines[target].draft.address as i128;
        accepts_without_n5(&draft.line())
    }

    pub fn text(&self) -> String {
        let lines = self.lines.iter();
        let lines: String = lines.map(|line| format!("{}\n", line.text())).collect();
        format!("START\t{}\n{lines}", self.start)
    }
}

/// The words of a draft; one where it has none.
pub fn words(draft: &Draft) -> u64 {
    let placed = placed(draft.line().as_bytes()).expect("a draft is in the form");
    answer(&placed).size.map_or(1, |size| size as u64 / 2)
}
