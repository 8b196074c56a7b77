//! The stored list of sheets.

use std::io::{self, Write};
use std::ops::RangeInclusive;

use super::cases::{
    blocks, ends, immediates, instructions, large, lines, named, order, reach, shown,
};
use super::generate::{either, record};
use super::manual;
use super::record::Record;
use crate::random::Random;
use crate::stored::{self, Example};

/// Random sheets: how many, of how many bytes.
const RANDOM: [(usize, RangeInclusive<usize>); 2] = [(400, 1..=600), (20, 2_000..=10_000)];

/// Those of either way.
const EITHER: [(usize, RangeInclusive<usize>); 3] =
    [(54, 1..=400), (5, 400..=1_500), (1, 2_000..=3_000)];

/// Sheets of the full scratch that come by the small one too: up to so many
/// bytes, and one in so many.
const COMMON: usize = 600;
const SAMPLED: usize = 25;

/// A header that is not in the form, of a way that is none.
const LAST: &[u8] = b"12\t1\t1\t2\nSTART\t0\nNOP\n";

pub fn write(seed: u64, output: &mut impl Write) -> io::Result<()> {
    stored::write_list(&records(seed), LAST, output)
}

/// The records, none twice.
pub fn records(seed: u64) -> Vec<Record> {
    let mut random = Random::new(seed);
    let full = full(seed);
    let all = [
        worked(by_way(true)),
        small(&worked(by_way(false))),
        small(&order::all()),
        small(&sampled(&full)),
        blocks::all(),
        named::all(),
        stored::sampled(&EITHER, either, &mut random),
    ];
    stored::distinct([full, all.concat()].concat())
}

fn small(records: &[Record]) -> Vec<Record> {
    records.iter().map(Record::small).collect()
}

/// One in so many, large ones apart.
fn sampled(full: &[Record]) -> Vec<Record> {
    let common = full.iter().filter(|record| record.text.len() <= COMMON);
    common.step_by(SAMPLED).cloned().collect()
}

/// Those of three numbers, which use the full scratch.
pub fn full(seed: u64) -> Vec<Record> {
    let mut random = Random::new(seed);
    let all = [
        worked(by_way(false)),
        instructions::all(&mut random),
        order::all(),
        lines::all(),
        ends::all(&mut random),
        reach::all(),
        large::all(),
        stored::sampled(&RANDOM, record, &mut random),
        immediates::all(&mut random),
        worked(manual::guide()),
        shown::all(),
    ];
    stored::distinct(all.concat())
}

/// The worked sheets whose way is written out, or the others.
fn by_way(written: bool) -> Vec<Example<Record>> {
    let examples = manual::examples().into_iter();
    let kept = examples.filter(|example| example.case.way.is_some() == written);
    kept.collect()
}

fn worked(examples: Vec<Example<Record>>) -> Vec<Record> {
    examples.into_iter().map(|example| example.case).collect()
}
