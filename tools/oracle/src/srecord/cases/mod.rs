//! The cases of the stored list that are made by rule.

pub mod bounds;
pub mod faults;
pub mod forms;
pub mod lent;
pub mod mixes;
pub mod order;
pub mod written;

use super::case::{Case, MOST_WORDS};
use super::record::{counted, record, text, Record};

const START: u32 = 0x1000;

/// Kinds of three data records and the closing one; each kind is in each
/// place that it can have.
const TURNS: [[u8; 4]; 3] = [[1, 2, 3, 7], [2, 3, 1, 8], [3, 1, 2, 9]];

/// Three data records and a closing one.
fn base(turn: usize) -> Vec<Record> {
    let [first, middle, last, closing] = TURNS[turn % TURNS.len()];
    follow(&[(first, 8), (middle, 6), (last, 10)], START, closing)
}

/// Data records of these kinds and lengths, one after the other, and a closing
/// one.
fn follow(kinds: &[(u8, usize)], start: u32, closing: u8) -> Vec<Record> {
    let mut address = start;
    let mut records = Vec::new();
    for (kind, bytes) in kinds {
        records.push(record(*kind, address, &counted(*bytes)));
        address = address.wrapping_add(*bytes as u32);
    }
    records.push(record(closing, start, &[]));
    records
}

/// The words of the records.
fn words(records: &[Record]) -> usize {
    let bytes = records.iter().map(|record| record.data.len());
    bytes.sum::<usize>() / 2
}

/// Records to read with enough lent.
fn read(records: &[Record]) -> Case {
    Case::to_read(text(records), MOST_WORDS)
}

/// The records with one of them replaced by a text.
fn replaced(records: &[Record], at: usize, line: Vec<u8>) -> Vec<u8> {
    let before = text(&records[..at]);
    [before, line, text(&records[at + 1..])].concat()
}
