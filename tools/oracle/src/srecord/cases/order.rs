//! Texts with several faults, in one record and in two.

use super::super::case::{Case, MOST_WORDS};
use super::super::record::{spelled, summed, text, Record};
use super::faults::PLACES;
use super::{base, replaced};

/// Faults of one record, by refusal.
#[derive(Clone, Copy, Default)]
pub struct Faults {
    pub form: bool,
    pub sum: bool,
    pub place: bool,
}

impl Faults {
    /// Each of the seven choices of one fault or more.
    pub fn every() -> impl Iterator<Item = Faults> {
        (1..8).map(|bits| Faults {
            form: bits & 1 != 0,
            sum: bits & 2 != 0,
            place: bits & 4 != 0,
        })
    }

    /// One fault alone: 12, 13 and 14.
    pub fn single() -> [Faults; 3] {
        let form = Faults {
            form: true,
            ..Faults::default()
        };
        let sum = Faults {
            sum: true,
            ..Faults::default()
        };
        let place = Faults {
            place: true,
            ..Faults::default()
        };
        [form, sum, place]
    }

    /// The refusal due to a record with these faults.
    pub fn number(self) -> u32 {
        match self {
            Faults { form: true, .. } => 12,
            Faults { sum: true, .. } => 13,
            _ => 14,
        }
    }

    /// The record in this place with these faults; the first one can only be
    /// out of place past 2^32.
    fn spoil(self, record: &Record, at: usize, odd: bool) -> Vec<u8> {
        let mut record = record.clone();
        match (self.place, at) {
            (false, _) => {}
            (true, 0) => (record.kind, record.address) = (3, 0xFFFF_FFFE),
            (true, _) => record.address += 2,
        }
        if self.form && odd {
            record.data.push(0xA5);
        }
        let mut bytes = summed(record.covered());
        if self.sum {
            *bytes.last_mut().expect("a checksum") ^= 4;
        }
        let mut line = spelled(record.kind, &bytes);
        if self.form && !odd {
            line.insert(line.len() - 1, b'0');
        }
        line
    }
}

/// The words of the first record.
const FIRST: usize = 4;

/// Every choice of faults in every place, every two faults in two places, and
/// a fault before the text ends or goes on behind the closing record; with
/// enough lent, and with enough for the first record only.
pub fn all() -> Vec<Case> {
    let together = together().into_iter().map(|(text, _)| text);
    let apart = apart().into_iter().map(|(text, _)| text);
    let texts = together.chain(apart).chain(at_the_end());
    let cases =
        texts.flat_map(|text| [MOST_WORDS, FIRST].map(|lent| Case::to_read(&text[..], lent)));
    cases.collect()
}

/// Texts with faults in one record, the refusal and its line.
pub fn together() -> Vec<(Vec<u8>, (u32, usize))> {
    let mut found = Vec::new();
    for (turn, faults) in Faults::every().enumerate() {
        for at in 0..PLACES {
            for odd in [false, true] {
                let records = base(turn);
                let line = faults.spoil(&records[at], at, odd);
                let due = (faults.number(), at + 1);
                found.push((replaced(&records, at, line), due));
            }
        }
    }
    found
}

/// Texts with faults in two records, the refusal and its line.
pub fn apart() -> Vec<(Vec<u8>, (u32, usize))> {
    let mut found = Vec::new();
    for first in Faults::single() {
        for second in Faults::single() {
            for (at, other) in places() {
                let records = base(at + other);
                let lines = [
                    text(&records[..at]),
                    first.spoil(&records[at], at, false),
                    text(&records[at + 1..other]),
                    second.spoil(&records[other], other, false),
                    text(&records[other + 1..]),
                ];
                found.push((lines.concat(), (first.number(), at + 1)));
            }
        }
    }
    found
}

/// Every two places.
fn places() -> impl Iterator<Item = (usize, usize)> {
    (0..PLACES).flat_map(|at| (at + 1..PLACES).map(move |other| (at, other)))
}

/// A fault of the last record, and the text ends there without a closing one;
/// a fault of the closing one, and a record behind it.
fn at_the_end() -> Vec<Vec<u8>> {
    let mut found = Vec::new();
    for (turn, faults) in Faults::every().enumerate() {
        let records = base(turn);
        let last = faults.spoil(&records[2], 2, false);
        found.push([text(&records[..2]), last].concat());
        let closing = faults.spoil(&records[3], 3, false);
        found.push([text(&records[..3]), closing, records[3].line()].concat());
    }
    found
}
