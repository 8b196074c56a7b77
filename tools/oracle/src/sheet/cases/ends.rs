//! Sheets of one line with one field changed: every number at the ends of its
//! type and one past, every name spelled otherwise, a field more and a field
//! less.

use super::super::generate::places;
use super::super::made::Sheet;
use super::super::record::Record;
use crate::draft::{Draft, Kind, Leaf};
use crate::fill::{accepted, draft};
use crate::kinds::KINDS;
use crate::random::Random;
use crate::schema::{instructions, is_bool, operands, Variant};

const TRIES: u32 = 400;
const ADDRESS: u32 = 4096;

/// The instruction whose operands are tried in every kind.
const WHOLE: &str = "TST";

pub fn all(random: &mut Random) -> Vec<Record> {
    let mut found = Vec::new();
    for place in places() {
        let made = accepted(TRIES, || draft(place, ADDRESS, random));
        let operands = operands(place);
        let leaves = made.leaves().into_iter();
        let outside = leaves.filter(|at| !operands.contains(&at.0)).collect();
        found.extend(changed(&made, outside, random));
        found.extend(lengths(&made));
        if instructions()[place].name == WHOLE {
            found.extend(every_kind(place, random));
        }
    }
    found
}

fn every_kind(place: usize, random: &mut Random) -> Vec<Record> {
    let kinds = KINDS.iter();
    kinds
        .flat_map(|kind| {
            let made = accepted(TRIES, || {
                let mut made = draft(place, ADDRESS, random);
                made.fields[0] = kind.leaves(ADDRESS, random);
                made
            });
            let leaves = made.leaves();
            [changed(&made, leaves, random), lengths(&made)].concat()
        })
        .collect()
}

/// The fields of a draft's line.
fn fields(draft: &Draft) -> Vec<String> {
    let mut sheet = Sheet::new(ADDRESS);
    sheet.push(draft.clone());
    sheet.name_targets(&mut Random::new(0));
    let text = sheet.text();
    let line = text.lines().nth(1).expect("one line");
    line.split('\t').map(str::to_string).collect()
}

/// A sheet for each change of each of these leaves.
fn changed(made: &Draft, leaves: Vec<(usize, usize)>, random: &mut Random) -> Vec<Record> {
    let fields = fields(made);
    let places = made.leaves();
    let mut found = Vec::new();
    for at in leaves {
        let field = places.iter().position(|place| *place == at);
        let field = field.expect("a leaf of the draft") + 1;
        for other in others(&made.fields[at.0][at.1], random) {
            let mut fields = fields.clone();
            fields[field] = other;
            found.push(of_fields(&fields));
        }
    }
    found
}

fn of_fields(fields: &[String]) -> Record {
    super::sheet(ADDRESS, &[fields.join("\t")])
}

/// What stands in the place of a leaf.
fn others(leaf: &Leaf, random: &mut Random) -> Vec<String> {
    match leaf.kind {
        Kind::Number(number) => {
            let (low, high) = number.range();
            [low - 1, low, high, high + 1]
                .map(|number| number.to_string())
                .to_vec()
        }
        Kind::Place(variants) if is_bool(variants) => {
            ["-1", "2", "true"].map(String::from).to_vec()
        }
        Kind::Place(variants) => misspelled(&variants[leaf.value as usize], random),
    }
}

/// The name in other letters, cut or lengthened, and none.
fn misspelled(variant: &Variant, random: &mut Random) -> Vec<String> {
    let name = variant.name;
    let ways = [
        name.to_lowercase(),
        name.to_uppercase(),
        name[..name.len() - 1].to_string(),
        format!("{name}s"),
        String::new(),
        "0".to_string(),
    ];
    let first = random.below(ways.len() as u64) as usize;
    let ways = ways.iter().cycle().skip(first).filter(|way| *way != name);
    ways.take(2).cloned().collect()
}

/// The line with its last field taken away, and with one more.
fn lengths(made: &Draft) -> Vec<Record> {
    let fields = fields(made);
    let more = [&fields[..], &["0".to_string()]].concat();
    vec![of_fields(&fields[..fields.len() - 1]), of_fields(&more)]
}
