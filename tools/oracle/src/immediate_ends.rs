//! Which ends of the Immediates of Byte and Word a list of lines tries, by
//! instruction, field and size.

use std::collections::{BTreeMap, BTreeSet};

use crate::answer::{field_number, Answer, Refusal};
use crate::draft::{Draft, Kind};
use crate::instructions::Size;
use crate::machine::encode::{encode, EncodeError, Field};
use crate::numeric::placed;
use crate::schema::{instructions, Number};

/// A number that no Immediate of Byte or Word holds.
const NOT_HELD: i128 = 0x80_0000;

const BYTE_HELD: [i128; 4] = [0, 255, 0xFFFF_FF80, 0xFFFF_FFFF];
const BYTE_REFUSED: [i128; 3] = [256, 0xFFFF_FF7F, 0xFFFF_8000];
const WORD_HELD: [i128; 4] = [0, 65_535, 0xFFFF_8000, 0xFFFF_FFFF];
const WORD_REFUSED: [i128; 2] = [65_536, 0xFFFF_7FFF];

/// The place of the instruction, its field, and whether the size is Word.
type Place = (usize, usize, bool);

#[derive(Default)]
struct Tried {
    held: BTreeSet<i128>,
    refused: BTreeSet<i128>,
}

#[derive(Default)]
pub struct ImmediateEnds {
    tried: BTreeMap<Place, Tried>,
}

impl ImmediateEnds {
    pub fn line(&mut self, draft: &Draft, answer: &Answer) {
        for at in draft.leaves() {
            let number = draft.fields[at.0][at.1].value;
            let Some(word) = size(draft, at) else {
                continue;
            };
            let tried = self.tried.entry((draft.place, at.0, word)).or_default();
            match &answer.words {
                Ok(_) => tried.held.insert(number),
                Err(refusal) if *refusal == not_held(number) => tried.refused.insert(number),
                Err(_) => continue,
            };
        }
    }

    pub fn report(&self) {
        println!(
            "Immediate of Byte or Word by instruction and field: {}; held at the ends; refused past them",
            self.tried.len()
        );
        for ((place, field, word), tried) in &self.tried {
            let name = instructions()[*place].name;
            let size = if *word { "Word" } else { "Byte" };
            let (held, refused) = due(*word);
            println!(
                "    {name:9} {field} {size} {}; {}",
                shown(held, &tried.held),
                shown(refused, &tried.refused)
            );
        }
    }
}

/// The numbers held at the ends, and those refused past them.
fn due(word: bool) -> (&'static [i128], &'static [i128]) {
    match word {
        false => (&BYTE_HELD, &BYTE_REFUSED),
        true => (&WORD_HELD, &WORD_REFUSED),
    }
}

/// Whether the leaf is an Immediate of Word, or of Byte; none where it is
/// neither, or the Rust refuses something before it.
fn size(draft: &Draft, at: (usize, usize)) -> Option<bool> {
    let Kind::Number(Number::U32) = draft.fields[at.0][at.1].kind else {
        return None;
    };
    let mut changed = draft.clone();
    changed.leaf(at).value = NOT_HELD;
    let placed = placed(changed.line().as_bytes())?;
    match encode(&placed.instruction, placed.address) {
        Err(EncodeError::OutOfRange {
            field: Field::Immediate(size),
            value,
        }) if value as i128 == NOT_HELD => Some(size == Size::Word),
        _ => None,
    }
}

/// The refusal of an Immediate.
fn not_held(number: i128) -> Refusal {
    Refusal {
        number: 2,
        detail: field_number(Field::Immediate(Size::Byte)),
        value: number as i64,
    }
}

fn shown(ends: &[i128], tried: &BTreeSet<i128>) -> String {
    let shown = ends.iter().map(|end| match tried.contains(end) {
        true => format!("{end}: yes"),
        false => format!("{end}: -"),
    });
    shown.collect::<Vec<String>>().join(", ")
}

#[cfg(test)]
mod tests {
    use super::*;
    use crate::{answer::answer, generate};

    /// Places of Byte and of Word where encode.rs asks for an Immediate.
    const BYTES: usize = 14;
    const WORDS: usize = 22;

    #[test]
    fn every_end_is_generated() {
        let mut ends = ImmediateEnds::default();
        for line in generate::lines(1).take(30_000) {
            let placed = placed(line.as_bytes()).expect("in the form");
            ends.line(&Draft::of_line(&line), &answer(&placed));
        }
        let words = ends.tried.keys().filter(|place| place.2).count();
        assert_eq!((ends.tried.len() - words, words), (BYTES, WORDS));
        for ((_, _, word), tried) in &ends.tried {
            let (held, refused) = due(*word);
            assert!(held.iter().all(|end| tried.held.contains(end)));
            assert!(refused.iter().all(|end| tried.refused.contains(end)));
            assert!(tried.held.is_disjoint(&tried.refused));
        }
    }
}
