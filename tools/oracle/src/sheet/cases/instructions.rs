//! Accepted sheets, one an instruction: every operand kind in every position
//! and every variant of every enum, where the instruction takes it.

use super::super::generate::places;
use super::super::made::Sheet;
use super::super::record::Record;
use crate::answer::accepts_without_n5;
use crate::draft::{Draft, Leaves};
use crate::fill::{accepted, draft, variant_leaves};
use crate::kinds::KINDS;
use crate::random::Random;
use crate::schema::{instructions, is_operand, variants};

const TRIES: u32 = 400;

const STARTS: [u32; 6] = [0, 4096, 0x7FFE, 0x7FFF_FFF0, 0x8000_0000, 0xFFFF_8000];

/// A field, and the place of what stands in it: an operand kind or a variant.
type Wish = (usize, usize);

pub fn all(random: &mut Random) -> Vec<Record> {
    let places = places().into_iter();
    places.map(|place| accepted_sheet(place, random)).collect()
}

fn accepted_sheet(place: usize, random: &mut Random) -> Record {
    let mut sheet = Sheet::new(random.pick(&STARTS));
    let made = accepted(TRIES, || draft(place, sheet.next(), random));
    sheet.push(made);
    for wish in wishes(place) {
        let made = accepted(TRIES, || wished(place, wish, sheet.next(), random));
        if accepts_without_n5(&made.line()) {
            sheet.push(made);
        }
    }
    sheet.name_targets(random);
    Record::of_program(sheet.text())
}

fn wishes(place: usize) -> Vec<Wish> {
    let fields = instructions()[place].fields.iter().enumerate();
    fields
        .flat_map(|(field, kind)| {
            let count = match is_operand(kind) {
                true => KINDS.len(),
                false => variants(kind).len(),
            };
            (0..count).map(move |wished| (field, wished))
        })
        .collect()
}

fn wished(place: usize, wish: Wish, address: u32, random: &mut Random) -> Draft {
    let mut made = draft(place, address, random);
    made.fields[wish.0] = wished_leaves(place, wish, address, random);
    made
}

fn wished_leaves(place: usize, wish: Wish, address: u32, random: &mut Random) -> Leaves {
    let kind = instructions()[place].fields[wish.0];
    match is_operand(kind) {
        true => KINDS[wish.1].leaves(address, random),
        false => variant_leaves(kind, wish.1, address, random),
    }
}
