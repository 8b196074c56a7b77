//! Accepted drafts with an Immediate operand or an immediate instruction's
//! number, one for each place that takes one and each size.

use crate::answer::accepts_without_n5;
use crate::draft::Draft;
use crate::fill::{accepted, draft};
use crate::kinds::{DATA, IMMEDIATE, KINDS};
use crate::random::Random;
use crate::schema::{instructions, operands, size_field, Number, Type};
use crate::values::ADDRESSES;

/// The ends of what an Immediate of Byte and of Word holds, N2 included, and one
/// past each.
pub const ENDS: [i128; 10] = [
    0,
    255,
    256,
    65_535,
    65_536,
    0xFFFF_7FFF,
    0xFFFF_8000,
    0xFFFF_FF7F,
    0xFFFF_FF80,
    0xFFFF_FFFF,
];

const TRIES: u32 = 40;

/// A draft that is accepted with 1 at a leaf, which is an Immediate's number, a
/// bit number or a count.
pub struct Immediate {
    draft: Draft,
    at: (usize, usize),
}

impl Immediate {
    pub fn with(&self, number: i128) -> Draft {
        let mut changed = self.draft.clone();
        changed.leaf(self.at).value = number;
        changed
    }
}

/// All of them, by instruction.
pub fn immediates(random: &mut Random) -> Vec<Immediate> {
    let mut found = Vec::new();
    for place in 0..instructions().len() {
        for at in leaves(place) {
            let sizes = match size_field(place) {
                Some(field) => (0..3).map(|size| Some((field, size))).collect(),
                None => vec![None],
            };
            let made = sizes.iter().map(|size| immediate(place, at, *size, random));
            found.extend(made.flatten());
        }
    }
    found
}

/// Where an operand's number would stand, and the number of an instruction that
/// begins with one and has a size.
fn leaves(place: usize) -> Vec<(usize, usize)> {
    let of_operands = operands(place).into_iter().map(|field| (field, 1));
    let first = instructions()[place].fields.first();
    let of_its_own = match (first, size_field(place)) {
        (Some(Type::Number(Number::U32)), Some(_)) => Some((0, 0)),
        _ => None,
    };
    of_operands.chain(of_its_own).collect()
}

/// The other operands are data registers, which most instructions take.
fn immediate(
    place: usize,
    at: (usize, usize),
    size: Option<(usize, i128)>,
    random: &mut Random,
) -> Option<Immediate> {
    let made = accepted(TRIES, || {
        let address = random.pick(&ADDRESSES);
        let mut made = draft(place, address, random);
        for field in operands(place) {
            let kind = if field == at.0 { IMMEDIATE } else { DATA };
            made.fields[field] = KINDS[kind].leaves(address, random);
        }
        if let Some((field, size)) = size {
            made.leaf((field, 0)).value = size;
        }
        made.leaf(at).value = 1;
        made
    });
    accepts_without_n5(&made.line()).then_some(Immediate { draft: made, at })
}
