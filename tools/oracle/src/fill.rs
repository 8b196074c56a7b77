//! Drafts filled with plain numbers.

use crate::answer::accepts_without_n5;
use crate::draft::{Draft, Kind, Leaf, Leaves};
use crate::random::Random;
use crate::schema::{instructions, is_operand, Type};
use crate::values::plain;

/// A draft of the variant at `place`, legal or not.
pub fn draft(place: usize, address: u32, random: &mut Random) -> Draft {
    let kinds = instructions()[place].fields;
    let mut fields: Vec<Leaves> = kinds
        .iter()
        .map(|kind| leaves(kind, address, random))
        .collect();
    if random.chance(25) {
        repeat_operand(kinds, &mut fields, address, random);
    }
    Draft {
        address,
        place,
        fields,
    }
}

/// Gives the second of two operands the first one's kind: some instructions
/// take only such pairs.
fn repeat_operand(
    kinds: &[&'static Type],
    fields: &mut [Leaves],
    address: u32,
    random: &mut Random,
) {
    if kinds.len() < 2 || !is_operand(kinds[0]) || !is_operand(kinds[1]) {
        return;
    }
    fields[1] = fields[0].clone();
    for leaf in &mut fields[1] {
        if let Kind::Number(number) = leaf.kind {
            leaf.value = plain(number, address, random);
        }
    }
}

/// The leaves of a value of `kind`.
pub fn leaves(kind: &'static Type, address: u32, random: &mut Random) -> Leaves {
    match kind {
        Type::Number(number) => vec![Leaf {
            kind: Kind::Number(*number),
            value: plain(*number, address, random),
        }],
        Type::Struct(fields) => fields
            .iter()
            .flat_map(|field| leaves(field, address, random))
            .collect(),
        Type::Enum(variants) => {
            let place = random.below(variants.len() as u64) as usize;
            variant_leaves(kind, place, address, random)
        }
    }
}

/// The leaves of the enum `kind` at one of its variants.
pub fn variant_leaves(
    kind: &'static Type,
    place: usize,
    address: u32,
    random: &mut Random,
) -> Leaves {
    let variants = crate::schema::variants(kind);
    let mut found = vec![Leaf {
        kind: Kind::Place(variants),
        value: place as i128,
    }];
    for field in variants[place].fields {
        found.extend(leaves(field, address, random));
    }
    found
}

/// The first accepted of `tries` drafts that `make` gives, or the last one.
pub fn accepted(tries: u32, mut make: impl FnMut() -> Draft) -> Draft {
    let mut draft = make();
    for _ in 1..tries {
        if accepts_without_n5(&draft.line()) {
            break;
        }
        draft = make();
    }
    draft
}
