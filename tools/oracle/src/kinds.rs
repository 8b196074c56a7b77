//! The operand kinds: the addressing modes, and the four forms of `Extended`.

use crate::draft::{Leaf, Leaves};
use crate::fill::variant_leaves;
use crate::random::Random;
use crate::schema::{variants, OPERAND};
use crate::values::{brief_word, full_word};

pub struct OperandKind {
    pub name: &'static str,
    variant: &'static str,
    /// What tells it from the other kinds of the same variant.
    form: Form,
}

enum Form {
    Only,
    /// The place of the enum that stands at this leaf.
    Place(usize, i128),
    /// Brief or full, and on the program counter or not.
    Extended {
        full: bool,
        pc: bool,
    },
}

const fn kind(name: &'static str, variant: &'static str, form: Form) -> OperandKind {
    OperandKind {
        name,
        variant,
        form,
    }
}

/// Places in `KINDS`.
pub const IMMEDIATE: usize = 0;
pub const DATA: usize = 2;

pub static KINDS: [OperandKind; 16] = [
    kind("#n", "Immediate", Form::Only),
    kind("An", "Register", Form::Place(1, 0)),
    kind("Dn", "Register", Form::Place(1, 1)),
    kind("(An)", "Indirect", Form::Only),
    kind("(An)+", "PostIndirect", Form::Only),
    kind("-(An)", "PreIndirect", Form::Only),
    kind("d16(An)", "IndirectDisplacement", Form::Only),
    kind("d8(An,Xn)", "IndirectIndex", Form::Only),
    kind("d16(PC)", "PcDisplacement", Form::Only),
    kind("d8(PC,Xn)", "PcIndex", Form::Only),
    kind("abs.W", "Absolute", Form::Place(2, 0)),
    kind("abs.L", "Absolute", Form::Place(2, 1)),
    kind(
        "brief An",
        "Extended",
        Form::Extended {
            full: false,
            pc: false,
        },
    ),
    kind(
        "full An",
        "Extended",
        Form::Extended {
            full: true,
            pc: false,
        },
    ),
    kind(
        "brief PC",
        "Extended",
        Form::Extended {
            full: false,
            pc: true,
        },
    ),
    kind(
        "full PC",
        "Extended",
        Form::Extended {
            full: true,
            pc: true,
        },
    ),
];

impl OperandKind {
    /// An operand of this kind with plain numbers.
    pub fn leaves(&self, address: u32, random: &mut Random) -> Leaves {
        let place = variants(&OPERAND)
            .iter()
            .position(|variant| variant.name == self.variant);
        let mut leaves = variant_leaves(
            &OPERAND,
            place.expect("the variant is declared"),
            address,
            random,
        );
        match self.form {
            Form::Only => {}
            Form::Place(leaf, place) => leaves[leaf].value = place,
            Form::Extended { full, pc } => {
                leaves[1].value = if pc { 8 } else { random.between(0, 7) };
                leaves[2].value = if full {
                    full_word(random)
                } else {
                    brief_word(random)
                };
            }
        }
        leaves
    }

    fn is(&self, leaves: &[Leaf]) -> bool {
        let named = variants(&OPERAND)[leaves[0].value as usize].name == self.variant;
        named
            && match self.form {
                Form::Only => true,
                Form::Place(leaf, place) => leaves[leaf].value == place,
                Form::Extended { full, pc } => {
                    (leaves[1].value == 8) == pc && (leaves[2].value & 0x0100 != 0) == full
                }
            }
    }
}

/// The place in `KINDS` of an operand.
pub fn kind_of(leaves: &[Leaf]) -> usize {
    KINDS
        .iter()
        .position(|kind| kind.is(leaves))
        .expect("every operand has a kind")
}
