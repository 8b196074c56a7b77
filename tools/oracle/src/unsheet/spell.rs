//! An instruction in the one spelling, by the declarations of encoded.rs.

use crate::instructions::Instruction;
use crate::schema::{instructions, is_bool, Type, Variant};
use crate::sheet::line::{naming, Naming};
use crate::written::values;

/// The line of an instruction, without LF; a target is `@` and what `lands`
/// gives of it, or else a number.
pub fn spelled(instruction: &Instruction, lands: impl Fn(u32) -> Option<usize>) -> String {
    let mut speller = Speller {
        numbers: values(instruction).into_iter(),
        lands,
        fields: Vec::new(),
    };
    speller.variant(instructions());
    assert_eq!(speller.numbers.next(), None, "every number is spelled");
    speller.fields.join("\t")
}

struct Speller<F> {
    /// The numbers of the numeric form not spelled yet.
    numbers: std::vec::IntoIter<i128>,
    lands: F,
    fields: Vec<String>,
}

impl<F: Fn(u32) -> Option<usize>> Speller<F> {
    fn next(&mut self) -> i128 {
        self.numbers.next().expect("another number")
    }

    fn variant(&mut self, variants: &'static [Variant]) {
        let variant = &variants[self.next() as usize];
        self.fields.push(variant.name.to_string());
        for (field, kind) in variant.fields.iter().enumerate() {
            self.value(kind, naming(variant, field));
        }
    }

    fn value(&mut self, kind: &'static Type, naming: Naming) {
        match kind {
            Type::Number(_) => self.number(naming),
            Type::Enum(variants) if is_bool(variants) => self.number(naming),
            Type::Enum(variants) => self.variant(variants),
            Type::Struct(fields) => {
                for field in fields.iter() {
                    self.value(field, Naming::Never);
                }
            }
        }
    }

    fn number(&mut self, naming: Naming) {
        let number = self.next();
        let line = match naming {
            Naming::Never => None,
            Naming::Only | Naming::Also => (self.lands)(number as u32),
        };
        self.fields.push(match line {
            Some(line) => format!("@{line}"),
            None => number.to_string(),
        });
    }
}
