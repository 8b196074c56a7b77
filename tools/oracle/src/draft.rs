//! An instruction as the numbers of its line, each with its type, so that any
//! of them can be changed.

use crate::schema::{instructions, Number, Type, Variant};

#[derive(Clone, Copy)]
pub enum Kind {
    Number(Number),
    /// The place of one of these variants.
    Place(&'static [Variant]),
}

#[derive(Clone, Copy)]
pub struct Leaf {
    pub kind: Kind,
    pub value: i128,
}

/// The leaves of one declared field.
pub type Leaves = Vec<Leaf>;

#[derive(Clone)]
pub struct Draft {
    pub address: u32,
    pub place: usize,
    pub fields: Vec<Leaves>,
}

impl Draft {
    pub fn variant(&self) -> &'static Variant {
        &instructions()[self.place]
    }

    pub fn line(&self) -> String {
        let mut line = format!("{}\t{}", self.address, self.place);
        for leaf in self.fields.iter().flatten() {
            line.push('\t');
            line.push_str(&leaf.value.to_string());
        }
        line
    }

    /// Where each leaf stands: its field and its place in it.
    pub fn leaves(&self) -> Vec<(usize, usize)> {
        let fields = self.fields.iter().enumerate();
        fields
            .flat_map(|(field, leaves)| (0..leaves.len()).map(move |leaf| (field, leaf)))
            .collect()
    }

    pub fn leaf(&mut self, at: (usize, usize)) -> &mut Leaf {
        &mut self.fields[at.0][at.1]
    }

    /// The draft of a line that is in the form.
    pub fn of_line(line: &str) -> Draft {
        let mut numbers = line
            .split('\t')
            .map(|token| token.parse().expect("a number"));
        let mut next = || numbers.next().expect("another number");
        let address = next() as u32;
        let place = next() as usize;
        let kinds = instructions()[place].fields;
        let fields = kinds
            .iter()
            .map(|kind| leaves_of(kind, &mut next))
            .collect();
        Draft {
            address,
            place,
            fields,
        }
    }
}

fn leaves_of(kind: &'static Type, next: &mut dyn FnMut() -> i128) -> Leaves {
    match kind {
        Type::Number(number) => vec![Leaf {
            kind: Kind::Number(*number),
            value: next(),
        }],
        Type::Struct(fields) => fields
            .iter()
            .flat_map(|field| leaves_of(field, next))
            .collect(),
        Type::Enum(variants) => {
            let value = next();
            let mut leaves = vec![Leaf {
                kind: Kind::Place(variants),
                value,
            }];
            for field in variants[value as usize].fields {
                leaves.extend(leaves_of(field, next));
            }
            leaves
        }
    }
}
