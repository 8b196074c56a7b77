//! A line of a sheet, read into the numeric form by the declarations of
//! encoded.rs.

use crate::numeric::{placed, Placed};
use crate::schema::{instructions, is_bool, Type, Variant};

/// The variants that have no line.
pub const WITHOUT_A_LINE: [&str; 2] = ["IllegalWord", "SIMHALT"];

/// Whether a number, `@` and a line's number, or either stands in a field.
#[derive(Debug, Clone, Copy, PartialEq, Eq)]
pub enum Naming {
    Never,
    Only,
    Also,
}

/// What may stand in a variant's field that is a number.
pub fn naming(variant: &Variant, field: usize) -> Naming {
    match (variant.name, field) {
        ("BRA" | "BSR" | "Bcc", 0) | ("DBcc", 1) => Naming::Only,
        ("PcDisplacement" | "PcIndex", 0) => Naming::Also,
        _ => Naming::Never,
    }
}

enum Entry<'t> {
    Place(usize),
    /// A number as it stands.
    Number(&'t [u8]),
    /// The number after `@`.
    Name(usize),
}

/// The entries of a line, in the order of the numeric form.
pub struct Line<'t> {
    entries: Vec<Entry<'t>>,
}

impl<'t> Line<'t> {
    /// The line of a text without LF; `None` where the text does not follow
    /// the declarations. Its numbers are not looked at yet.
    pub fn of_text(text: &'t [u8]) -> Option<Line<'t>> {
        let mut parser = Parser {
            fields: text.split(|byte| *byte == b'\t').collect(),
            entries: Vec::new(),
        };
        parser.fields.reverse();
        parser.variant(instructions(), &WITHOUT_A_LINE)?;
        parser.fields.is_empty().then_some(Line {
            entries: parser.entries,
        })
    }

    /// The numbers that stand after `@`.
    pub fn names(&self) -> impl Iterator<Item = usize> + '_ {
        self.entries.iter().filter_map(|entry| match entry {
            Entry::Name(name) => Some(*name),
            _ => None,
        })
    }

    /// The instruction at `address`, each `@` as `named` says; `None` where a
    /// number is not in the form.
    pub fn placed(&self, address: u32, named: impl Fn(usize) -> u32) -> Option<Placed> {
        placed(&self.numeric(address, named))
    }

    /// The line of the numeric form.
    pub fn numeric(&self, address: u32, named: impl Fn(usize) -> u32) -> Vec<u8> {
        let mut numeric = address.to_string().into_bytes();
        for entry in &self.entries {
            numeric.push(b'\t');
            match entry {
                Entry::Place(place) => numeric.extend(place.to_string().bytes()),
                Entry::Number(number) => numeric.extend_from_slice(number),
                Entry::Name(name) => numeric.extend(named(*name).to_string().bytes()),
            }
        }
        numeric
    }
}

struct Parser<'t> {
    /// The fields not read yet, the last one first.
    fields: Vec<&'t [u8]>,
    entries: Vec<Entry<'t>>,
}

impl<'t> Parser<'t> {
    /// A variant's name, and its fields.
    fn variant(&mut self, variants: &'static [Variant], unnamed: &[&str]) -> Option<()> {
        let name = self.fields.pop()?;
        let named =
            |variant: &Variant| variant.name.as_bytes() == name && !unnamed.contains(&variant.name);
        let place = variants.iter().position(named)?;
        self.entries.push(Entry::Place(place));
        let variant = &variants[place];
        for (field, kind) in variant.fields.iter().enumerate() {
            self.value(kind, naming(variant, field))?;
        }
        Some(())
    }

    fn value(&mut self, kind: &'static Type, naming: Naming) -> Option<()> {
        match kind {
            Type::Number(_) => self.number(naming),
            Type::Enum(variants) if is_bool(variants) => self.number(naming),
            Type::Enum(variants) => self.variant(variants, &[]),
            Type::Struct(fields) => {
                for field in fields.iter() {
                    self.value(field, Naming::Never)?;
                }
                Some(())
            }
        }
    }

    fn number(&mut self, naming: Naming) -> Option<()> {
        let field = self.fields.pop()?;
        let entry = match (naming, field.strip_prefix(b"@")) {
            (Naming::Only | Naming::Also, Some(digits)) => Entry::Name(name(digits)?),
            (Naming::Only, None) => return None,
            _ => Entry::Number(field),
        };
        self.entries.push(entry);
        Some(())
    }
}

/// A line's number of any length, with no leading zero; one too large for the
/// type is the largest.
fn name(digits: &[u8]) -> Option<usize> {
    if digits.is_empty() || (digits.len() > 1 && digits[0] == b'0') {
        return None;
    }
    digits.iter().try_fold(0usize, |value, byte| {
        let digit = byte.is_ascii_digit().then(|| (byte - b'0') as usize)?;
        Some(value.saturating_mul(10).saturating_add(digit))
    })
}
