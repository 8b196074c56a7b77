//! The inverse of the readers, and the change of an instruction's operands, as
//! Rust source.

use crate::declarations::{Declaration, Field, Shape, Variant};
use crate::tables::by_hand;

/// One `Written` implementation a type.
pub fn writers(types: &[Declaration]) -> String {
    let written = types.iter().filter(|kind| !by_hand(kind.name()));
    written
        .map(|kind| {
            let name = kind.name();
            let arms: String = match kind {
                Declaration::Enum(_, variants) => variants
                    .iter()
                    .enumerate()
                    .map(|(place, variant)| {
                        let path = format!("{name}::{}", variant.name);
                        format!("{} => {{ numbers.push({place}); {} }}", pattern(&path, variant), fields_written(variant))
                    })
                    .collect(),
                Declaration::Struct(variant) => {
                    format!("{} => {{ {} }}", pattern(name, variant), fields_written(variant))
                }
            };
            format!(
                "impl Written for {name} {{ fn write(&self, numbers: &mut Vec<i128>) {{ match self {{ {arms} }} }} }}\n"
            )
        })
        .collect()
}

/// `with_operands`, which passes every operand of an instruction through a
/// change.
pub fn operand_changer(types: &[Declaration]) -> String {
    let variants = types
        .iter()
        .find_map(|kind| match kind {
            Declaration::Enum(name, variants) if name == "Instruction" => Some(variants),
            _ => None,
        })
        .expect("encoded.rs declares `Instruction`");
    let arms: String = variants
        .iter()
        .map(|variant| {
            let path = format!("Instruction::{}", variant.name);
            let changed = made(&path, variant);
            format!("{} => {changed},", pattern(&path, variant))
        })
        .collect();
    format!(
        "pub fn with_operands(instruction: Instruction, change: &mut dyn FnMut(Operand) -> Operand) -> Instruction {{ match instruction {{ {arms} }} }}\n"
    )
}

fn bound(place: usize, field: &Field) -> String {
    match field.name.is_empty() {
        true => format!("field_{place}"),
        false => field.name.clone(),
    }
}

fn pattern(path: &str, variant: &Variant) -> String {
    let names: Vec<String> = bounds(variant).map(|(name, _)| name).collect();
    let listed = names.join(", ");
    match variant.shape {
        Shape::Unit => path.to_string(),
        Shape::Tuple => format!("{path}({listed})"),
        Shape::Named => format!("{path} {{ {listed} }}"),
    }
}

fn bounds(variant: &Variant) -> impl Iterator<Item = (String, &Field)> {
    let fields = variant.fields.iter().enumerate();
    fields.map(|(place, field)| (bound(place, field), field))
}

fn fields_written(variant: &Variant) -> String {
    bounds(variant)
        .map(|(name, _)| format!("{name}.write(numbers);"))
        .collect()
}

/// The expression of the same variant with its operands changed.
fn made(path: &str, variant: &Variant) -> String {
    let values = bounds(variant).map(|(name, field)| {
        let value = match field.kind.as_str() {
            "Operand" => format!("change({name})"),
            _ => name.clone(),
        };
        match field.name.is_empty() {
            true => format!("{value},"),
            false => format!("{name}: {value},"),
        }
    });
    let listed: String = values.collect();
    match variant.shape {
        Shape::Unit => path.to_string(),
        Shape::Tuple => format!("{path}({listed})"),
        Shape::Named => format!("{path} {{ {listed} }}"),
    }
}
