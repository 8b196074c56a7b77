//! The tables and readers, as Rust source.

use crate::declarations::{parts, Declaration, Field, Shape, Variant};

/// Structs that the numeric form reads as their number; `IndexBase` keeps its
/// number to itself, and `ExtensionWord` has a rule of its own.
const NUMBERS: [(&str, &str); 7] = [
    ("u8", "U8"),
    ("u16", "U16"),
    ("u32", "U32"),
    ("usize", "U64"),
    ("i32", "I32"),
    ("IndexBase", "IndexBase"),
    ("ExtensionWord", "ExtensionWord"),
];

pub fn by_hand(name: &str) -> bool {
    NUMBERS.iter().any(|(number, _)| *number == name)
}

/// One static a type, under the type's own name in capitals.
pub fn schema(types: &[Declaration]) -> String {
    let written = types.iter().filter(|kind| !by_hand(kind.name()));
    written
        .map(|kind| {
            let name = kind.name().to_uppercase();
            let value = match kind {
                Declaration::Enum(_, variants) => enumeration(variants),
                Declaration::Struct(variant) => {
                    format!("Type::Struct(&[{}])", fields(&variant.fields))
                }
            };
            format!("#[allow(dead_code)]\npub static {name}: Type = {value};\n")
        })
        .collect()
}

fn enumeration(variants: &[Variant]) -> String {
    let listed: String = variants
        .iter()
        .map(|variant| {
            format!(
                "Variant {{ name: {:?}, fields: &[{}] }},",
                variant.name,
                fields(&variant.fields)
            )
        })
        .collect();
    format!("Type::Enum(&[{listed}])")
}

fn fields(fields: &[Field]) -> String {
    fields
        .iter()
        .map(|field| format!("&{},", kind(&field.kind)))
        .collect()
}

/// The type expression of a declared type.
fn kind(text: &str) -> String {
    if let Some((_, number)) = NUMBERS.iter().find(|(name, _)| *name == text) {
        return format!("Type::Number(Number::{number})");
    }
    if let Some(inside) = text
        .strip_prefix("Option<")
        .and_then(|rest| rest.strip_suffix('>'))
    {
        let some = format!("Variant {{ name: \"Some\", fields: &[&{}] }}", kind(inside));
        return format!("Type::Enum(&[Variant {{ name: \"None\", fields: &[] }}, {some}])");
    }
    if let Some(inside) = text
        .strip_prefix('(')
        .and_then(|rest| rest.strip_suffix(')'))
    {
        let listed: String = parts(inside)
            .iter()
            .map(|part| format!("&{},", kind(part)))
            .collect();
        return format!("Type::Struct(&[{listed}])");
    }
    match text {
        "bool" => "BOOL".to_string(),
        _ => text.to_uppercase(),
    }
}

/// One `Numeric` implementation a type.
pub fn readers(types: &[Declaration]) -> String {
    let written = types.iter().filter(|kind| !by_hand(kind.name()));
    written
        .map(|kind| {
            let value = match kind {
                Declaration::Enum(name, variants) => choice(name, variants),
                Declaration::Struct(variant) => made(&variant.name, variant),
            };
            let name = kind.name();
            format!(
                "impl Numeric for {name} {{ fn read(numbers: &mut Numbers) -> Option<Self> {{ Some({value}) }} }}\n"
            )
        })
        .collect()
}

fn choice(name: &str, variants: &[Variant]) -> String {
    let arms: String = variants
        .iter()
        .enumerate()
        .map(|(place, variant)| {
            format!(
                "{place} => {},",
                made(&format!("{name}::{}", variant.name), variant)
            )
        })
        .collect();
    format!(
        "match numbers.place({})? {{ {arms} _ => return None }}",
        variants.len()
    )
}

/// The expression that reads a value's fields in declared order.
fn made(path: &str, variant: &Variant) -> String {
    let read = |field: &Field| match field.name.is_empty() {
        true => "numbers.read()?,".to_string(),
        false => format!("{}: numbers.read()?,", field.name),
    };
    let listed: String = variant.fields.iter().map(read).collect();
    match variant.shape {
        Shape::Unit => path.to_string(),
        Shape::Tuple => format!("{path}({listed})"),
        Shape::Named => format!("{path} {{ {listed} }}"),
    }
}

/// `Field` to its number from 1.
pub fn field_numbers(types: &[Declaration]) -> String {
    let variants = types
        .iter()
        .find_map(|kind| match kind {
            Declaration::Enum(name, variants) if name == "Field" => Some(variants),
            _ => None,
        })
        .expect("encode.rs declares `Field`");
    assert_eq!(variants.len(), 20, "the count of fields");
    let arm = |(place, variant): (usize, &Variant)| {
        let inside = match variant.shape {
            Shape::Unit => "",
            Shape::Tuple => "(..)",
            Shape::Named => "{..}",
        };
        format!("Field::{}{inside} => {},", variant.name, place + 1)
    };
    let arms: String = variants.iter().enumerate().map(arm).collect();
    format!("pub fn field_number(field: Field) -> u32 {{ match field {{ {arms} }} }}\n")
}
