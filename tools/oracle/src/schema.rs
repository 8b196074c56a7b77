//! The types of the numeric form, as tables derived from encoded.rs.

#[derive(Debug, Clone, Copy, PartialEq, Eq)]
pub enum Number {
    U8,
    U16,
    U32,
    U64,
    I32,
    IndexBase,
    ExtensionWord,
}

impl Number {
    /// The lowest and the highest number of the type.
    pub fn range(self) -> (i128, i128) {
        match self {
            Number::U8 | Number::IndexBase => (0, u8::MAX as i128),
            Number::U16 | Number::ExtensionWord => (0, u16::MAX as i128),
            Number::U32 => (0, u32::MAX as i128),
            Number::U64 => (0, u64::MAX as i128),
            Number::I32 => (i32::MIN as i128, i32::MAX as i128),
        }
    }

    /// `value` brought into the type modulo its width.
    pub fn wrap(self, value: i128) -> i128 {
        let (low, high) = self.range();
        (value - low).rem_euclid(high - low + 1) + low
    }
}

pub enum Type {
    Number(Number),
    Enum(&'static [Variant]),
    Struct(&'static [&'static Type]),
}

pub struct Variant {
    pub name: &'static str,
    pub fields: &'static [&'static Type],
}

static BOOL: Type = Type::Enum(&[
    Variant {
        name: "false",
        fields: &[],
    },
    Variant {
        name: "true",
        fields: &[],
    },
]);

include!(concat!(env!("OUT_DIR"), "/schema_tables.rs"));

/// The variants of `Instruction`, in declared order.
pub fn instructions() -> &'static [Variant] {
    variants(&INSTRUCTION)
}

/// The variants of an enum; none of another type.
pub fn variants(kind: &'static Type) -> &'static [Variant] {
    match kind {
        Type::Enum(variants) => variants,
        _ => &[],
    }
}

/// Whether `kind` is `Operand`.
pub fn is_operand(kind: &'static Type) -> bool {
    std::ptr::eq(kind, &OPERAND)
}

/// The fields of an instruction that are operands.
pub fn operands(place: usize) -> Vec<usize> {
    let fields = instructions()[place].fields.iter().enumerate();
    fields
        .filter(|(_, kind)| is_operand(kind))
        .map(|(field, _)| field)
        .collect()
}

/// The field of an instruction that is its size.
pub fn size_field(place: usize) -> Option<usize> {
    instructions()[place]
        .fields
        .iter()
        .position(|kind| std::ptr::eq(*kind, &SIZE))
}

/// Whether these are the two places of `bool`.
pub fn is_bool(variants: &'static [Variant]) -> bool {
    std::ptr::eq(variants, self::variants(&BOOL))
}

/// Whether `kind` is an enum whose variants have no fields.
pub fn is_plain_enum(kind: &'static Type) -> bool {
    let variants = variants(kind);
    !variants.is_empty() && variants.iter().all(|variant| variant.fields.is_empty())
}

/// Whether two variants have the same fields.
pub fn same_fields(one: &Variant, other: &Variant) -> bool {
    one.fields.len() == other.fields.len()
        && one.fields.iter().zip(other.fields).all(|(a, b)| same(a, b))
}

fn same(one: &'static Type, other: &'static Type) -> bool {
    match (one, other) {
        (Type::Number(a), Type::Number(b)) => a == b,
        _ => std::ptr::eq(one, other),
    }
}
