//! Request N2, minus one as a byte or word: an Immediate of Byte also holds
//! 2^32 - 128 to 2^32 - 1, of Word 2^32 - 32768 to 2^32 - 1, each written as
//! its remainder is. The Rust refuses these numbers; it is asked again with the
//! remainder in their place.

use crate::instructions::{Instruction, Size};
use crate::machine::encode::{self as rust, EncodeError, Field};
use crate::operands::with_immediates;

/// One past the highest number.
const END: i64 = 1 << 32;

pub fn encode(instruction: &Instruction, address: u32) -> Result<Vec<u16>, EncodeError> {
    asked(instruction, |instruction| {
        rust::encode(instruction, address)
    })
}

pub fn encode_bytes(instruction: &Instruction, address: u32) -> Result<Vec<u8>, EncodeError> {
    asked(instruction, |instruction| {
        rust::encode_bytes(instruction, address)
    })
}

/// Whether the Rust refuses an Immediate that N2 lets in.
pub fn lets_in(instruction: &Instruction, address: u32) -> bool {
    number_let_in(&rust::encode(instruction, address)).is_some()
}

/// What the Rust says, of the remainder where it refuses a number of N2.
fn asked<T>(
    instruction: &Instruction,
    ask: impl Fn(&Instruction) -> Result<T, EncodeError>,
) -> Result<T, EncodeError> {
    let said = ask(instruction);
    let Some((value, remainder)) = number_let_in(&said) else {
        return said;
    };
    ask(&with_immediates(
        *instruction,
        &mut |number| match number as i64 == value {
            true => remainder,
            false => number,
        },
    ))
}

/// The number of N2 that the Rust refused, and its remainder.
fn number_let_in<T>(said: &Result<T, EncodeError>) -> Option<(i64, u32)> {
    match said {
        Err(EncodeError::OutOfRange {
            field: Field::Immediate(size),
            value,
        }) => remainder(*size, *value).map(|remainder| (*value, remainder)),
        _ => None,
    }
}

/// The remainder as which a number of N2 is written in an Immediate of `size`.
fn remainder(size: Size, value: i64) -> Option<u32> {
    let (numbers, divisor) = match size {
        Size::Byte => (128, 256),
        Size::Word => (32_768, 65_536),
        Size::Long => return None,
    };
    let held = (END - numbers..END).contains(&value);
    held.then_some((value % divisor) as u32)
}

#[cfg(test)]
mod tests {
    use super::*;

    #[test]
    fn the_ends_have_remainders() {
        let ends = [
            (Size::Byte, END - 129, None),
            (Size::Byte, END - 128, Some(128)),
            (Size::Byte, END - 1, Some(255)),
            (Size::Byte, END, None),
            (Size::Byte, 255, None),
            (Size::Word, END - 32_769, None),
            (Size::Word, END - 32_768, Some(32_768)),
            (Size::Word, END - 1, Some(65_535)),
            (Size::Long, END - 1, None),
        ];
        for (size, value, due) in ends {
            assert_eq!(remainder(size, value), due, "{value}");
        }
    }
}
