//! Request N5, a short branch of minus one: the field does not hold -1, whose
//! byte $FF the MC68020 takes for a long branch. The Rust accepts it.

use crate::instructions::{BranchSize::Short, Instruction};
use crate::machine::encode::{self as rust, EncodeError, Field};

const REFUSED: EncodeError = EncodeError::OutOfRange {
    field: Field::ShortBranch,
    value: -1,
};

pub fn encode(instruction: &Instruction, address: u32) -> Result<Vec<u16>, EncodeError> {
    due(instruction, address, rust::encode(instruction, address))
}

/// What is due where `said` is said without N5: a refusal stays what it is.
pub fn due<T>(
    instruction: &Instruction,
    address: u32,
    said: Result<T, EncodeError>,
) -> Result<T, EncodeError> {
    match displacement(instruction, address) {
        Some(-1) => said.and(Err(REFUSED)),
        _ => said,
    }
}

/// Whether the Rust accepts a branch that N5 refuses.
pub fn refuses(instruction: &Instruction, address: u32) -> bool {
    displacement(instruction, address) == Some(-1) && rust::encode(instruction, address).is_ok()
}

/// The displacement of a short branch.
fn displacement(instruction: &Instruction, address: u32) -> Option<i32> {
    use Instruction::{Bcc, BRA, BSR};
    match *instruction {
        BRA(target, Short) | BSR(target, Short) | Bcc(target, _, Short) => {
            Some(target.wrapping_sub(address.wrapping_add(2)) as i32)
        }
        _ => None,
    }
}

#[cfg(test)]
mod tests {
    use super::*;
    use crate::instructions::{BranchSize, Condition};
    use Instruction::{Bcc, DBcc, BRA, BSR};

    #[test]
    fn short_branches_of_minus_one_are_refused() {
        for address in [0, 1, 2, 0x1000, 0x7FFF_FFFF, 0xFFFF_FFFE, u32::MAX] {
            let target = address.wrapping_add(1);
            for branch in [
                BRA(target, Short),
                BSR(target, Short),
                Bcc(target, Condition::Equal, Short),
            ] {
                assert!(refuses(&branch, address));
                assert_eq!(encode(&branch, address), Err(REFUSED));
            }
        }
    }

    #[test]
    fn all_else_is_the_rust_s() {
        let target = 0x1001;
        let data = crate::instructions::RegisterOperand::Data(0);
        for instruction in [
            BRA(target, BranchSize::Word),
            BSR(target, BranchSize::Long),
            BRA(0x1000, Short),
            BSR(0x1002, Short),
            BRA(0x1003, Short),
            Bcc(target, Condition::True, Short),
            Bcc(target, Condition::False, Short),
            DBcc(data, target, Condition::Equal),
        ] {
            assert!(!refuses(&instruction, 0x1000));
            assert_eq!(
                encode(&instruction, 0x1000),
                rust::encode(&instruction, 0x1000)
            );
        }
    }
}
