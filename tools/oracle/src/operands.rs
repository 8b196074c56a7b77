//! Changes of an instruction's operands and of its immediate numbers.

use crate::instructions::*;

include!(concat!(env!("OUT_DIR"), "/operands.rs"));

/// Passes the number of an immediate instruction and of every Immediate
/// operand through a change.
pub fn with_immediates(
    instruction: Instruction,
    change: &mut dyn FnMut(u32) -> u32,
) -> Instruction {
    use Instruction::*;
    let changed = match instruction {
        ORI(number, operand, size) => ORI(change(number), operand, size),
        ANDI(number, operand, size) => ANDI(change(number), operand, size),
        SUBI(number, operand, size) => SUBI(change(number), operand, size),
        ADDI(number, operand, size) => ADDI(change(number), operand, size),
        EORI(number, operand, size) => EORI(change(number), operand, size),
        CMPI(number, operand, size) => CMPI(change(number), operand, size),
        other => other,
    };
    with_operands(changed, &mut |operand| match operand {
        Operand::Immediate(number) => Operand::Immediate(change(number)),
        other => other,
    })
}
