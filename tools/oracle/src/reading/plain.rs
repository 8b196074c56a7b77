//! Plain form, what the reader leaves out, and what refusal 1 turns back.

use crate::instructions::*;
use crate::operands::{with_immediates, with_operands};

/// `instruction`, which `encode` accepts or decode.rs gives, in plain form.
pub fn plain(instruction: Instruction) -> Instruction {
    let divisor = match immediate_size(&instruction) {
        Some(Size::Byte) => 256,
        Some(Size::Word) => 65_536,
        Some(Size::Long) | None => 1 << 32,
    };
    let mut remainder = |number: u32| (number as u64 % divisor) as u32;
    let instruction = with_immediates(instruction, &mut remainder);
    match with_operands(instruction, &mut plain_operand) {
        Instruction::MOVEC {
            to_control,
            control,
            register,
        } => Instruction::MOVEC {
            to_control,
            control: ControlRegister(control.0 % 4096),
            register,
        },
        other => other,
    }
}

/// The size of the Immediate that an instruction can have, by the manual; none
/// where a number there is a bit number or a count.
fn immediate_size(instruction: &Instruction) -> Option<Size> {
    use Instruction::*;
    match *instruction {
        ORI(.., size) | ANDI(.., size) | SUBI(.., size) => Some(size),
        ADDI(.., size) | EORI(.., size) | CMPI(.., size) => Some(size),
        MOVE(.., size) | MOVEA(.., size) | TST(.., size) => Some(size),
        OR(.., size) | AND(.., size) | CMP(.., size) => Some(size),
        ADD(.., size) | SUB(.., size) => Some(size),
        ADDA(.., size) | SUBA(.., size) | CMPA(.., size) => Some(size),
        MOVEtoCCR(_) | MOVEtoSR(_) | CHK(..) | MULx(..) | DIVx(..) => Some(Size::Word),
        CHKL(..) | MULL { .. } | DIVL { .. } => Some(Size::Long),
        BTST(Operand::Register(_), _) => Some(Size::Byte),
        _ => None,
    }
}

fn plain_operand(operand: Operand) -> Operand {
    match operand {
        Operand::Extended {
            base,
            word,
            displacement,
            ..
        } if !word.is_full() => match word.scale() {
            1 => unscaled(base, word.index_register(), displacement),
            _ => Operand::Extended {
                base,
                word: ExtensionWord(word.0 & 0xFE00),
                displacement,
                outer: 0,
            },
        },
        other => other,
    }
}

fn unscaled(base: IndexBase, index: IndexRegister, displacement: i32) -> Operand {
    match base.address_register() {
        Some(number) => Operand::IndirectIndex {
            base: RegisterOperand::Address(number),
            offset: displacement,
            index,
        },
        None => Operand::PcIndex {
            target: displacement as u32,
            index,
        },
    }
}

/// Whether no run of words reads as `instruction`.
pub fn left_out(instruction: &Instruction) -> bool {
    matches!(
        instruction,
        Instruction::IllegalWord(_) | Instruction::SIMHALT
    )
}

/// Whether every full extension word is canonical.
pub fn is_canonical(instruction: Instruction) -> bool {
    let mut canonical = true;
    with_operands(instruction, &mut |operand| {
        if let Operand::Extended { word, .. } = operand {
            canonical &= word.is_canonical();
        }
        operand
    });
    canonical
}
