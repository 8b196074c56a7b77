//! Why words that a decoder reads are no encoding.

use super::judge::{candidate, MOST_WORDS};
use super::plain::is_canonical;
use crate::instructions::{Instruction, Operand};
use crate::machine::encode::encode;
use crate::schema::instructions;
use crate::written::place;

/// The rule by which no run that begins with `words` reads, though decode.rs
/// reads one: the first word that encode.rs writes otherwise, or a full word
/// that refusal 1 turns back.
pub fn rule(words: &[u16], address: u32) -> Option<String> {
    let whole = [words, &[0; MOST_WORDS]].concat();
    let instruction = candidate(&whole, address)?;
    let written = encode(&instruction, address).ok()?;
    let differing = (0..written.len()).find(|at| whole[*at] != written[*at]);
    match differing {
        Some(at) => unused(&instruction, at, whole[at], written[at])
            .map(|place| format!("unused bits: {place}")),
        None if !is_canonical(instruction) => {
            Some("refusal 1: a full extension word that is not canonical".to_string())
        }
        None => None,
    }
}

/// The name of the word at `at`, which is `given` where `written` is due.
fn unused(instruction: &Instruction, at: usize, given: u16, written: u16) -> Option<String> {
    let high_byte = given & 0xFF == written && written <= 0xFF;
    match instruction {
        Instruction::ORItoCCR(_) | Instruction::ANDItoCCR(_) | Instruction::EORItoCCR(_) => {
            high_byte.then(|| "the high byte of an immediate to CCR".to_string())
        }
        Instruction::BTST(Operand::Immediate(_), _)
        | Instruction::BCHG(Operand::Immediate(_), _)
        | Instruction::BCLR(Operand::Immediate(_), _)
        | Instruction::BSET(Operand::Immediate(_), _)
            if at == 1 =>
        {
            high_byte.then(|| "the high byte of a static bit number".to_string())
        }
        Instruction::CAS2 { .. } => Some("the second or third word of CAS2".to_string()),
        _ if at == 1 && has_second_word(instruction) => {
            let name = instructions()[place(instruction)].name;
            Some(format!("the second word of {name}"))
        }
        _ => high_byte.then(|| "the high byte of a byte immediate".to_string()),
    }
}

/// Whether a word of fields stands before the operand's words.
fn has_second_word(instruction: &Instruction) -> bool {
    matches!(
        instruction,
        Instruction::MULL { .. }
            | Instruction::DIVL { .. }
            | Instruction::MOVES { .. }
            | Instruction::CHK2(..)
            | Instruction::CMP2(..)
            | Instruction::CAS { .. }
            | Instruction::BF { .. }
    )
}
