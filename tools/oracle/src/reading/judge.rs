//! The judge: what a run of words reads as, by the rules of the scope.
//!
//! decode.rs is asked only for candidates. A run reads where encode.rs, with N5,
//! writes a candidate's plain form as exactly a beginning of it. N2 plays no part
//! here: a plain form has none of its numbers.

use super::plain::{is_canonical, left_out, plain};
use super::tails::COMPLETIONS;
use crate::instructions::Instruction;
use crate::machine::decode::decode_words;
use crate::machine::Processor;
use crate::short_branch::encode;

/// The most words of an instruction.
pub const MOST_WORDS: usize = 11;

#[derive(Debug, Clone, Copy, PartialEq, Eq)]
pub enum Reading {
    /// The instruction and its length in bytes.
    Read(Instruction, usize),
    /// Refusal 5: some longer run reads.
    Short,
    /// Refusal 6.
    Nothing,
}

pub fn read(words: &[u16], address: u32) -> Reading {
    if let Some((instruction, count)) = read_from(1, words, address) {
        return Reading::Read(instruction, 2 * count);
    }
    match longer(words, address) {
        Some(_) => Reading::Short,
        None => Reading::Nothing,
    }
}

/// What some longer run reads as, where no beginning of `words` reads.
pub fn longer(words: &[u16], address: u32) -> Option<Instruction> {
    if words.len() >= MOST_WORDS {
        return None;
    }
    COMPLETIONS.iter().find_map(|tail| {
        let run = [words, tail].concat();
        let (instruction, _) = read_from(words.len() + 1, &run, address)?;
        Some(instruction)
    })
}

/// The shortest beginning of at least `fewest` words that an instruction
/// encodes to.
fn read_from(fewest: usize, words: &[u16], address: u32) -> Option<(Instruction, usize)> {
    let counts = fewest..=words.len().min(MOST_WORDS);
    counts
        .into_iter()
        .find_map(|count| Some((exact(&words[..count], address)?, count)))
}

/// The instruction in plain form that encodes to exactly `run`.
pub fn exact(run: &[u16], address: u32) -> Option<Instruction> {
    let instruction = plain(candidate(run, address)?);
    let reads = !left_out(&instruction)
        && is_canonical(instruction)
        && encode(&instruction, address).is_ok_and(|words| words == run);
    reads.then_some(instruction)
}

/// What decode.rs makes of `run`; where it ran out, nothing.
pub fn candidate(run: &[u16], address: u32) -> Option<Instruction> {
    let decoded = decode_words(run, address, Processor::M68020).ok()?;
    Some(with_written_register(decoded.instruction, run))
}

/// Exception (ii): Test, Change, Clear and Set have their register number in
/// bits 14 to 12, which decode.rs does not read.
pub fn with_written_register(instruction: Instruction, run: &[u16]) -> Instruction {
    match instruction {
        Instruction::BF {
            operation,
            target,
            field,
            ..
        } if !operation.has_register() => Instruction::BF {
            operation,
            target,
            field,
            register: (run[1] >> 12 & 7) as u8,
        },
        other => other,
    }
}
