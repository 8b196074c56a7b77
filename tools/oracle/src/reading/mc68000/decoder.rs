//! A program against decode.rs for the MC68000. Wherever a rule parts the two, it
//! fixes the answer; elsewhere they have to agree.

use std::io;

use super::answer::{text, NOT_68000};
use super::entries::{index_words, not_marked};
use crate::instructions::{BranchSize, ExtensionWord, Instruction, Operand};
use crate::machine::decode::Decoded;
use crate::machine::Processor;
use crate::operands::with_operands;
use crate::reading::answer::{NOTHING, SHORT};
use crate::reading::classes::{Classes, Verdict};
use crate::reading::decoder::{compare_by, decoded, decoder_text};
use crate::reading::judge::{longer, read, Reading};
use crate::reading::plain::plain;
use crate::reading::run::Run;
use crate::reading::unused::rule;
use crate::written::place;

/// A rule, and the answer that it calls for.
type Due = Option<(String, String)>;

pub fn compare(program: &str, seed: u64, tails: usize) -> io::Result<Classes> {
    compare_by(Processor::M68000, verdict, program, seed, tails)
}

fn verdict(run: &Run, decoded: Option<Decoded>, found: &str) -> Verdict {
    match parting(run, decoded) {
        Some((rule, due)) if found == due => Verdict::Class(rule),
        None if found == decoder_text(decoded) => Verdict::Same,
        _ => Verdict::Unexplained,
    }
}

/// The rule that parts the answer from what decode.rs says, if one does.
fn parting(run: &Run, decoded: Option<Decoded>) -> Due {
    let reading = read(&run.words, run.address);
    match decoded.map(|decoded| decoded.instruction) {
        Some(Instruction::IllegalWord(_)) => illegal(run, reading),
        Some(Instruction::SIMHALT) => {
            let line_f = text(Reading::Read(Instruction::LINEF(0xFFFF), 2));
            due("SIMHALT is left out: $FFFF reads as LINEF".into(), &line_f)
        }
        Some(instruction) if is_minus_one(run, &instruction) => branch(run),
        Some(instruction) => whole(run, instruction, reading),
        None => cut(run, reading),
    }
}

fn due(rule: String, answer: &str) -> Due {
    Some((rule, answer.to_string()))
}

/// decode.rs has an IllegalWord for what later processors brought too.
fn illegal(run: &Run, reading: Reading) -> Due {
    match reading {
        Reading::Read(instruction, _) => {
            let entry = not_marked(&instruction)?;
            due(format!("IllegalWord: {entry}; 15"), NOT_68000)
        }
        Reading::Short => {
            let entry = not_marked(&longer(&run.words, run.address)?)?;
            due(format!("IllegalWord: {entry}, cut; 5"), SHORT)
        }
        Reading::Nothing if is_illegal_to_all(run) => {
            due("IllegalWord is left out; 6".into(), NOTHING)
        }
        Reading::Nothing => {
            let rule = rule(&run.words, run.address)?;
            due(format!("IllegalWord: {rule}; 6"), NOTHING)
        }
    }
}

fn is_illegal_to_all(run: &Run) -> bool {
    let later = decoded(run, Processor::M68020).map(|decoded| decoded.instruction);
    matches!(later, Some(Instruction::IllegalWord(_)))
}

/// Whether decode.rs reads a short branch of -1.
fn is_minus_one(run: &Run, instruction: &Instruction) -> bool {
    let short = match instruction {
        Instruction::BRA(_, size) | Instruction::BSR(_, size) | Instruction::Bcc(_, _, size) => {
            *size == BranchSize::Short
        }
        _ => false,
    };
    short && run.words[0] & 0xFF == 0xFF
}

/// With two words behind it reads as a long branch, with fewer it is cut.
fn branch(run: &Run) -> Due {
    match run.words.len() {
        0..=2 => due("$FF branch, cut: decode.rs reads -1; 5".into(), SHORT),
        _ => due("$FF branch: decode.rs reads -1; 15".into(), NOT_68000),
    }
}

/// decode.rs does not look at bits 10 to 8 of an index word, nor at unused bits.
fn whole(run: &Run, instruction: Instruction, reading: Reading) -> Due {
    match reading {
        Reading::Read(first, _) => match index_words(first) {
            (_, true) if place(&first) == place(&instruction) => due(
                "full word: decode.rs reads a brief one; 15".into(),
                NOT_68000,
            ),
            (true, false) if unscaled(first) == instruction => due(
                "scale above 1: decode.rs reads scale 1; 15".into(),
                NOT_68000,
            ),
            _ => None,
        },
        Reading::Short => {
            let first = longer(&run.words, run.address)?;
            let (_, full) = index_words(first);
            let rule = "full word, cut: decode.rs reads a brief one; 5";
            (full && place(&first) == place(&instruction))
                .then(|| (rule.to_string(), SHORT.to_string()))
        }
        Reading::Nothing => {
            let rule = rule(&run.words, run.address)?;
            due(format!("{rule}; 6, where decode.rs reads"), NOTHING)
        }
    }
}

fn cut(run: &Run, reading: Reading) -> Due {
    if reading != Reading::Nothing {
        return None;
    }
    let rule = rule(&run.words, run.address)?;
    due(
        format!("{rule}; 6, where decode.rs asks for more words"),
        NOTHING,
    )
}

/// `instruction` with every scale 1, in plain form.
fn unscaled(instruction: Instruction) -> Instruction {
    plain(with_operands(instruction, &mut |operand| match operand {
        Operand::Extended {
            base,
            word,
            displacement,
            outer,
        } => Operand::Extended {
            base,
            word: ExtensionWord(word.0 & !0x0600),
            displacement,
            outer,
        },
        other => other,
    }))
}
