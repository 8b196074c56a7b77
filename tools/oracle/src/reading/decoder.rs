//! A program against decode.rs itself, the differences by their rules.

use std::io;

use super::answer::{text, NOTHING, SHORT};
use super::classes::{Classes, Verdict};
use super::judge::{with_written_register, Reading};
use super::plain::plain;
use super::run::Run;
use super::sweep::runs;
use super::unused::rule;
use crate::batch::Batches;
use crate::instructions::Instruction;
use crate::machine::decode::{decode_words, Decoded};
use crate::machine::Processor;

/// How a program's answer stands to what decode.rs says.
type Judge = fn(&Run, Option<Decoded>, &str) -> Verdict;

pub fn compare(program: &str, seed: u64, tails: usize) -> io::Result<Classes> {
    compare_by(Processor::M68020, verdict, program, seed, tails)
}

pub fn compare_by(
    processor: Processor,
    judge: Judge,
    program: &str,
    seed: u64,
    tails: usize,
) -> io::Result<Classes> {
    let mut classes = Classes::default();
    let mut batches = Batches::new(program, |asked: &[u8], run: Run, found: &[u8]| {
        let found = String::from_utf8_lossy(found);
        let decoded = decoded(&run, processor);
        classes.count(judge(&run, decoded, &found), || {
            let asked = String::from_utf8_lossy(asked);
            let decoder = decoder_text(decoded);
            format!("{asked:?}: {found:?}, decode.rs {decoder:?}")
        });
    });
    for run in runs(seed, tails) {
        batches.push(run.line().as_bytes(), run)?;
    }
    batches.finish()?;
    Ok(classes)
}

pub fn decoded(run: &Run, processor: Processor) -> Option<Decoded> {
    decode_words(&run.words, run.address, processor).ok()
}

/// What decode.rs says in the form of an answer; words that ran out as 5.
pub fn decoder_text(decoded: Option<Decoded>) -> String {
    match decoded {
        Some(decoded) => read_text(decoded.instruction, decoded),
        None => SHORT.to_string(),
    }
}

fn read_text(instruction: Instruction, decoded: Decoded) -> String {
    text(Reading::Read(instruction, decoded.size as usize))
}

fn verdict(run: &Run, decoded: Option<Decoded>, found: &str) -> Verdict {
    match decoder_text(decoded) == found {
        true => Verdict::Same,
        false => Verdict::different(class(run, decoded, found)),
    }
}

/// The rule that explains a difference.
fn class(run: &Run, decoded: Option<Decoded>, found: &str) -> Option<String> {
    match decoded {
        Some(decoded) => whole_class(run, decoded, found),
        None if found == NOTHING => {
            let rule = rule(&run.words, run.address)?;
            Some(format!("{rule}; 6, where decode.rs asks for more words"))
        }
        None => None,
    }
}

fn whole_class(run: &Run, decoded: Decoded, found: &str) -> Option<String> {
    let instruction = decoded.instruction;
    let line_f = text(Reading::Read(Instruction::LINEF(0xFFFF), 2));
    let written = with_written_register(instruction, &run.words);
    match instruction {
        Instruction::IllegalWord(_) if found == NOTHING => Some("IllegalWord is left out".into()),
        Instruction::SIMHALT if found == line_f => {
            Some("SIMHALT is left out: $FFFF reads as LINEF".into())
        }
        Instruction::BF { .. } if found == read_text(written, decoded) => {
            Some("exception (ii): the register number of Test, Change, Clear and Set".into())
        }
        _ if found == read_text(plain(instruction), decoded) => Some("plain form".into()),
        _ if found == NOTHING => {
            let rule = rule(&run.words, run.address)?;
            Some(format!("{rule}; 6, where decode.rs reads"))
        }
        _ => None,
    }
}
