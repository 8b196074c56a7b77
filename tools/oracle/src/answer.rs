//! The original's answer to a line of the numeric form, with requests N2 and N5.

use crate::instructions::Instruction;
use crate::machine::encode::{self as rust, EncodeError, Field};
use crate::numeric::{placed, Placed};
use crate::{negative_immediates, short_branch};

include!(concat!(env!("OUT_DIR"), "/field_numbers.rs"));
include!(concat!(env!("OUT_DIR"), "/reason_texts.rs"));

pub const NOT_IN_FORM: &str = "refused\t7\t0\t0";

#[derive(Debug, Clone, Copy, PartialEq, Eq)]
pub struct Refusal {
    pub number: u32,
    pub detail: u32,
    pub value: i64,
}

/// What `encode` and `size` say.
pub struct Answer {
    pub words: Result<Vec<u16>, Refusal>,
    pub size: Result<u32, Refusal>,
}

const OUTSIDE: Refusal = Refusal {
    number: 1,
    detail: 0,
    value: 0,
};

type Encode = fn(&Instruction, u32) -> Result<Vec<u16>, EncodeError>;

pub fn answer(placed: &Placed) -> Answer {
    answer_by(encode, placed)
}

pub fn answer_without_n2(placed: &Placed) -> Answer {
    answer_by(short_branch::encode, placed)
}

pub fn answer_without_n5(placed: &Placed) -> Answer {
    answer_by(negative_immediates::encode, placed)
}

/// The original's own, without either.
pub fn rust_answer(placed: &Placed) -> Answer {
    answer_by(rust::encode, placed)
}

/// Whether the original refuses an immediate that N2 lets in.
pub fn of_n2(placed: &Placed) -> bool {
    !placed.outside && negative_immediates::lets_in(&placed.instruction, placed.address)
}

/// Whether the original accepts a short branch that N5 refuses.
pub fn of_n5(placed: &Placed) -> bool {
    !placed.outside && short_branch::refuses(&placed.instruction, placed.address)
}

fn encode(instruction: &Instruction, address: u32) -> Result<Vec<u16>, EncodeError> {
    let said = negative_immediates::encode(instruction, address);
    short_branch::due(instruction, address, said)
}

fn answer_by(encode: Encode, placed: &Placed) -> Answer {
    if placed.outside {
        return Answer {
            words: Err(OUTSIDE),
            size: Err(OUTSIDE),
        };
    }
    Answer {
        words: encode(&placed.instruction, placed.address).map_err(refusal),
        size: rust::size(&placed.instruction).map_err(refusal),
    }
}

/// What `encode_bytes` says.
pub fn encoded_bytes(placed: &Placed) -> Result<Vec<u8>, Refusal> {
    if placed.outside {
        return Err(OUTSIDE);
    }
    let said = negative_immediates::encode_bytes(&placed.instruction, placed.address);
    short_branch::due(&placed.instruction, placed.address, said).map_err(refusal)
}

fn refusal(error: EncodeError) -> Refusal {
    match error {
        EncodeError::OutOfRange { field, value } => Refusal {
            number: 2,
            detail: field_number(field),
            value,
        },
        EncodeError::NoEncoding { reason } => Refusal {
            number: 3,
            detail: reason_number(reason),
            value: 0,
        },
    }
}

fn reason_number(reason: &str) -> u32 {
    let place = REASONS.iter().position(|text| *text == reason);
    place.expect("every reason is in the table") as u32 + 1
}

/// The answer to a line, without LF.
pub fn answer_line(line: &[u8]) -> String {
    line_by(answer, line)
}

/// The same without N2 and N5.
pub fn rust_answer_line(line: &[u8]) -> String {
    line_by(rust_answer, line)
}

fn line_by(answer: fn(&Placed) -> Answer, line: &[u8]) -> String {
    match placed(line) {
        Some(placed) => answer(&placed).text(),
        None => NOT_IN_FORM.to_string(),
    }
}

/// Whether `line` is in the form and `encode` accepts it but for N5. Lines are made
/// by this, so that a seed gives the lines that it gave before N5.
pub fn accepts_without_n5(line: &str) -> bool {
    placed(line.as_bytes()).is_some_and(|placed| answer_without_n5(&placed).words.is_ok())
}

impl Answer {
    pub fn text(&self) -> String {
        let words = match &self.words {
            Ok(words) => {
                let words: Vec<String> = words.iter().map(|word| format!("{word:04X}")).collect();
                words.join("\t")
            }
            Err(refusal) => refusal.text(),
        };
        let size = match &self.size {
            Ok(size) => size.to_string(),
            Err(refusal) => refusal.text(),
        };
        format!("{words}\t=>\t{size}")
    }
}

impl Refusal {
    pub fn text(&self) -> String {
        format!("refused\t{}\t{}\t{}", self.number, self.detail, self.value)
    }
}

/// The lines of an input; the last one may lack its LF.
pub fn lines(input: &[u8]) -> Vec<&[u8]> {
    let mut lines: Vec<&[u8]> = input.split(|byte| *byte == b'\n').collect();
    if lines.last().is_some_and(|line| line.is_empty()) {
        lines.pop();
    }
    lines
}
