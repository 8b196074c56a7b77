//! The judge's answer to a line.

use super::judge::{read, Reading};
use super::run::Run;
use crate::answer::NOT_IN_FORM;
use crate::written::numbers;

pub const SHORT: &str = "refused\t5\t0\t0";
pub const NOTHING: &str = "refused\t6\t0\t0";

/// How a reader answers a reading: `text`, or that of another processor.
pub type Text = fn(Reading) -> String;

/// The answer to a line, without LF.
pub fn answer_line(line: &[u8]) -> String {
    answer_line_by(text, line)
}

pub fn answer_line_by(text: Text, line: &[u8]) -> String {
    match Run::of_line(line) {
        Some(run) => answer_by(text, &run),
        None => NOT_IN_FORM.to_string(),
    }
}

pub fn answer_by(text: Text, run: &Run) -> String {
    text(read(&run.words, run.address))
}

pub fn text(reading: Reading) -> String {
    match reading {
        Reading::Read(instruction, bytes) => format!("{}\t=>\t{bytes}", numbers(&instruction)),
        Reading::Short => SHORT.to_string(),
        Reading::Nothing => NOTHING.to_string(),
    }
}
