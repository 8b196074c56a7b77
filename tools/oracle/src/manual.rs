//! Worked encodings and readings written down by hand: the text, the line and the answer.

use crate::requests::Requests;
use crate::{answer, reading, sheet, srecord, unsheet};

const MANUAL: &str = include_str!("../manual.txt");
const READING: &str = include_str!("../reading.txt");
const READING_68000: &str = include_str!("../reading_68000.txt");

pub struct Example {
    pub text: &'static str,
    pub line: &'static str,
    pub answer: &'static str,
}

/// The encodings in order.
pub fn examples() -> Vec<Example> {
    read(MANUAL)
}

/// The readings in order.
pub fn readings() -> Vec<Example> {
    read(READING)
}

/// The readings for the MC68000 in order.
pub fn readings_68000() -> Vec<Example> {
    read(READING_68000)
}

/// The examples of a text; a line that begins with `;` is a remark.
fn read(text: &'static str) -> Vec<Example> {
    let kept = text
        .lines()
        .filter(|line| !line.is_empty() && !line.starts_with(';'));
    kept.map(|line| {
        let parts: Vec<&str> = line.split('|').map(str::trim).collect();
        let [text, line, answer] = parts[..] else {
            panic!("not text | line | answer: {line}")
        };
        Example { text, line, answer }
    })
    .collect()
}

/// Checks every example; gives how many differ.
pub fn check() -> usize {
    let encoding = |line: &[u8]| (answer::answer_line(line), Requests::of_line(line));
    let first = |line: &[u8]| (reading::answer::answer_line(line), Requests::default());
    let second = |line: &[u8]| {
        let answer = reading::mc68000::answer::answer_line(line);
        (answer, Requests::default())
    };
    differing("encodings", &examples(), encoding)
        + differing("readings", &readings(), first)
        + differing("readings for the MC68000", &readings_68000(), second)
        + sheet::manual::check()
        + srecord::manual::check()
        + unsheet::manual::check()
}

fn differing(what: &str, examples: &[Example], judge: fn(&[u8]) -> (String, Requests)) -> usize {
    let outcomes = examples.iter().map(|example| {
        let (answer, requests) = judge(example.line.as_bytes());
        Outcome {
            text: example.text,
            by_hand: example.answer.to_string(),
            answer,
            requests,
        }
    });
    count_different(what, outcomes)
}

pub struct Outcome {
    pub text: &'static str,
    pub by_hand: String,
    pub answer: String,
    pub requests: Requests,
}

/// Prints the outcomes that differ, and how many.
pub fn count_different(what: &str, outcomes: impl Iterator<Item = Outcome>) -> usize {
    let (mut all, mut different, mut requests) = (0, 0, Requests::default());
    for outcome in outcomes {
        all += 1;
        requests += outcome.requests;
        if outcome.answer != outcome.by_hand {
            different += 1;
            println!(
                "{}: by hand {:?}, by the judge {:?}",
                outcome.text, outcome.by_hand, outcome.answer
            );
        }
    }
    println!("{all} {what}, {different} different; {requests}");
    different
}

/// The four parts of each line of a text: what it shows, what is lent, what is
/// given, and the answer. A line that begins with `;` is a remark.
pub fn parted(text: &'static str) -> impl Iterator<Item = [&'static str; 4]> {
    let lines = text.lines().filter(|line| !line.starts_with(';'));
    lines.map(|line| {
        let parts: Vec<&str> = line.split(" | ").collect();
        parts
            .try_into()
            .unwrap_or_else(|_| panic!("not four parts: {line}"))
    })
}

/// A text with its tabs, CRs, spaces at an end and LFs for the signs that stand
/// for them.
pub fn spelled_out(text: &str) -> String {
    text.replace('⇥', "\t")
        .replace('␍', "\r")
        .replace('␠', " ")
        .replace('¶', "\n")
}
