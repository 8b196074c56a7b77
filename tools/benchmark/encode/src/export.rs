//! The functions of crates/encode_export.

use crate::numeric::{placed, Placed};

const PLACES: usize = 24;

/// A line in the form, as the original and as the exported functions take it.
pub struct Line {
    pub placed: Placed,
    count: usize,
    negative: [bool; PLACES],
    magnitude: [u64; PLACES],
}

#[repr(C)]
#[derive(Debug, Default, Clone, PartialEq, Eq)]
pub struct Answer {
    pub words: [u16; 11],
    pub count: usize,
    pub number: u8,
    pub detail: u8,
    pub value: i64,
}

#[repr(C)]
pub struct Answers {
    pub first: Answer,
    pub second: Answer,
}

#[link(name = "encode_export", kind = "static")]
extern "C" {
    fn encode_export_once(
        count: usize,
        negative: &[bool; PLACES],
        magnitude: &[u64; PLACES],
        address: u32,
    ) -> Answer;
    fn encode_export_twice(
        count: usize,
        negative: &[bool; PLACES],
        magnitude: &[u64; PLACES],
        address: u32,
        other: u32,
    ) -> Answers;
}

impl Line {
    /// `None` where the line is not in the form.
    pub fn of_text(text: &[u8]) -> Option<Line> {
        let mut line = Line {
            placed: placed(text)?,
            count: 0,
            negative: [false; PLACES],
            magnitude: [0; PLACES],
        };
        let text = std::str::from_utf8(text).expect("digits, tabs and signs");
        for (place, number) in text.split('\t').skip(1).enumerate() {
            let digits = number.strip_prefix('-');
            line.negative[place] = digits.is_some();
            line.magnitude[place] = digits.unwrap_or(number).parse().expect("digits");
            line.count += 1;
        }
        Some(line)
    }
}

/// The line's instruction at its address.
pub fn once(line: &Line) -> Answer {
    // The exported functions require nothing; the types are those of the crate.
    unsafe { encode_export_once(line.count, &line.negative, &line.magnitude, line.placed.address) }
}

/// At its address and at another.
pub fn twice(line: &Line, other: u32) -> Answers {
    unsafe {
        encode_export_twice(
            line.count,
            &line.negative,
            &line.magnitude,
            line.placed.address,
            other,
        )
    }
}
