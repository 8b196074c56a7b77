//! What a stored list asks: an image and how many bytes are lent for its sheet.

use std::io::{self, Write};

use super::answer::answer;
use crate::image::Image;
use crate::stored::{self, Asked};

/// The bytes that may be lent.
pub const MOST_LENT: usize = 70_000;

#[derive(Debug, Clone, PartialEq, Eq, Hash)]
pub struct Case {
    pub lent: usize,
    /// The image's line.
    pub payload: Vec<u8>,
}

impl Case {
    pub fn new(image: &Image, lent: usize) -> Case {
        Case {
            lent,
            payload: image.line().into_bytes(),
        }
    }
}

impl Asked for Case {
    fn write(&self, output: &mut impl Write) -> io::Result<()> {
        writeln!(output, "{}\t{}", self.payload.len(), self.lent)?;
        output.write_all(&self.payload)
    }

    fn first(list: &[u8]) -> Option<(Case, &[u8])> {
        let first = stored::first(list)?;
        let [lent] = first.numbers[..] else {
            return None;
        };
        let lent = usize::try_from(lent).ok()?;
        let payload = first.payload.to_vec();
        (lent <= MOST_LENT).then_some((Case { lent, payload }, first.rest))
    }
    fn payload(&self) -> &[u8] {
        &self.payload
    }

    fn answer(&self) -> Option<String> {
        answer(self)
    }
}
