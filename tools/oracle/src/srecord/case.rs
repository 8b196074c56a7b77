//! What a stored list asks: an image to write, or a text to read, with what is
//! lent for it.

use std::io::{self, Write};

use super::answer::answer;
use crate::image::Image;
use crate::stored::{self, Asked};

/// The bytes that may be lent for a text, and the words for an image.
pub const MOST_BYTES: usize = 262_144;
pub const MOST_WORDS: usize = 45_056;

#[derive(Debug, Clone, Copy, PartialEq, Eq, Hash)]
pub enum Way {
    Write,
    Read,
}

#[derive(Debug, Clone, PartialEq, Eq, Hash)]
pub struct Case {
    pub way: Way,
    pub lent: usize,
    pub payload: Vec<u8>,
}

impl Way {
    pub fn number(self) -> u64 {
        match self {
            Way::Write => 0,
            Way::Read => 1,
        }
    }

    pub fn of_number(number: u64) -> Option<Way> {
        let ways = [Way::Write, Way::Read];
        ways.into_iter().find(|way| way.number() == number)
    }

    /// The most that may be lent.
    pub fn most(self) -> usize {
        match self {
            Way::Write => MOST_BYTES,
            Way::Read => MOST_WORDS,
        }
    }
}

impl Case {
    pub fn to_write(image: &Image, lent: usize) -> Case {
        Case {
            way: Way::Write,
            lent,
            payload: image.line().into_bytes(),
        }
    }

    pub fn to_read(text: impl Into<Vec<u8>>, lent: usize) -> Case {
        Case {
            way: Way::Read,
            lent,
            payload: text.into(),
        }
    }
}

impl Asked for Case {
    fn write(&self, output: &mut impl Write) -> io::Result<()> {
        let (bytes, way) = (self.payload.len(), self.way.number());
        writeln!(output, "{bytes}\t{way}\t{}", self.lent)?;
        output.write_all(&self.payload)
    }

    fn first(list: &[u8]) -> Option<(Case, &[u8])> {
        let first = stored::first(list)?;
        let [way, lent] = first.numbers[..] else {
            return None;
        };
        let way = Way::of_number(way)?;
        let lent = usize::try_from(lent).ok()?;
        if lent > way.most() {
            return None;
        }
        let payload = first.payload.to_vec();
        let case = Case { way, lent, payload };
        Some((case, first.rest))
    }
    fn payload(&self) -> &[u8] {
        &self.payload
    }

    fn answer(&self) -> Option<String> {
        answer(self)
    }
}
