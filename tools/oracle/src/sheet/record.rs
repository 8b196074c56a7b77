//! Sheets with what is lent for them, as a stored list has them.

use std::io::{self, Write};

use super::answer::answer;
use super::judge::requests;
use crate::requests::Requests;
use crate::stored::{self, Asked};

/// What the program `sheet` lends.
pub const PLACES: usize = 4_096;
pub const ROOM: usize = 16_384;

/// The words of the largest image.
pub const MOST_ROOM: usize = 45_056;

/// How the scratch is used.
#[derive(Debug, Default, Clone, Copy, PartialEq, Eq, Hash)]
pub enum Way {
    /// A place a line.
    #[default]
    Full,
    /// Request N7: a place for 64 lines or part of 64.
    Small,
}

impl Way {
    pub const ALL: [Way; 2] = [Way::Full, Way::Small];

    pub fn of_number(number: u64) -> Option<Way> {
        Way::ALL.into_iter().find(|way| *way as u64 == number)
    }

    /// The places that so many lines need.
    pub fn places(self, lines: usize) -> usize {
        match self {
            Way::Full => lines,
            Way::Small => lines.div_ceil(64),
        }
    }
}

#[derive(Debug, Clone, PartialEq, Eq, Hash)]
pub struct Record {
    pub text: Vec<u8>,
    /// The places of the scratch.
    pub places: usize,
    /// The words of the image.
    pub room: usize,
    /// The fourth number of the header, which may be left out.
    pub way: Option<Way>,
}

impl Record {
    pub fn new(text: impl Into<Vec<u8>>, places: usize, room: usize) -> Record {
        Record {
            text: text.into(),
            places,
            room,
            way: None,
        }
    }

    /// A sheet as the program `sheet` has it.
    pub fn of_program(text: impl Into<Vec<u8>>) -> Record {
        Record::new(text, PLACES, ROOM)
    }

    /// The same sheet with so many places, and the way written out.
    pub fn by(&self, way: Way, places: usize) -> Record {
        Record {
            places,
            way: Some(way),
            ..self.clone()
        }
    }

    /// The same sheet by the small scratch, with as many places as it needs, and
    /// one fewer where the full scratch has too few.
    pub fn small(&self) -> Record {
        let lines = self.lines();
        let need = Way::Small.places(lines);
        let short = (self.places < lines) as usize;
        self.by(Way::Small, need - short)
    }

    /// The lines after START, if every line has its LF.
    pub fn lines(&self) -> usize {
        let feeds = self.text.iter().filter(|byte| **byte == b'\n');
        feeds.count().saturating_sub(1)
    }
}

impl Asked for Record {
    fn write(&self, output: &mut impl Write) -> io::Result<()> {
        let (bytes, places, room) = (self.text.len(), self.places, self.room);
        write!(output, "{bytes}\t{places}\t{room}")?;
        if let Some(way) = self.way {
            write!(output, "\t{}", way as u64)?;
        }
        writeln!(output)?;
        output.write_all(&self.text)
    }

    fn first(list: &[u8]) -> Option<(Record, &[u8])> {
        let first = stored::first(list)?;
        let (places, room, way) = match first.numbers[..] {
            [places, room] => (places, room, None),
            [places, room, way] => (places, room, Some(Way::of_number(way)?)),
            _ => return None,
        };
        if places > PLACES as u64 || room > MOST_ROOM as u64 {
            return None;
        }
        let record = Record {
            way,
            ..Record::new(first.payload, places as usize, room as usize)
        };
        Some((record, first.rest))
    }

    fn payload(&self) -> &[u8] {
        &self.text
    }

    fn answer(&self) -> Option<String> {
        Some(answer(self))
    }

    fn requests(&self) -> Requests {
        requests(self)
    }
}
