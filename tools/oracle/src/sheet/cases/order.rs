//! Sheets with two faults, in every two places of the table.

use super::super::record::{Record, PLACES, ROOM};
use super::text;

/// A sheet of four lines, to which faults are put.
struct Faulty {
    start: u32,
    /// What stands after the start.
    after: &'static str,
    lines: [&'static str; 4],
    places: usize,
    room: usize,
    final_feed: bool,
}

type Fault = fn(&mut Faulty, usize);

/// The faults in the order of the table; those of a line come to the line
/// that is given.
const FAULTS: [Fault; 12] = [
    |sheet, _| sheet.final_feed = false,
    |sheet, _| sheet.after = "\t",
    |sheet, _| sheet.start |= 1,
    |sheet, _| sheet.places = 3,
    |sheet, line| sheet.lines[line] = "NOP\t",
    |sheet, line| sheet.lines[line] = "BRA\t@5\tWord",
    |sheet, line| sheet.lines[line] = "LINEA\t45056",
    |sheet, line| sheet.lines[line] = "SWAP\tData\t8",
    |sheet, line| sheet.lines[line] = "JMP\tImmediate\t4",
    |sheet, _| sheet.start |= 0xFFFF_FFFA,
    |sheet, _| sheet.room = 3,
    |sheet, line| sheet.lines[line] = "TRAP\t16",
];

/// Two faults in one line.
const LINES: [&str; 16] = [
    "BRA\t@0\tShort\t",
    "LINEA\t0\t",
    "SWAP\tData\t8\t",
    "JMP\tImmediate\t4\t",
    "TRAP\t16\t",
    "MOVE\tPcDisplacement\t@5\tExtended\t9\t0\t0\t0\tWord",
    "MOVE\tPcDisplacement\t@5\tExtended\t0\t256\t0\t0\tWord",
    "MOVE\tPcDisplacement\t@5\tRegister\tData\t8\tWord",
    "MOVE\tPcDisplacement\t@5\tImmediate\t0\tWord",
    "MOVE\tPcDisplacement\t@5\tIndirectDisplacement\t32768\tAddress\t0\tWord",
    "MOVE\tRegister\tData\t8\tExtended\t9\t0\t0\t0\tWord",
    "MOVE\tImmediate\t65536\tExtended\t9\t0\t0\t0\tWord",
    "MOVE\tExtended\t255\t0\t0\t0\tImmediate\t0\tWord",
    "MOVE\tRegister\tData\t8\tImmediate\t0\tWord",
    "MOVE\tImmediate\t65536\tImmediate\t0\tWord",
    "MOVE\tImmediate\t65536\tRegister\tData\t8\tWord",
];

impl Faulty {
    fn new() -> Faulty {
        Faulty {
            start: 4096,
            after: "",
            lines: ["NOP"; 4],
            places: PLACES,
            room: ROOM,
            final_feed: true,
        }
    }

    fn record(&self) -> Record {
        let mut text = text(&format!("{}{}", self.start, self.after), &self.lines);
        if !self.final_feed {
            text.pop();
        }
        Record::new(text, self.places, self.room)
    }
}

/// Each fault alone, every two, on lines 2 and 3 in both ways, and lines with
/// two.
pub fn all() -> Vec<Record> {
    let lines = LINES.iter().map(|line| super::second(line.as_bytes()));
    alone().into_iter().chain(pairs()).chain(lines).collect()
}

pub fn alone() -> Vec<Record> {
    FAULTS.iter().map(|fault| with(&[(*fault, 1)])).collect()
}

fn with(faults: &[(Fault, usize)]) -> Record {
    let mut sheet = Faulty::new();
    for (fault, line) in faults {
        fault(&mut sheet, *line);
    }
    sheet.record()
}

/// Every two faults, the one earlier in the table on the lower line, then on
/// the higher.
pub fn pairs() -> Vec<Record> {
    let mut found = Vec::new();
    for (at, first) in FAULTS.iter().enumerate() {
        for second in &FAULTS[at + 1..] {
            for (line, other) in [(1, 2), (2, 1)] {
                found.push(with(&[(*first, line), (*second, other)]));
            }
        }
    }
    found
}
