//! Request N7: counts of lines, ends, faults and short branches around the ends
//! of 64 lines.

use super::super::record::{Record, Way, PLACES};
use super::named;
use super::reach::filler;
use super::sheet;

const START: u32 = 4096;

/// Counts of lines around those from which a place more is needed.
const COUNTS: [usize; 7] = [1, 63, 64, 65, 127, 128, 129];

/// The lines of a sheet that ends in its third block.
const LINES: usize = 130;

/// Faults of a line of such a sheet: 7, 8, 1, 2, 3, and 2 of `encode`.
const FAULTS: [&str; 6] = [
    "NOP\t",
    "BRA\t@131\tWord",
    "LINEA\t45056",
    "SWAP\tData\t8",
    "JMP\tImmediate\t4",
    "TRAP\t16",
];

/// Lines that name a line within a byte, and their own bytes.
const NAMING: [(&str, usize); 4] = [
    ("BRA\t@\tShort", 2),
    ("BSR\t@\tShort", 2),
    ("Bcc\t@\tCarrySet\tShort", 2),
    ("JMP\tPcIndex\t@\tAddress\t7\tLong", 4),
];

pub fn all() -> Vec<Record> {
    [enough(), more(), short(), ends(), faults(), borders()].concat()
}

/// Both ways with as many places as are needed.
fn either(record: &Record) -> Vec<Record> {
    let lines = record.lines();
    let ways = Way::ALL.into_iter();
    ways.map(|way| record.by(way, way.places(lines))).collect()
}

/// Sheets whose first line names the last, and the last the first.
fn counts() -> Vec<Record> {
    let sheets = COUNTS.map(|count| {
        let mut lines = vec!["NOP".to_string(); count];
        lines[count - 1] = "BSR\t@1\tLong".to_string();
        lines[0] = format!("BRA\t@{count}\tWord");
        sheet(START, &lines)
    });
    sheets.into()
}

fn enough() -> Vec<Record> {
    counts().iter().flat_map(either).collect()
}

/// The places that a sheet needs by the small scratch.
fn needed(sheet: &Record) -> usize {
    Way::Small.places(sheet.lines())
}

/// A place more than is needed.
fn more() -> Vec<Record> {
    let sheets = counts().into_iter();
    let more = sheets.map(|sheet| sheet.by(Way::Small, needed(&sheet) + 1));
    more.collect()
}

/// A place too few, of those of 4,095 and 4,096 lines too, which `named` has with
/// as many as are needed.
pub fn short() -> Vec<Record> {
    let sheets = counts().into_iter().chain(named::most());
    let short = sheets.map(|sheet| sheet.by(Way::Small, needed(&sheet) - 1));
    short.collect()
}

/// An end at 2^32 and one word past it, an image of its words and one short, and
/// a place too few with either fault.
fn ends() -> Vec<Record> {
    let lines = ["NOP"; LINES];
    let last = (2 * LINES as u32).wrapping_neg();
    let (mut exact, mut past) = (sheet(last, &lines), sheet(last + 2, &lines));
    exact.room = LINES;
    let mut short = sheet(START, &lines);
    short.room = LINES - 1;
    let mut found: Vec<Record> = [&exact, &past, &short].map(either).concat();
    past.room = LINES - 1;
    let need = Way::Small.places(LINES);
    for (record, places) in [(&past, need), (&past, need - 1), (&short, need - 1)] {
        found.push(record.by(Way::Small, places));
    }
    found
}

/// Each fault on the lines around the ends of 64, and on the last one.
fn faults() -> Vec<Record> {
    let mut found = Vec::new();
    for fault in FAULTS {
        for line in [64, 65, 128, LINES] {
            let mut lines = ["NOP"; LINES];
            lines[line - 1] = fault;
            found.push(sheet(START, &lines).by(Way::Small, PLACES));
        }
    }
    found
}

/// Distances at both ends of a byte and one past, over the end of 64 and of 128
/// lines.
pub fn borders() -> Vec<Record> {
    let mut found = Vec::new();
    for (turn, (naming, own)) in NAMING.into_iter().enumerate() {
        for begin in [59, 64 * (turn % 2 + 1)] {
            for past in [0, 2] {
                let forward = [vec!["@".to_string()], filler(128 - own + past)].concat();
                let last = begin + forward.len();
                found.push(named(begin, forward, naming, last));
                let backward = [filler(126 + past), vec!["@".to_string()]].concat();
                found.push(named(begin, backward, naming, begin));
            }
        }
    }
    found
}

/// These lines from line `begin` on, lines of two and four bytes before them and
/// one behind; `naming` stands for `@` and names a line.
fn named(begin: usize, lines: Vec<String>, naming: &str, target: usize) -> Record {
    let before = (1..begin).map(|line| ["NOP", "RTD\t0"][line % 2].to_string());
    let naming = naming.replace('@', &format!("@{target}"));
    let lines = lines.into_iter().map(|line| line.replace('@', &naming));
    let behind = std::iter::once("NOP".to_string());
    let lines: Vec<String> = before.chain(lines).chain(behind).collect();
    sheet(START, &lines).small()
}
