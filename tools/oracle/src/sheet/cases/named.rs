//! Request N7: sheets by the small scratch whose lines name lines of their own
//! block of 64 and of others, among lines of one to eleven words.

use super::super::generate::draft_of;
use super::super::made::{Place, Sheet};
use super::super::record::{Record, MOST_ROOM, PLACES};

/// Lines that name a line.
const NAMING: [&str; 13] = [
    "BRA\t@1\tWord",
    "Bcc\t@1\tEqual\tShort",
    "PEA\tPcDisplacement\t@1",
    "DBcc\tData\t1\t@1\tFalse",
    "BSR\t@1\tLong",
    "JMP\tPcIndex\t@1\tData\t0\tWord",
    "Bcc\t@1\tMinus\tWord",
    "CMPI\t0\tPcDisplacement\t@1\tLong",
    "BRA\t@1\tShort",
    "BSR\t@1\tWord",
    "Bcc\t@1\tPlus\tLong",
    "PEA\tPcIndex\t@1\tData\t7\tLong",
    "BRA\t@1\tLong",
];

/// Lines of one to eleven words.
const WORDS: [&str; 11] = [
    "NOP",
    "RTD\t0",
    "JMP\tAbsolute\t0\tLong",
    "ORI\t0\tAbsolute\t0\tWord\tLong",
    "ORI\t0\tAbsolute\t0\tLong\tLong",
    "PEA\tExtended\t0\t307\t0\t0",
    "ORI\t0\tExtended\t0\t307\t0\t0\tWord",
    "ORI\t0\tExtended\t0\t307\t0\t0\tLong",
    "MOVE\tExtended\t0\t307\t0\t0\tExtended\t0\t290\t0\t0\tWord",
    "MOVE\tExtended\t0\t307\t0\t0\tExtended\t0\t306\t0\t0\tWord",
    "MOVE\tExtended\t0\t307\t0\t0\tExtended\t0\t307\t0\t0\tWord",
];

/// The line that a line of so many names, all counted from 0; past the last one
/// stands for it.
const WISHES: [fn(usize, usize) -> usize; 12] = [
    |line, _| first(line),
    |line, _| first(line) + 63,
    |line, _| first(line).saturating_sub(64),
    |line, _| first(line).saturating_sub(1),
    |line, _| first(line) + 64,
    |line, _| first(line) + 127,
    |_, _| 0,
    |_, count| count - 1,
    |line, _| line,
    |line, _| line + 1,
    |line, count| count - 1 - line,
    |line, count| line * 61 % count,
];

/// The first line of a block.
fn first(line: usize) -> usize {
    line / 64 * 64
}

/// The lines of the first sheet; the next ones have a line more each.
const LINES: usize = 132;
const START: u32 = 4096;

pub fn all() -> Vec<Record> {
    let turns = 0..WISHES.len();
    let sheets = turns.map(|turn| record(sheet(START, &mixed(LINES + turn, turn), turn)));
    sheets.chain(most()).collect()
}

/// The sheets of 4,095 and of 4,096 lines.
pub fn most() -> [Record; 2] {
    let most = spread(4_096);
    let words = sheet(0, &most, 0).words as u32;
    let last = sheet((2 * words).wrapping_neg(), &most, 0);
    [sheet(START, &spread(4_095), 1), last].map(record)
}

fn record(sheet: Sheet) -> Record {
    Record::new(sheet.text(), PLACES, MOST_ROOM).small()
}

/// Three lines of four name a line.
fn mixed(count: usize, turn: usize) -> Vec<&'static str> {
    let lines = (0..count).map(|line| match (line + turn / 3) % 4 {
        3 => WORDS[(line / 4 + turn) % WORDS.len()],
        _ => NAMING[(line + turn) % NAMING.len()],
    });
    lines.collect()
}

/// The first and the last line of each block and one other name a line.
fn spread(count: usize) -> Vec<&'static str> {
    let lines = (0..count).map(|line| match line % 64 {
        0 | 63 => NAMING[line % NAMING.len()],
        3 => NAMING[line / 64 % NAMING.len()],
        20 if line % 128 == 20 => WORDS[line / 128 % WORDS.len()],
        _ => "NOP",
    });
    lines.collect()
}

fn sheet(start: u32, lines: &[&str], turn: usize) -> Sheet {
    let mut sheet = Sheet::new(start);
    for line in lines {
        sheet.push(draft_of(line));
    }
    for line in 0..lines.len() {
        let wish = WISHES[(line + line / 64 + turn) % WISHES.len()];
        let wish = wish(line, lines.len()).min(lines.len() - 1);
        for (at, _) in sheet.lines[line].targets() {
            let target = nearer(&sheet, line, at, wish);
            sheet.name(line, at, target);
        }
    }
    sheet
}

/// A line within reach, on the way from the one wished to the line itself.
fn nearer(sheet: &Sheet, line: usize, at: Place, wish: usize) -> usize {
    let mut away = wish as isize - line as isize;
    let target = |away: isize| (line as isize + away) as usize;
    while away != 0 && !sheet.reaches(line, at, target(away)) {
        away /= 2;
    }
    target(away)
}
