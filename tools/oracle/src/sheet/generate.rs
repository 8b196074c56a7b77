//! Random sheets: accepted ones, and ones with something spoiled.

use super::line::{Line, WITHOUT_A_LINE};
use super::made::{words, Sheet};
use super::record::{Record, Way, MOST_ROOM, PLACES, ROOM};
use super::spoil::{spoiled_sheet, spoiled_text};
use crate::answer::accepts_without_n5;
use crate::draft::Draft;
use crate::fill::{accepted, draft};
use crate::random::Random;
use crate::schema::instructions;
use crate::values::ADDRESSES;

/// Drafts tried until one is accepted.
const TRIES: u32 = 120;

/// The words before 2^32 where a sheet begins near it.
const NEAR_THE_END: i128 = 80;

/// The places of the instructions that have a line.
pub fn places() -> Vec<usize> {
    let variants = instructions().iter().enumerate();
    variants
        .filter(|(_, variant)| !WITHOUT_A_LINE.contains(&variant.name))
        .map(|(place, _)| place)
        .collect()
}

/// The draft of a line in the form, each `@` as 0.
pub fn draft_of(line: &str) -> Draft {
    let line = Line::of_text(line.as_bytes()).expect("in the form");
    let numeric = String::from_utf8(line.numeric(0, |_| 0)).expect("digits and tabs");
    Draft::of_line(&numeric)
}

/// Eight words in 30 bytes, and two words in 6.
pub const DENSE: &str = "ORI\t0\tExtended\t0\t307\t0\t0\tLong";
pub const SHORT: &str = "RTD\t0";

/// Lines of a wide sheet, in which a word does not reach from end to end.
const WIDE: usize = 3_850;

/// Those of its lines that name a line.
const NAMING: [&str; 4] = [
    "BRA\t@1\tWord",
    "Bcc\t@1\tEqual\tWord",
    "DBcc\tData\t1\t@1\tFalse",
    "PEA\tPcDisplacement\t@1",
];

/// One sheet in so many is wide.
const RARE: u64 = 400;

/// An accepted sheet.
pub fn sheet(random: &mut Random) -> Sheet {
    let mut sheet = match random.below(RARE) {
        0 => wide(random),
        _ => common(random),
    };
    sheet.name_targets(random);
    sheet
}

fn wide(random: &mut Random) -> Sheet {
    let mut sheet = Sheet::new(random.between(0, 0x4000_0000) as u32 * 2);
    for _ in 0..WIDE {
        sheet.push(draft_of(match random.below(15) {
            0..=5 => DENSE,
            6..=13 => SHORT,
            _ => random.pick(&NAMING),
        }));
    }
    sheet
}

fn common(random: &mut Random) -> Sheet {
    let count = count(random);
    of_lines(count, random)
}

/// So many lines, fewer where they would pass 2^32.
fn of_lines(count: usize, random: &mut Random) -> Sheet {
    let places = places();
    let mut sheet = Sheet::new(start(random));
    while sheet.lines.len() < count && sheet.left() > 0 {
        let place = random.pick(&places);
        let draft = accepted(TRIES, || draft(place, sheet.next(), random));
        match accepts_without_n5(&draft.line()) && words(&draft) <= sheet.left() {
            true => sheet.push(draft),
            false => sheet.push(draft_of("NOP")),
        }
    }
    sheet
}

fn count(random: &mut Random) -> usize {
    let most = match random.below(100) {
        0..=59 => 10,
        60..=89 => 40,
        90..=98 => 200,
        _ => 1_500,
    };
    random.between(1, most) as usize
}

fn start(random: &mut Random) -> u32 {
    let start = match random.below(10) {
        0..=2 => random.pick(&ADDRESSES),
        3..=5 => random.between(0, 0xFFFF) as u32,
        6..=7 => (-2 * random.between(1, NEAR_THE_END)) as u32,
        _ => random.next() as u32,
    };
    start & 0xFFFF_FFFE
}

/// A sheet by the full scratch.
pub fn record(random: &mut Random) -> Record {
    let sheet = sheet(random);
    asked(sheet, random)
}

/// A sheet either way, with places around what its own way or the other needs.
pub fn either(random: &mut Random) -> Record {
    let sheet = match random.chance(25) {
        true => blocks(random),
        false => sheet(random),
    };
    let record = asked(sheet, random);
    let way = random.pick(&Way::ALL);
    let counted = match random.chance(90) {
        true => way,
        false => random.pick(&Way::ALL),
    };
    let need = counted.places(record.lines());
    let places = match random.below(20) {
        0..=8 => need,
        9..=12 => need + 1,
        13 => need.saturating_sub(1),
        14 => 0,
        _ => PLACES,
    };
    let record = record.by(way, places.min(PLACES));
    match way == Way::Full && random.chance(50) {
        true => Record {
            way: None,
            ..record
        },
        false => record,
    }
}

/// An accepted sheet whose lines end around the end of 64.
fn blocks(random: &mut Random) -> Sheet {
    let count = 64 * random.between(1, 5) + random.between(-1, 1);
    let mut sheet = of_lines(count as usize, random);
    sheet.name_targets(random);
    sheet
}

/// A sheet with what is lent for it, four in ten as they were made.
fn asked(mut sheet: Sheet, random: &mut Random) -> Record {
    let (lines, words) = (sheet.lines.len(), sheet.words as usize);
    let kind = random.below(20);
    if (8..16).contains(&kind) {
        spoiled_sheet(&mut sheet, random);
    }
    let mut text = sheet.text().into_bytes();
    if kind >= 16 {
        spoiled_text(&mut text, random);
    }
    let places = lent(lines, PLACES, PLACES, random);
    Record::new(text, places, lent(words, ROOM, MOST_ROOM, random))
}

/// What is lent where `need` is needed: mostly enough.
fn lent(need: usize, usual: usize, most: usize, random: &mut Random) -> usize {
    let lent = match random.below(60) {
        0..=29 => usual.max(need),
        30..=41 => need,
        42..=47 => need + 1,
        48 => need.saturating_sub(1),
        _ => most,
    };
    lent.min(most)
}
