//! Sheets with something spoiled; they may still be accepted.

use super::generate::draft_of;
use super::made::Sheet;
use crate::draft::Draft;
use crate::generate::at_end;
use crate::random::Random;
use crate::systematic::faulty;

const BYTES: &[u8] = b"0123456789\t\t\t\n\n@@--+ \rxDWSLe\0\xFF";

/// What is put in the place of a field.
const FIELDS: [&str; 44] = [
    "",
    "0",
    "1",
    "7",
    "8",
    "9",
    "-1",
    "-0",
    "00",
    "01",
    "255",
    "256",
    "65535",
    "65536",
    "2147483647",
    "2147483648",
    "-2147483648",
    "-2147483649",
    "4294934527",
    "4294934528",
    "4294967167",
    "4294967168",
    "4294967295",
    "4294967296",
    "18446744073709551615",
    "18446744073709551616",
    "123456789012345678901234567890",
    "@",
    "@0",
    "@1",
    "@2",
    "@01",
    "@4097",
    "@18446744073709551617",
    "@123456789012345678901234567890",
    "Byte",
    "Word",
    "Long",
    "Data",
    "Address",
    "Register",
    "Immediate",
    "None",
    "NOP",
];

/// Names that name no line, or no name at all.
const NAMES: [&str; 8] = [
    "0",
    "4097",
    "65537",
    "4294967297",
    "18446744073709551617",
    "00",
    "",
    "1x",
];

/// Spoils a number, a name or the end of a sheet.
pub fn spoiled_sheet(sheet: &mut Sheet, random: &mut Random) {
    let line = random.below(sheet.lines.len() as u64) as usize;
    match random.below(8) {
        0..=1 => change(sheet, line, |draft| at_end(draft, random)),
        2 => {
            let count = random.between(1, 3) as usize;
            change(sheet, line, |draft| faulty(draft, count, random));
        }
        3 => misname(sheet, line, random),
        4..=6 => name_anything(sheet, random),
        _ => {
            for _ in 0..random.between(1, 2) {
                sheet.push(draft_of("NOP"));
            }
        }
    }
}

fn change(sheet: &mut Sheet, line: usize, changed: impl FnOnce(&Draft) -> Draft) {
    let made = &mut sheet.lines[line];
    made.draft = changed(&made.draft);
}

fn misname(sheet: &mut Sheet, line: usize, random: &mut Random) {
    let beyond = (sheet.lines.len() + 1).to_string();
    for name in sheet.lines[line].names.values_mut() {
        *name = match random.chance(40) {
            true => beyond.clone(),
            false => random.pick(&NAMES).to_string(),
        };
    }
}

/// Names any line for every number that may be a line's name.
fn name_anything(sheet: &mut Sheet, random: &mut Random) {
    let count = sheet.lines.len() as u64;
    for line in 0..sheet.lines.len() {
        for (at, _) in sheet.lines[line].targets() {
            sheet.name(line, at, random.below(count) as usize);
        }
    }
}

/// Spoils a byte or a field of a text.
pub fn spoiled_text(text: &mut Vec<u8>, random: &mut Random) {
    match random.chance(50) {
        true => spoil_byte(text, random),
        false => spoil_field(text, random),
    }
}

/// One byte put in, taken out or changed.
fn spoil_byte(text: &mut Vec<u8>, random: &mut Random) {
    let at = random.below(text.len() as u64) as usize;
    match random.below(3) {
        0 => text.insert(at, random.pick(BYTES)),
        1 => text[at] = random.pick(BYTES),
        _ => drop(text.remove(at)),
    }
}

/// One field taken out, doubled, or another in its place.
fn spoil_field(text: &mut Vec<u8>, random: &mut Random) {
    let at = random.below(text.len() as u64) as usize;
    let ends = |byte: &u8| matches!(byte, b'\t' | b'\n');
    let from = text[..at].iter().rposition(ends).map_or(0, |end| end + 1);
    let to = text[at..].iter().position(ends);
    let to = to.map_or(text.len(), |end| at + end);
    let field = text[from..to].to_vec();
    let put = match random.below(6) {
        0 => [&field[..], b"\t", &field[..]].concat(),
        1 => return drop(text.drain(from..(to + 1).min(text.len()))),
        _ => random.pick(&FIELDS).as_bytes().to_vec(),
    };
    text.splice(from..to, put);
}
