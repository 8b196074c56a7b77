//! Targets at both ends of their distance and one past.

use super::super::generate::{draft_of, DENSE};
use super::super::made::words;
use super::super::record::Record;
use super::sheet;

/// Where the sheets begin; the last one ends near 2^32.
const STARTS: [u32; 4] = [0, 4096, 0x7FFF_FF80, 0xFFFF_FE00];

/// Lines that name a line, and where the word stands that holds the distance
/// (the next one for a short branch).
const NAMING: [(&str, i64); 12] = [
    ("BRA\t@\tShort", 2),
    ("BSR\t@\tShort", 2),
    ("Bcc\t@\tCarrySet\tShort", 2),
    ("BRA\t@\tWord", 2),
    ("Bcc\t@\tMinus\tLong", 2),
    ("DBcc\tData\t7\t@\tTrue", 2),
    ("LEA\tPcDisplacement\t@\tAddress\t7", 2),
    ("JMP\tPcIndex\t@\tAddress\t7\tLong", 2),
    (
        "MOVEM\tFromMemory\tWord\t65535\tPcIndex\t@\tData\t3\tWord",
        4,
    ),
    ("BTST\tImmediate\t7\tPcIndex\t@\tData\t3\tWord", 4),
    (
        "BF\tTest\tPcIndex\t@\tData\t3\tWord\tImmediate\t0\tImmediate\t31\t0",
        4,
    ),
    ("CMPI\t65536\tPcIndex\t@\tData\t3\tWord\tLong", 6),
];

/// Even distances: at the ends of a byte, one past, and none.
const NEAR: [i64; 9] = [-130, -128, -126, -8, -2, 0, 2, 126, 128];

/// Lines whose target is a number.
const NUMBERED: [(&str, i64); 6] = [
    ("LEA\tPcDisplacement\t@\tAddress\t7", 2),
    ("JMP\tPcIndex\t@\tAddress\t7\tLong", 2),
    ("MOVEM\tFromMemory\tWord\t65535\tPcDisplacement\t@", 4),
    ("CMPI\t65536\tPcDisplacement\t@\tLong", 6),
    ("BTST\tImmediate\t7\tPcIndex\t@\tData\t3\tWord", 4),
    ("LEA\tExtended\t8\t288\t@\t0\tAddress\t0", 2),
];

const FAR: [i64; 11] = [-32769, -32768, -129, -128, -1, 0, 1, 127, 128, 32767, 32768];

/// Two bytes.
const SHORT: &str = "NOP";

pub fn all() -> Vec<Record> {
    let mut found = named();
    found.extend(numbered());
    found
}

fn named() -> Vec<Record> {
    let mut found = Vec::new();
    for (turn, (line, offset)) in NAMING.iter().enumerate() {
        for (other, distance) in NEAR.iter().enumerate() {
            let start = STARTS[(turn + other) % STARTS.len()];
            let away = offset + distance;
            found.extend(match away > 0 {
                true => forward(start, line, away as usize),
                false => Some(backward(start, line, -away as usize)),
            });
        }
    }
    found
}

/// The line first, its target so many bytes on; `None` within the line.
fn forward(start: u32, line: &str, away: usize) -> Option<Record> {
    let own = words(&draft_of(&line.replace('@', "@1"))) as usize * 2;
    let between = filler(away.checked_sub(own)?);
    let line = line.replace('@', &format!("@{}", between.len() + 2));
    let lines = [vec![line], between, vec![SHORT.to_string()]];
    Some(sheet(start, &lines.concat()))
}

/// The line so many bytes behind its target.
fn backward(start: u32, line: &str, away: usize) -> Record {
    let line = line.replace('@', "@1");
    sheet(start, &[filler(away), vec![line]].concat())
}

/// Lines of so many bytes.
pub fn filler(bytes: usize) -> Vec<String> {
    let long = vec![DENSE.to_string(); bytes / 16];
    let short = vec![SHORT.to_string(); bytes % 16 / 2];
    [long, short].concat()
}

fn numbered() -> Vec<Record> {
    let mut found = Vec::new();
    for (turn, (line, offset)) in NUMBERED.iter().enumerate() {
        for (other, distance) in FAR.iter().enumerate() {
            let start = STARTS[(turn + other) % STARTS.len()];
            let target = (start as i64 + offset + distance) as u32;
            let target = match line.contains("Extended") {
                true => (target as i32).to_string(),
                false => target.to_string(),
            };
            found.push(sheet(start, &[line.replace('@', &target)]));
        }
    }
    found
}
