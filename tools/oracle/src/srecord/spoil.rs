//! Texts with something spoiled; they may still be accepted.

use super::record::{record, summed, Record};
use crate::random::Random;

const BYTES: &[u8] = b"0123456789ABCDEFSabcdefs\n\n\r \t/:@G`g\0\xFF";

/// What is added to an address.
const MOVES: [u32; 10] = [
    1,
    2,
    4,
    u32::MAX,
    u32::MAX - 1,
    0x100,
    0x8000,
    0x1_0000,
    0x100_0000,
    0x8000_0000,
];

/// Spoils one record or the order of them, every checksum right.
pub fn spoiled_records(records: &mut Vec<Record>, random: &mut Random) {
    let at = random.below(records.len() as u64) as usize;
    match random.below(9) {
        0..=1 => records[at].address = records[at].address.wrapping_add(random.pick(&MOVES)),
        2 => drop(records[at].data.pop()),
        3 => records[at].data.push(random.next() as u8),
        4 => records[at].kind = random.pick(&[0, 1, 2, 3, 4, 5, 6, 7, 8, 9]),
        5 => drop(records.remove(at)),
        6 => records.insert(at, records[at].clone()),
        7 => records.swap(at, random.below(at as u64 + 1) as usize),
        _ => insert(records, at, random),
    }
}

/// A record more, at the address of another.
fn insert(records: &mut Vec<Record>, at: usize, random: &mut Random) {
    let data = [random.next() as u8; 4];
    let bytes = random.pick(&[0, 0, 2, 3, 4]);
    let kind = random.pick(&[1, 2, 3, 7, 8, 9]);
    let more = record(kind, records[at].address, &data[..bytes]);
    let at = at + random.below(2) as usize;
    records.insert(at, more);
}

/// Spoils a byte of a text, the pair of digits at it, or cuts it there.
pub fn spoiled_text(text: &mut Vec<u8>, random: &mut Random) {
    let at = random.below(text.len() as u64) as usize;
    match random.below(8) {
        0 => text.insert(at, random.pick(BYTES)),
        1..=2 => text[at] = random.pick(BYTES),
        3 => drop(text.remove(at)),
        4 => text.truncate(at),
        5 => text.extend(random.pick(&[&b"\n"[..], b"S", b"S9030000FC\n", b" ", b"\r\n"])),
        _ => spoil_digits(text, at, random),
    }
}

/// Changes a pair of digits of a record and, in half of the cases, makes its
/// checksum right again.
fn spoil_digits(text: &mut [u8], at: usize, random: &mut Random) {
    let before = text[..at].iter().rposition(|byte| *byte == b'\n');
    let from = before.map_or(0, |end| end + 1) + 2;
    let Some(length) = text[from.min(text.len())..]
        .iter()
        .position(|byte| *byte == b'\n')
    else {
        return;
    };
    let mut bytes = pairs(&text[from..from + length]);
    let changed = random.below(bytes.len() as u64) as usize;
    bytes[changed] = match random.chance(50) {
        true => bytes[changed].wrapping_add(random.pick(&[1, 2, 254, 255])),
        false => random.next() as u8,
    };
    if random.chance(50) {
        bytes.pop();
        bytes = summed(bytes);
    }
    let digits = bytes.iter().map(|byte| format!("{byte:02X}"));
    text[from..from + length].copy_from_slice(digits.collect::<String>().as_bytes());
}

/// The bytes of a right record's digits.
fn pairs(digits: &[u8]) -> Vec<u8> {
    let digits = std::str::from_utf8(digits).expect("digits");
    let pairs = (0..digits.len() / 2).map(|at| &digits[2 * at..2 * at + 2]);
    pairs
        .map(|pair| u8::from_str_radix(pair, 16).expect("digits"))
        .collect()
}
