//! Numbers for leaves: plain ones that are mostly legal, and the ends of every
//! range with the numbers one past them.

use crate::draft::{Kind, Leaf};
use crate::random::Random;
use crate::schema::{same_fields, Number, Variant};

pub const ADDRESSES: [u32; 12] = [
    0,
    1,
    2,
    0x1000,
    0x1001,
    0x7FFE,
    0x8000,
    0x7FFF_FFFE,
    0x8000_0000,
    0xFFFF_8000,
    0xFFFF_FFFE,
    0xFFFF_FFFF,
];

/// How far from the instruction the word of a displacement can stand.
const WORD_OFFSETS: [i128; 5] = [2, 4, 6, 8, 10];

/// The first ones, which most instructions use.
const NEAR_OFFSETS: [i128; 3] = [2, 4, 6];

/// The ends of the byte and the word displacements, and one past.
const REACHES: [i128; 9] = [-32769, -32768, -129, -128, 0, 127, 128, 32767, 32768];

/// The same with their neighbours.
pub const DISPLACEMENTS: [i128; 15] = [
    -32769, -32768, -32767, -129, -128, -127, -1, 0, 1, 126, 127, 128, 32766, 32767, 32768,
];

const BYTES: [i128; 14] = [0, 1, 2, 7, 8, 9, 15, 16, 31, 32, 127, 128, 254, 255];

const WORDS: [i128; 14] = [
    0, 1, 0x7FFF, 0x8000, 0xFFFF, 0x00FF, 0x0FFF, 0x1000, 0x9FFF, 0xA000, 0xAFFF, 0xB000, 0xEFFF,
    0xF000,
];

const LONGS: [i128; 20] = [
    0,
    1,
    7,
    8,
    9,
    0x7F,
    0x80,
    0xFF,
    0x100,
    0x7FFF,
    0x8000,
    0xFFFF,
    0x1_0000,
    0x7FFF_FFFF,
    0x8000_0000,
    0xFFFF_7FFF,
    0xFFFF_8000,
    0xFFFF_FF7F,
    0xFFFF_FF80,
    0xFFFF_FFFF,
];

const ABSOLUTES: [i128; 22] = [
    0,
    1,
    0x7FFF,
    0x8000,
    0xFFFF,
    0x1_0000,
    0x7FFF_FFFF,
    0x8000_0000,
    0xFFFF_7FFF,
    0xFFFF_8000,
    0xFFFF_FFFF,
    0x1_0000_0000,
    0x1_0000_0001,
    0x1_0000_8000,
    0x1_FFFF_8000,
    0x7FFF_FFFF_FFFF_FFFF,
    0x8000_0000_0000_0000,
    0x8000_0000_0000_7FFF,
    0xFFFF_FFFF_0000_0000,
    0xFFFF_FFFF_7FFF_FFFF,
    0xFFFF_FFFF_FFFF_8000,
    0xFFFF_FFFF_FFFF_FFFF,
];

const EXTENSION_WORDS: [i128; 30] = [
    0x0000, 0x0200, 0x0C00, 0xFE00, 0x00FF, 0x1234, 0x8880, 0x0110, 0x0120, 0x0130, 0x0111, 0x0122,
    0x0133, 0x0115, 0x0126, 0x0137, 0x0190, 0x01A0, 0x01F0, 0x0170, 0x0171, 0xFF37, 0x9DB3, 0x0100,
    0x0118, 0x0114, 0x0174, 0x1170, 0xFFFF, 0x8340,
];

/// Every number worth trying in a leaf of an instruction at `address`.
pub fn ends(leaf: &Leaf, address: u32) -> Vec<i128> {
    match leaf.kind {
        Kind::Place(variants) => siblings(variants, leaf.value),
        Kind::Number(number) => number_ends(number, address),
    }
}

/// The places that can stand here without changing what follows.
fn siblings(variants: &'static [Variant], value: i128) -> Vec<i128> {
    let own = &variants[value as usize];
    let places = 0..variants.len();
    places
        .filter(|place| same_fields(&variants[*place], own))
        .map(|place| place as i128)
        .collect()
}

fn number_ends(number: Number, address: u32) -> Vec<i128> {
    match number {
        Number::U8 => BYTES.to_vec(),
        Number::U16 => WORDS.to_vec(),
        Number::U32 => [LONGS.to_vec(), targets(number, address)].concat(),
        Number::U64 => ABSOLUTES.to_vec(),
        Number::I32 => [displacements(), targets(number, address)].concat(),
        Number::IndexBase => vec![0, 1, 7, 8, 9, 15, 255],
        Number::ExtensionWord => EXTENSION_WORDS.to_vec(),
    }
}

fn displacements() -> Vec<i128> {
    let widest = [i32::MIN as i128, i32::MAX as i128];
    [DISPLACEMENTS.to_vec(), widest.to_vec()].concat()
}

/// The targets that a displacement reaches from the places it can stand at.
fn targets(number: Number, address: u32) -> Vec<i128> {
    let reached = NEAR_OFFSETS.iter().flat_map(|offset| {
        let reach = REACHES.iter();
        reach.map(move |displacement| number.wrap(address as i128 + offset + displacement))
    });
    reached.collect()
}

/// A number that is out of range wherever the leaf has a range, and tells the
/// leaf by `mark`.
pub fn fault(leaf: &Leaf, mark: usize, random: &mut Random) -> i128 {
    let mark = mark as i128;
    match leaf.kind {
        Kind::Place(variants) => random.pick(&siblings(variants, leaf.value)),
        Kind::Number(number) => match number {
            Number::U8 => random.pick(&[8, 32, 240]) + mark % 15,
            Number::U16 => random.pick(&WORDS),
            Number::U32 | Number::I32 => random.pick(&[0x40_0000, 0x1000_0000]) + mark,
            Number::U64 => random.pick(&[0x9000, 0x1_0000_0000, 0x8000_0000_0000_0000]) + mark,
            Number::IndexBase => random.pick(&[3, 8, 9]),
            Number::ExtensionWord => random.pick(&EXTENSION_WORDS),
        },
    }
}

/// A number that is legal more often than not.
pub fn plain(number: Number, address: u32, random: &mut Random) -> i128 {
    match number {
        Number::U8 => plain_byte(random),
        Number::U16 => random.between(0, 0xFFFF),
        Number::U32 => plain_long(address, random),
        Number::U64 => plain_absolute(random),
        Number::I32 => plain_displacement(address, random),
        Number::IndexBase => match random.chance(70) {
            true => random.between(0, 7),
            false => 8,
        },
        Number::ExtensionWord => extension_word(random),
    }
}

fn plain_byte(random: &mut Random) -> i128 {
    match random.below(20) {
        0..=15 => random.between(0, 7),
        16..=18 => random.between(0, 31),
        _ => random.between(0, 255),
    }
}

fn plain_long(address: u32, random: &mut Random) -> i128 {
    let near = address as i128 + random.pick(&WORD_OFFSETS);
    let value = match random.below(20) {
        0..=6 => near + random.between(-126, 126),
        7..=10 => near + random.between(-32760, 32760),
        11..=13 => random.between(0, 0xFF),
        14..=16 => random.between(0, 0xFFFF),
        17 => random.between(-32768, 32767),
        18 => random.between(-128, -1),
        _ => random.next() as i128,
    };
    Number::U32.wrap(value)
}

fn plain_absolute(random: &mut Random) -> i128 {
    match random.below(20) {
        0..=6 => random.between(0, 0x7FFF),
        7..=10 => random.between(0xFFFF_8000, 0xFFFF_FFFF),
        11..=18 => random.between(0, 0xFFFF_FFFF),
        _ => random.next() as i128,
    }
}

fn plain_displacement(address: u32, random: &mut Random) -> i128 {
    let near = address as i128 + random.pick(&WORD_OFFSETS);
    let value = match random.below(20) {
        0..=7 => random.between(-128, 127),
        8..=12 => random.between(-32768, 32767),
        13..=15 => near + random.between(-126, 126),
        16 => near + random.between(-32760, 32760),
        17 => 0,
        _ => random.next() as i128,
    };
    Number::I32.wrap(value)
}

/// Brief words, full ones that are canonical, and now and then any word.
fn extension_word(random: &mut Random) -> i128 {
    match random.below(10) {
        0..=3 => brief_word(random),
        4..=8 => full_word(random),
        _ => random.between(0, 0xFFFF),
    }
}

pub fn brief_word(random: &mut Random) -> i128 {
    let low = if random.chance(70) {
        0
    } else {
        random.between(0, 0xFF)
    };
    (random.between(0, 0x7F) << 9) | low
}

pub fn full_word(random: &mut Random) -> i128 {
    let bases = random.between(1, 3) << 4 | random.between(0, 1) << 7 | 0x0100;
    match random.chance(25) {
        true => bases | 0x0040 | random.between(0, 3),
        false => bases | random.between(0, 0x7F) << 9 | random.pick(&[0, 1, 2, 3, 5, 6, 7]),
    }
}
