//! `Extended` operands: on the PC their displacement stays a number; brief ones
//! of scale 1 have another plain form.

use super::super::case::Case;
use super::{addresses, case, image, STARTS};
use crate::image::Image;
use crate::instructions::{DisplacementSize, ExtensionWord};

/// Brief words of every scale, with data and address registers, one with bits
/// that `encode` does not read.
const BRIEF: [u16; 10] = [
    0x0000, 0x8800, 0xF000, 0x0200, 0x1A00, 0x0400, 0x9400, 0x0600, 0xFE00, 0x00FF,
];

/// Full words with a displacement of a word or a long: index suppressed or
/// not, before and after memory, outer displacements of every size.
const FULL: [u16; 8] = [
    0x0120, 0x0130, 0x1921, 0x0336, 0x0163, 0x0172, 0xF127, 0x0170,
];

/// Full words without a displacement, and with the base suppressed.
const NULL: [u16; 4] = [0x0110, 0x0111, 0x0150, 0x7D16];
const SUPPRESSED: [u16; 6] = [0x0190, 0x01A0, 0x01B0, 0x01F0, 0x01E2, 0x01B7];

/// Lines with an operand, and where its extension word stands.
const LINES: [(&str, u32); 4] = [
    ("LEA\t@\tAddress\t0", 2),
    ("MOVE\t@\tIndirect\t2\tLong", 2),
    ("BF\tFindFirstOne\t@\tImmediate\t1\tImmediate\t2\t3", 4),
    ("CMPI\t1\t@\tLong", 6),
];

/// How far past a line's first byte its target is.
const PAST: [i32; 4] = [0, 1, 2, -2];

const PC: u8 = 8;

pub fn all() -> Vec<Case> {
    let mut images = Vec::new();
    for (turn, line) in LINES.into_iter().enumerate() {
        for (other, start) in STARTS.into_iter().enumerate() {
            let past = PAST[(turn + other) % PAST.len()];
            for words in [&BRIEF[..], &FULL, &NULL, &SUPPRESSED] {
                images.push(with_words(start, line, words, past, |_| PC));
            }
        }
        let words = [&BRIEF[..], &FULL, &NULL, &SUPPRESSED].concat();
        images.push(with_words(4096, line, &words, 0, |at| at as u8 % PC));
    }
    images.iter().map(case).collect()
}

/// A line with each of the words, on the base that `base` gives of its place.
fn with_words(
    start: u32,
    (line, offset): (&str, u32),
    words: &[u16],
    past: i32,
    base: fn(usize) -> u8,
) -> Image {
    let spelled = |at: usize, displacement: i32| {
        let outer = outer(ExtensionWord(words[at]));
        let (base, word) = (base(at), words[at]);
        let operand = format!("Extended\t{base}\t{word}\t{displacement}\t{outer}");
        line.replace('@', &operand)
    };
    let places = 0..words.len();
    let sized: Vec<String> = places.clone().map(|at| spelled(at, 0)).collect();
    let addresses = addresses(start, &sized);
    let lines = places.map(|at| {
        let (own, word) = (addresses[at], ExtensionWord(words[at]));
        let from_pc = base(at) == PC && !word.base_suppressed();
        let null = word.is_full() && word.base_displacement_size() == DisplacementSize::Null;
        spelled(
            at,
            match (from_pc, null) {
                (true, true) => own.wrapping_add(offset) as i32,
                (true, false) => own.wrapping_add_signed(past) as i32,
                (false, true) => 0,
                (false, false) => unrelated(word, own),
            },
        )
    });
    image(start, &lines.collect::<Vec<String>>())
}

/// A displacement that is not measured from the PC: a line's address where it
/// has room.
fn unrelated(word: ExtensionWord, own: u32) -> i32 {
    match word.is_full() && word.base_displacement_size() == DisplacementSize::Long {
        true => own as i32,
        false => -128,
    }
}

fn outer(word: ExtensionWord) -> i32 {
    match word.outer_displacement_size() {
        DisplacementSize::Null => 0,
        DisplacementSize::Word => -32_768,
        DisplacementSize::Long => 2_147_483_647,
    }
}
