//! Starts and ends: odd, at 2^32 and past it, and images without words.

use super::super::case::Case;
use super::case;
use crate::image::Image;

const NOP: u16 = 0x4E71;

/// Words with what comes after 9: nothing, 5, 6, 16, and a sheet.
const WORDS: [&[u16]; 7] = [
    &[],
    &[NOP],
    &[0x203C],
    &[0x4AFB],
    &[0x6010],
    &[0x60FE],
    &[NOP, 0x41FA, 0xFFFC, 0x67F8],
];

const STARTS: [u32; 14] = [
    0,
    1,
    2,
    3,
    4095,
    4096,
    4097,
    0x7FFF_FFFE,
    0x7FFF_FFFF,
    0x8000_0000,
    0xFFFF_FFF8,
    0xFFFF_FFFC,
    0xFFFF_FFFE,
    0xFFFF_FFFF,
];

/// How many NOPs end at 2^32, and one past.
const COUNTS: [usize; 6] = [1, 2, 3, 16, 100, 1_000];

/// Words that have their targets on the other side of 2^32, and at 0.
const ACROSS: [&[u16]; 8] = [
    &[0x4EFA, 0x0002],
    &[0x4EFA, 0x0004],
    &[0x4EBB, 0x0002],
    &[0x4EBA, 0x8000],
    &[0x6000, 0x0002],
    &[0x60FF, 0x8000, 0x0000],
    &[0x51C8, 0x0002],
    &[0x41FB, 0x0170, 0x7FFF, 0xFFFF],
];

pub fn all() -> Vec<Case> {
    let mut images = Vec::new();
    for start in STARTS {
        images.extend(WORDS.map(|words| at(start, words)));
    }
    for count in COUNTS {
        let start = (1u64 << 32) - 2 * count as u64;
        let words = vec![NOP; count];
        images.push(at(start as u32, &words));
        images.push(at(start as u32, &[&words[..], &[NOP]].concat()));
        images.push(at(start as u32 + 1, &words));
    }
    for words in ACROSS {
        let bytes = 2 * words.len() as u32;
        images.push(at(bytes.wrapping_neg(), words));
        images.push(at(0, words));
    }
    images.iter().map(case).collect()
}

fn at(start: u32, words: &[u16]) -> Image {
    let words = words.to_vec();
    Image { start, words }
}
