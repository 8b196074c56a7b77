//! Images with something spoiled; their sheets may still be found.

use crate::image::Image;
use crate::random::Random;

/// Words that begin branches and long instructions, or do not read.
const WORDS: [u16; 12] = [
    0x4AFB, 0x7100, 0x4AFC, 0x4E71, 0x203C, 0x6000, 0x60FF, 0x60FE, 0x6602, 0x51C8, 0x41FB, 0x0000,
];

/// Spoils a word or the start, once or twice.
pub fn spoiled(image: &mut Image, random: &mut Random) {
    for _ in 0..random.between(1, 2) {
        match random.below(8) {
            0 => spoil_start(image, random),
            _ => spoil_word(image, random),
        }
    }
}

/// An odd start, one moved, and an end around 2^32.
fn spoil_start(image: &mut Image, random: &mut Random) {
    let last = (1u64 << 32) - 2 * image.words.len() as u64;
    image.start = match random.below(4) {
        0 => image.start | 1,
        1 => {
            image
                .start
                .wrapping_add_signed(random.between(-40, 40) as i32)
                & 0xFFFF_FFFE
        }
        2 => last.min(u32::MAX as u64) as u32,
        _ => (last + random.between(1, 4) as u64).min(u32::MAX as u64) as u32,
    };
}

/// A word changed, put in or taken out, or the rest cut off.
fn spoil_word(image: &mut Image, random: &mut Random) {
    let words = &mut image.words;
    let at = random.below(words.len() as u64 + 1) as usize;
    let word = match random.chance(50) {
        true => random.pick(&WORDS),
        false => random.next() as u16,
    };
    match (random.below(8), at < words.len()) {
        (0, _) => words.truncate(at),
        (1..=2, true) => drop(words.remove(at)),
        (3, true) => words[at] = word,
        (4..=5, true) => words[at] ^= 1 << random.below(16),
        (6, true) => words[at] = words[at].wrapping_add_signed(random.pick(&[-4, -2, 2, 4])),
        _ => words.insert(at, word),
    }
}
