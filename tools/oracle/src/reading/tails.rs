//! Words to stand after a first word.

use super::judge::MOST_WORDS;
use crate::random::Random;
use crate::values::{brief_word, full_word};

/// Tails that end a cut run; if any makes it read, the run is short.
pub const COMPLETIONS: [[u16; MOST_WORDS]; 5] = [
    [0; MOST_WORDS],
    [1; MOST_WORDS],
    [0x0110; MOST_WORDS],
    [0x1000; MOST_WORDS],
    [0xFFFF; MOST_WORDS],
];

/// How many words a tail has: one more than the longest instruction leaves.
pub const LENGTH: usize = MOST_WORDS;

#[derive(Clone, Copy)]
enum Kind {
    Zero,
    Ones,
    /// A number of eight bits: an immediate byte, a bit number.
    Small,
    /// A brief extension word.
    Brief,
    /// A full extension word that is canonical.
    Full,
    /// A second word without unused bits of MULL, CAS and the like.
    Second,
    Any,
}

/// The bits that some instruction's second word uses: MULL and DIVL, MOVES,
/// CHK2 and CMP2, CAS, CAS2 and the bit fields with neither, either and both
/// of their registers.
const USED: [u16; 9] = [
    0x7800, 0x7C07, 0xF800, 0x01C7, 0xF1C7, 0x77DF, 0x79DF, 0x77E7, 0x79E7,
];

/// The first tails: the kind of the second word, and of the others.
const FIRST: [(Kind, Kind); 10] = [
    (Kind::Zero, Kind::Zero),
    (Kind::Ones, Kind::Ones),
    (Kind::Small, Kind::Small),
    (Kind::Brief, Kind::Brief),
    (Kind::Full, Kind::Full),
    (Kind::Small, Kind::Full),
    (Kind::Second, Kind::Brief),
    (Kind::Second, Kind::Full),
    (Kind::Any, Kind::Any),
    (Kind::Small, Kind::Brief),
];

const MIXED: [Kind; 7] = [
    Kind::Zero,
    Kind::Ones,
    Kind::Small,
    Kind::Brief,
    Kind::Full,
    Kind::Second,
    Kind::Any,
];

/// The tail numbered `number`: one of the first, and then mixed ones.
pub fn tail(number: usize, random: &mut Random) -> Vec<u16> {
    match FIRST.get(number) {
        Some((second, others)) => {
            let mut tail: Vec<u16> = (0..LENGTH).map(|_| word(*others, random)).collect();
            tail[0] = word(*second, random);
            tail
        }
        None => mixed(LENGTH, random),
    }
}

/// Words of kinds taken at random.
pub fn mixed(length: usize, random: &mut Random) -> Vec<u16> {
    (0..length)
        .map(|_| {
            let kind = random.pick(&MIXED);
            word(kind, random)
        })
        .collect()
}

fn word(kind: Kind, random: &mut Random) -> u16 {
    let any = random.next() as u16;
    match kind {
        Kind::Zero => 0,
        Kind::Ones => 0xFFFF,
        Kind::Small => any & 0xFF,
        Kind::Brief => brief_word(random) as u16,
        Kind::Full => full_word(random) as u16,
        Kind::Second => any & random.pick(&USED),
        Kind::Any => any,
    }
}
