//! Index words of every scale, and full ones, in each place of an instruction.

use crate::random::Random;
use crate::reading::run::Run;
use crate::values::ADDRESSES;

/// The words of an operand with an index: scales 1, 2, 4 and 8, and full words
/// without displacements, with two of a word and with two of a long.
const INDEXED: [&[u16]; 7] = [
    &[0x1004],
    &[0x1280],
    &[0x9C7F],
    &[0x1604],
    &[0x0110],
    &[0x9922, 0x8000, 0x7FFF],
    &[0x1F37, 0x0000, 0x0004, 0xFFFF, 0xFFFE],
];

/// MOVE of Byte, Word and Long, from D0 to D1.
const MOVES: [u16; 3] = [0x1200, 0x3200, 0x2200];

/// In its place a source of d8(A0,Xn) or d8(PC,Xn), a destination of d8(A1,Xn).
const SOURCES: [u16; 2] = [0x0030, 0x003B];
const DESTINATION: u16 = 0x0180;

/// First words whose operand has an index, and the words before the index word.
const OTHERS: [(u16, &[u16]); 29] = [
    (0x0030, &[0x0012]),
    (0x00B0, &[0x0001, 0x0002]),
    (0x0830, &[0x0007]),
    (0x083B, &[0x0007]),
    (0x013B, &[]),
    (0x0C30, &[0x0041]),
    (0x0C7B, &[0x1234]),
    (0x0CF0, &[0x0040]),
    (0x40F0, &[]),
    (0x42F0, &[]),
    (0x41B0, &[]),
    (0x4130, &[]),
    (0x41F0, &[]),
    (0x41FB, &[]),
    (0x48F0, &[0x0001]),
    (0x4CFB, &[0x8000]),
    (0x4A70, &[]),
    (0x4A7B, &[]),
    (0x4C30, &[0x2800]),
    (0x4EFB, &[]),
    (0x57F0, &[]),
    (0xC0FB, &[]),
    (0xD0B0, &[]),
    (0xD1B0, &[]),
    (0xE1F0, &[]),
    (0xE3F0, &[]),
    (0xE4F0, &[]),
    (0xE7F0, &[]),
    (0xE8F0, &[0x0001]),
];

pub fn indexed(random: &mut Random) -> Vec<Run> {
    let wholes = [single_moves(), double_moves(), others()].concat();
    let mut runs = Vec::new();
    for (number, words) in wholes.into_iter().enumerate() {
        let address = random.pick(&ADDRESSES);
        if number % 2 == 0 {
            let words = words[..words.len() - 1].to_vec();
            runs.push(Run { address, words });
        }
        runs.push(Run { address, words });
    }
    runs
}

/// An index in one place of a MOVE, at each size.
fn single_moves() -> Vec<Vec<u16>> {
    let mut found = Vec::new();
    for place in SOURCES.into_iter().chain([DESTINATION]) {
        for indexed in INDEXED {
            found.extend(MOVES.map(|first| [&[first | place][..], indexed].concat()));
        }
    }
    found
}

/// An index in both places of a MOVE, the sizes in turn.
fn double_moves() -> Vec<Vec<u16>> {
    let mut found = Vec::new();
    for source in SOURCES {
        for from in INDEXED {
            for to in INDEXED {
                let first = MOVES[found.len() % MOVES.len()] | source | DESTINATION;
                found.push([&[first][..], from, to].concat());
            }
        }
    }
    found
}

fn others() -> Vec<Vec<u16>> {
    let mut found = Vec::new();
    for (first, before) in OTHERS {
        found.extend(INDEXED.map(|indexed| [&[first][..], before, indexed].concat()));
    }
    found
}
