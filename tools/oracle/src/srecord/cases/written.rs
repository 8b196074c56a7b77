//! Images to write.

use super::super::case::{Case, MOST_BYTES};
use super::START;
use crate::image::Image;

/// The bytes of a written data record without its data, of a closing one, and
/// of a record's most words.
const DATA_RECORD: usize = 15;
const CLOSING: usize = 15;
const WORDS: usize = 16;

/// Images of so many words are written with every length lent around theirs.
const AROUND: [usize; 11] = [0, 1, 2, 15, 16, 17, 31, 32, 33, 48, 100];

pub fn all() -> Vec<Case> {
    [lengths(), around(), starts(), ends(), values(), large()].concat()
}

fn image(start: u32, words: usize) -> Image {
    let words = (0..words).map(|at| (at * 0x1357 + 0x4E71) as u16);
    Image {
        start,
        words: words.collect(),
    }
}

fn enough(image: &Image) -> Case {
    Case::to_write(image, MOST_BYTES)
}

/// The bytes of the text of so many words.
pub fn bytes(words: usize) -> usize {
    4 * words + DATA_RECORD * words.div_ceil(WORDS) + CLOSING
}

/// 0 to 40 words, as much lent as is needed.
fn lengths() -> Vec<Case> {
    let cases = (0..=40).map(|words| Case::to_write(&image(START, words), bytes(words)));
    cases.collect()
}

fn around() -> Vec<Case> {
    let lent = |words| {
        let need = bytes(words);
        [
            0,
            1,
            CLOSING - 1,
            CLOSING,
            need - 1,
            need,
            need + 1,
            MOST_BYTES,
        ]
    };
    let cases = AROUND.into_iter().flat_map(|words| {
        let image = image(START, words);
        lent(words).map(|lent| Case::to_write(&image, lent))
    });
    cases.collect()
}

/// Starts at the ends of 8, 16, 24 and 32 bits, odd ones too.
fn starts() -> Vec<Case> {
    let mut cases = Vec::new();
    for bits in [0, 8, 16, 24, 31] {
        for by in [-3i64, -2, -1, 0, 1] {
            let start = (1i64 << bits) + by;
            if let Ok(start) = u32::try_from(start) {
                cases.extend([0, 1, 17].map(|words| enough(&image(start, words))));
            }
        }
    }
    cases
}

/// Ends around 2^32, with enough lent, one byte short and nothing.
fn ends() -> Vec<Case> {
    let mut cases = Vec::new();
    for words in [0, 1, 2, 15, 16, 17, 33] {
        for by in [-2i64, -1, 0, 1, 2] {
            let start = (1i64 << 32) - 2 * words as i64 + by;
            let Ok(start) = u32::try_from(start) else {
                continue;
            };
            let image = image(start, words);
            let lent = [0, bytes(words) - 1, bytes(words), MOST_BYTES];
            cases.extend(lent.map(|lent| Case::to_write(&image, lent)));
        }
    }
    cases
}

/// Words of all digits, and sums at the ends of a byte.
fn values() -> Vec<Case> {
    let mut words: Vec<u16> = (0..16).map(|digit| digit * 0x1111).collect();
    words.extend([0x00FF, 0xFF00, 0x0001, 0x0100, 0x7FFF, 0x8000]);
    let mut cases: Vec<Case> = words
        .iter()
        .map(|word| {
            enough(&Image {
                start: 0,
                words: vec![*word],
            })
        })
        .collect();
    cases.push(enough(&Image { start: 0, words }));
    cases.extend((0xF0..=0xFF).map(|word| {
        enough(&Image {
            start: 0,
            words: vec![word],
        })
    }));
    cases
}

/// Images of many records.
fn large() -> Vec<Case> {
    vec![
        enough(&image(0xFFFF_F000, 2_048)),
        enough(&image(0xFFFF_F001, 2_048)),
        Case::to_write(&image(0xFF00, 1_000), bytes(1_000)),
        Case::to_write(&image(0xFF00, 1_000), bytes(1_000) - 1),
    ]
}
