//! Random images, texts of them in records of any kinds, and ones with
//! something spoiled.

use super::case::{Case, Way, MOST_WORDS};
use super::judge::write;
use super::record::{most_data, record, takes, text, Record};
use super::spoil::{spoiled_records, spoiled_text};
use crate::image::Image;
use crate::random::Random;
use crate::values::ADDRESSES;

const PLACES: u64 = 1 << 32;

/// Words within which an image begins near 2^16, 2^24 or 2^32.
const NEAR: i128 = 80;

/// An image whose end is at 2^32 or before.
pub fn image(random: &mut Random) -> Image {
    let start = start(random);
    let left = (PLACES - start as u64) / 2;
    let count = count(random).min(left as usize);
    let words = (0..count).map(|_| word(random)).collect();
    Image { start, words }
}

fn start(random: &mut Random) -> u32 {
    let near = |bits: u32, random: &mut Random| {
        let before = random.between(-8, 2 * NEAR);
        ((1i128 << bits) - before).clamp(0, u32::MAX as i128) as u32
    };
    match random.below(20) {
        0..=3 => random.pick(&ADDRESSES),
        4..=8 => random.below(1 << 16) as u32 & !1,
        9..=10 => random.below(1 << 24) as u32,
        11..=12 => near(16, random),
        13..=14 => near(24, random),
        15..=17 => near(32, random),
        _ => random.next() as u32,
    }
}

fn count(random: &mut Random) -> usize {
    let most = match random.below(400) {
        0..=219 => 24,
        220..=339 => 100,
        340..=394 => 600,
        395..=398 => 5_000,
        _ => MOST_WORDS as u64,
    };
    match random.chance(2) {
        true => most as usize,
        false => random.below(most + 1) as usize,
    }
}

fn word(random: &mut Random) -> u16 {
    match random.below(8) {
        0 => 0,
        1 => 0xFFFF,
        _ => random.next() as u16,
    }
}

/// The records of an image: any kinds that take their addresses, of any whole
/// words, some of none.
pub fn records(image: &Image, random: &mut Random) -> Vec<Record> {
    let bytes = image.bytes();
    let usual = random.pick(&[2, 4, 16, 16, 28, 32, 32, 250]);
    let (mut at, mut records) = (0, Vec::new());
    while at < bytes.len() || random.chance(5) {
        let address = image.start as u64 + at as u64;
        let Some(kind) = kind(&[1, 2, 3], address, random) else {
            break;
        };
        let most = most_data(kind).min(bytes.len() - at);
        let data = &bytes[at..at + length(usual, most, random)];
        records.push(record(kind, address as u32, data));
        at += data.len();
    }
    let closing = kind(&[7, 8, 9], image.start as u64, random);
    records.push(record(closing.unwrap_or(7), image.start, &[]));
    records
}

/// One of the kinds that take the address.
fn kind(kinds: &[u8], address: u64, random: &mut Random) -> Option<u8> {
    let kinds = kinds.iter().copied();
    let kinds: Vec<u8> = kinds.filter(|kind| takes(*kind, address)).collect();
    (!kinds.is_empty()).then(|| random.pick(&kinds))
}

/// An even number up to `most`, which is even.
fn length(usual: usize, most: usize, random: &mut Random) -> usize {
    match random.below(40) {
        0 => 0,
        1..=3 => most,
        4..=9 => 2 * random.below(most as u64 / 2 + 1) as usize,
        _ => usual.min(most),
    }
}

/// A case to write or to read, of the latter four in ten as they were made.
pub fn case(random: &mut Random) -> Case {
    match random.chance(30) {
        true => written(random),
        false => read(random),
    }
}

/// An image to write, one in eight of an end above 2^32.
fn written(random: &mut Random) -> Case {
    let mut image = image(random);
    if random.below(8) == 0 {
        let more = random.between(1, 8) as u64;
        let start = PLACES + more - 2 * image.words.len() as u64;
        image.start = start.min(u32::MAX as u64) as u32;
    }
    let need = write(&image, usize::MAX).map_or(0, |text| text.len());
    Case::to_write(&image, lent(need, Way::Write, random))
}

fn read(random: &mut Random) -> Case {
    let image = image(random);
    let mut records = records(&image, random);
    let kind = random.below(10);
    if (4..7).contains(&kind) {
        spoiled_records(&mut records, random);
    }
    let mut text = text(&records);
    if kind >= 7 {
        spoiled_text(&mut text, random);
    }
    Case::to_read(text, lent(image.words.len(), Way::Read, random))
}

/// What is lent where `need` is needed: mostly enough.
fn lent(need: usize, way: Way, random: &mut Random) -> usize {
    let lent = match random.below(40) {
        0..=9 => need,
        10..=13 => need + 1,
        14..=16 => need.saturating_sub(1),
        17 => 0,
        18 => random.below(need as u64 + 1) as usize,
        _ => way.most(),
    };
    lent.min(way.most())
}
