//! Random images: of sheets, of instructions and of words that read, and ones
//! with something spoiled.

use super::back::translated;
use super::case::{Case, MOST_LENT};
use super::judge::{unsheet, MOST_BYTES, MOST_LINES};
use super::spoil::spoiled;
use crate::answer::answer;
use crate::fill::{accepted, draft};
use crate::generate::random_address;
use crate::image::Image;
use crate::numeric::placed;
use crate::random::Random;
use crate::reading::judge::{read, Reading, MOST_WORDS};
use crate::reading::tails::mixed;
use crate::sheet::generate::{places, sheet};

/// Drafts tried until one is accepted.
const TRIES: u32 = 120;

/// Instructions of an image that is not made of a sheet.
const MOST: i128 = 30;

/// One image in so many has about as many lines as a sheet may have.
const RARE: u64 = 300;

const NOP: u16 = 0x4E71;

/// An image with what is lent, half of them as they were made.
pub fn case(random: &mut Random) -> Case {
    let mut image = image(random);
    if random.chance(50) {
        spoiled(&mut image, random);
    }
    let need = unsheet(&image, MOST_LENT).map_or(0, |text| text.len());
    Case::new(&image, lent(need, random))
}

fn image(random: &mut Random) -> Image {
    if random.below(RARE) == 0 {
        return of_many_lines(random);
    }
    match random.below(10) {
        0..=6 => of_sheet(random),
        7 => of_runs(instruction, random),
        _ => of_runs(run, random),
    }
}

/// The image of an accepted sheet.
pub fn of_sheet(random: &mut Random) -> Image {
    let mut images = std::iter::repeat_with(|| translated(sheet(random).text()));
    let found = images.find_map(|image| image);
    found.expect("most sheets are short enough")
}

fn of_many_lines(random: &mut Random) -> Image {
    let most = MOST_LINES as i128;
    let count = random.between(most - 3, most + 3) as usize;
    Image {
        start: random.between(0, 0x7000_0000) as u32 * 2,
        words: vec![NOP; count],
    }
}

/// Runs of words one after the other.
fn of_runs(run: fn(&mut Random) -> Vec<u16>, random: &mut Random) -> Image {
    let count = random.between(1, MOST);
    let words: Vec<u16> = (0..count).flat_map(|_| run(random)).collect();
    let last = (1u64 << 32) - 2 * words.len() as u64;
    let start = random_address(random) & 0xFFFF_FFFE;
    Image {
        start: (start as u64).min(last) as u32,
        words,
    }
}

/// The words of an accepted instruction.
fn instruction(random: &mut Random) -> Vec<u16> {
    let place = random.pick(&places());
    let address = random_address(random);
    let draft = accepted(TRIES, || draft(place, address, random));
    let placed = placed(draft.line().as_bytes()).expect("a draft is in the form");
    answer(&placed).words.unwrap_or(vec![NOP])
}

/// Words that read, whatever they are; few of them are branches.
fn run(random: &mut Random) -> Vec<u16> {
    let first = random.next() as u16;
    let branch = first & 0xF000 == 0x6000;
    let mut words = [vec![first], mixed(MOST_WORDS - 1, random)].concat();
    match read(&words, 0) {
        Reading::Read(_, bytes) if !branch || random.chance(5) => words.truncate(bytes / 2),
        _ => words = vec![NOP],
    }
    words
}

/// What is lent where `need` is needed: mostly enough.
fn lent(need: usize, random: &mut Random) -> usize {
    let lent = match random.below(40) {
        0..=9 => need,
        10..=13 => need + 1,
        14..=17 => need.saturating_sub(1),
        18 => 0,
        19 => random.below(need as u64 + 1) as usize,
        20..=29 => MOST_BYTES,
        _ => MOST_LENT,
    };
    lent.min(MOST_LENT)
}
