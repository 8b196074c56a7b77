//! The sheet of an image, or its refusal, as the change request has them.

use std::collections::HashMap;

use super::spell::spelled;
use crate::image::Image;
use crate::instructions::Instruction;
use crate::reading::judge::{read, Reading};

/// No address is at or past it.
const ADDRESSES: u64 = 1 << 32;

pub const MOST_BYTES: usize = 65_536;
pub const MOST_LINES: usize = 4_096;

/// A refusal's number, and the place that it names, 0 where none.
#[derive(Debug, Clone, Copy, PartialEq, Eq)]
pub struct Refused {
    pub number: u32,
    pub place: usize,
}

/// What is read at a place, which counts words from 0.
struct Read {
    place: usize,
    instruction: Instruction,
}

fn unless(holds: bool, number: u32, place: usize) -> Result<(), Refused> {
    holds.then_some(()).ok_or(Refused { number, place })
}

/// The text with so many bytes lent; 9, then 5 or 6 along the image, then 10,
/// 16 and 17.
pub fn unsheet(image: &Image, lent: usize) -> Result<String, Refused> {
    let even = image.start % 2 == 0;
    unless(even && image.end() <= ADDRESSES, 9, 0)?;
    let lines = lines(image)?;
    unless(lines.len() <= MOST_LINES, 10, 0)?;
    let numbers = numbers(image, &lines);
    for line in &lines {
        let target = branch_target(&line.instruction);
        let lands = target.is_none_or(|target| numbers.contains_key(&target));
        unless(lands, 16, line.place)?;
    }
    let text = text(image, &lines, &numbers);
    unless(text.len() <= MOST_BYTES && text.len() <= lent, 17, 0)?;
    Ok(text)
}

fn address(image: &Image, place: usize) -> u32 {
    (image.start as u64 + 2 * place as u64) as u32
}

/// The instructions one after the other; 5 and 6. An empty image is cut.
fn lines(image: &Image) -> Result<Vec<Read>, Refused> {
    unless(!image.words.is_empty(), 5, 0)?;
    let mut lines = Vec::new();
    let mut place = 0;
    while place < image.words.len() {
        let (instruction, words) = match read(&image.words[place..], address(image, place)) {
            Reading::Read(instruction, bytes) => (instruction, bytes / 2),
            Reading::Short => return Err(Refused { number: 5, place }),
            Reading::Nothing => return Err(Refused { number: 6, place }),
        };
        lines.push(Read { place, instruction });
        place += words;
    }
    Ok(lines)
}

/// The number of each line, from 1, by the address of its first word.
fn numbers(image: &Image, lines: &[Read]) -> HashMap<u32, usize> {
    let lines = lines.iter().zip(1..);
    lines
        .map(|(line, number)| (address(image, line.place), number))
        .collect()
}

fn branch_target(instruction: &Instruction) -> Option<u32> {
    use Instruction::*;
    match *instruction {
        BRA(target, _) | BSR(target, _) | Bcc(target, ..) | DBcc(_, target, _) => Some(target),
        _ => None,
    }
}

fn text(image: &Image, lines: &[Read], numbers: &HashMap<u32, usize>) -> String {
    let lands = |target| numbers.get(&target).copied();
    let lines = lines
        .iter()
        .map(|line| format!("{}\n", spelled(&line.instruction, lands)));
    format!("START\t{}\n{}", image.start, lines.collect::<String>())
}
