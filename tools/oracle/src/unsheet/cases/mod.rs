//! The cases of the stored list that are made by rule.

pub mod bounds;
pub mod branches;
pub mod broken;
pub mod extended;
pub mod instructions;
pub mod large;
pub mod lent;
pub mod order;
pub mod sheets;
pub mod targets;

use super::case::{Case, MOST_LENT};
use crate::answer::answer;
use crate::image::Image;
use crate::sheet::generate::draft_of;
use crate::sheet::line::Line;
use crate::sheet::made::words;

/// Where the images of lines begin: near 0, in the middle, on both sides of
/// 2^31 and near 2^32.
const STARTS: [u32; 5] = [0, 4096, 0x7FFF_FFF0, 0x8000_0000, 0xFFFF_FE00];

/// An image with as much lent as can be.
fn case(image: &Image) -> Case {
    Case::new(image, MOST_LENT)
}

/// The addresses of lines from a start on, and of the end.
fn addresses(start: u32, lines: &[impl AsRef<str>]) -> Vec<u32> {
    let mut addresses = vec![start];
    let mut next = start;
    for line in lines {
        next = next.wrapping_add(2 * words(&draft_of(line.as_ref())) as u32);
        addresses.push(next);
    }
    addresses
}

/// The image of lines, in which `@0` is a target and other names are of lines;
/// none where a line does not reach its target.
fn laid(start: u32, lines: &[impl AsRef<str>], target: u32) -> Option<Image> {
    let addresses = addresses(start, lines);
    let named = |name: usize| match name {
        0 => target,
        _ => addresses[name - 1],
    };
    let mut image = Image {
        start,
        words: Vec::new(),
    };
    for (line, address) in lines.iter().zip(&addresses) {
        let line = Line::of_text(line.as_ref().as_bytes()).expect("in the form");
        let placed = line.placed(*address, named).expect("in the form");
        image.words.extend(answer(&placed).words.ok()?);
    }
    Some(image)
}

/// The image of lines that all encode.
fn image(start: u32, lines: &[impl AsRef<str>]) -> Image {
    laid(start, lines, start).expect("every line encodes")
}
