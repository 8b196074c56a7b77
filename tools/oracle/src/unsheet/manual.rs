//! Worked images written down by hand.

use super::case::Case;
use crate::manual::{parted, spelled_out};
use crate::stored::{self, Example};

const UNSHEETS: &str = include_str!("../../unsheets.txt");

/// The worked images in order.
pub fn examples() -> Vec<Example<Case>> {
    parted(UNSHEETS).map(example).collect()
}

fn example([what, lent, image, answer]: [&'static str; 4]) -> Example<Case> {
    Example {
        what,
        case: Case {
            lent: lent.parse().expect("a number"),
            payload: spelled_out(image).into_bytes(),
        },
        answer: spelled_out(answer),
    }
}

/// Checks every example; gives how many differ.
pub fn check() -> usize {
    stored::check("sheets of images", examples())
}
