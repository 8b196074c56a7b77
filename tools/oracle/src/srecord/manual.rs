//! Worked S-records written down by hand.

use super::case::{Case, Way};
use crate::manual::{parted, spelled_out};
use crate::stored::{self, Example};

const SRECORDS: &str = include_str!("../../srecords.txt");

/// The worked images and texts in order.
pub fn examples() -> Vec<Example<Case>> {
    parted(SRECORDS).map(example).collect()
}

fn example([what, asked, payload, answer]: [&'static str; 4]) -> Example<Case> {
    let (way, lent) = asked.split_once(' ').expect("a way and what is lent");
    let way = way.parse().ok().and_then(Way::of_number);
    Example {
        what,
        case: Case {
            way: way.expect("a way"),
            lent: lent.parse().expect("a number"),
            payload: spelled_out(payload).into_bytes(),
        },
        answer: spelled_out(answer),
    }
}

/// Checks every example; gives how many differ.
pub fn check() -> usize {
    stored::check("texts of S-records", examples())
}
