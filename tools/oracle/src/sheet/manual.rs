//! Worked sheets written down by hand, and those of the guide.

use super::record::Record;
use crate::manual::{parted, spelled_out};
use crate::stored::{self, Asked, Example};

const SHEETS: &str = include_str!("../../sheets.txt");
const GUIDE: &str = include_str!("../../guide.txt");

/// The worked sheets in order.
pub fn examples() -> Vec<Example<Record>> {
    read(SHEETS)
}

/// The sheets of the guide, docs/SHEET.md, in order.
pub fn guide() -> Vec<Example<Record>> {
    read(GUIDE)
}

fn read(text: &'static str) -> Vec<Example<Record>> {
    parted(text).map(example).collect()
}

fn example([what, lent, sheet, answer]: [&'static str; 4]) -> Example<Record> {
    let text = spelled_out(sheet);
    let header = format!("{} {lent}\n", text.len()).replace(' ', "\t");
    let list = header + &text;
    let (case, _) = Record::first(list.as_bytes()).expect("a case in the form");
    Example {
        what,
        case,
        answer: spelled_out(answer),
    }
}

/// Checks every example; gives how many differ.
pub fn check() -> usize {
    let examples = examples().into_iter().chain(guide());
    stored::check("sheets", examples.collect())
}
