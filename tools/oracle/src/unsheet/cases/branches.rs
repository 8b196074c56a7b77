//! Branches of every kind and size to lines, into them, and outside them.

use super::super::case::Case;
use super::{addresses, case, image, laid, STARTS};
use crate::image::Image;

/// The conditions of a Bcc; a DBcc has True and False too.
const CONDITIONS: [&str; 14] = [
    "High",
    "LowOrSame",
    "CarryClear",
    "CarrySet",
    "NotEqual",
    "Equal",
    "OverflowClear",
    "OverflowSet",
    "Plus",
    "Minus",
    "GreaterThanOrEqual",
    "LessThan",
    "GreaterThan",
    "LessThanOrEqual",
];

const SIZES: [&str; 3] = ["Short", "Word", "Long"];

/// Lines around a branch, which is the third.
const BEFORE: [&str; 2] = ["NOP", "MOVE\tImmediate\t305419896\tRegister\tData\t3\tLong"];
const AFTER: [&str; 2] = ["LEA\tAbsolute\t1638404\tLong\tAddress\t6", "RTS"];

/// A line counted from 0, the end being one more, and the bytes past its first.
const TARGETS: [(usize, i32); 27] = [
    (0, 0),
    (0, 1),
    (0, -1),
    (0, -2),
    (0, -100),
    (0, -32_000),
    (1, 0),
    (1, 1),
    (1, 2),
    (1, 4),
    (2, 0),
    (2, 1),
    (2, 2),
    (2, 4),
    (3, 0),
    (3, 2),
    (3, 4),
    (4, 0),
    (4, 1),
    (5, 0),
    (5, 1),
    (5, 2),
    (5, 32_000),
    (5, 1_000_000),
    (0, 65_536),
    (2, -65_536),
    (4, i32::MIN),
];

/// A target that no branch of these images lands on.
const NOWHERE: (usize, i32) = (1, 2);

pub fn all() -> Vec<Case> {
    let images = landings().into_iter().chain(in_rows());
    let images = images.chain([conditions()]);
    images.map(|image| case(&image)).collect()
}

/// A branch of each kind and size with the target left open, one for each
/// `turn` of the conditions.
fn branches(turn: usize) -> Vec<String> {
    let condition = CONDITIONS[turn % CONDITIONS.len()];
    let sized = SIZES.iter().flat_map(|size| {
        [
            format!("BRA\t@0\t{size}"),
            format!("BSR\t@0\t{size}"),
            format!("Bcc\t@0\t{condition}\t{size}"),
        ]
    });
    let counted = format!("DBcc\tData\t{}\t@0\t{condition}", turn % 8);
    sized.chain([counted]).collect()
}

/// Each branch to each target that it reaches.
fn landings() -> Vec<Image> {
    let mut found = Vec::new();
    for (turn, target) in TARGETS.into_iter().enumerate() {
        for (kind, branch) in branches(turn).iter().enumerate() {
            let start = STARTS[(turn + kind) % STARTS.len()];
            let lines = [&BEFORE[..], &[branch], &AFTER].concat();
            found.extend(landing(start, &lines, target));
        }
    }
    found
}

fn landing(start: u32, lines: &[&str], target: (usize, i32)) -> Option<Image> {
    let line = addresses(start, lines)[target.0];
    laid(start, lines, line.wrapping_add_signed(target.1))
}

/// Branches one after the other: each in its turn is the only one astray, the
/// first astray, and the last one right.
fn in_rows() -> Vec<Image> {
    let right: Vec<String> = branches(3)
        .iter()
        .map(|line| line.replace("@0", "@2"))
        .collect();
    let astray = branches(3);
    let mut found = vec![row(right.clone())];
    for at in 0..right.len() {
        let only = [&right[..at], &astray[at..=at], &right[at + 1..]];
        found.push(row(only.concat()));
        found.push(row([&right[..at], &astray[at..]].concat()));
        found.push(row([&astray[..at], &right[at..]].concat()));
    }
    found
}

fn row(branches: Vec<String>) -> Image {
    let before = BEFORE.map(String::from).to_vec();
    let lines = [before, branches, AFTER.map(String::from).to_vec()].concat();
    let lines: Vec<&str> = lines.iter().map(String::as_str).collect();
    landing(4096, &lines, NOWHERE).expect("near enough")
}

/// Every condition of Bcc at every size, each to itself, and of DBcc.
fn conditions() -> Image {
    let mut lines = Vec::new();
    for condition in CONDITIONS {
        for size in SIZES {
            lines.push(format!("Bcc\t@{}\t{condition}\t{size}", lines.len() + 1));
        }
    }
    for condition in CONDITIONS.iter().chain(&["True", "False"]) {
        lines.push(format!("DBcc\tData\t7\t@1\t{condition}"));
    }
    image(4096, &lines)
}
