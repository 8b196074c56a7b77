//! Sheets at the ends of what a sheet may have: lines, bytes, and the distance
//! of a word branch.

use super::super::generate::{DENSE, SHORT};
use super::super::record::{Record, MOST_ROOM, PLACES};
use super::super::whole;
use super::{sheet, text};

const MOST_LINES: usize = 4_096;

/// The start from which as many NOPs as a sheet may have end at 2^32.
const LAST_START: u32 = (MOST_LINES as u32 * 2).wrapping_neg();

pub fn all() -> Vec<Record> {
    [lines(), bytes(), far()].concat()
}

/// 4,096 lines with an end at 2^32 and one past, a name past them, a place too
/// few, and 4,097 lines.
fn lines() -> Vec<Record> {
    let mut lines = vec!["NOP"; MOST_LINES];
    let exact = sheet(LAST_START, &lines);
    let mut short = exact.clone();
    short.places = MOST_LINES - 1;
    let beyond = sheet(LAST_START + 2, &lines);
    lines[0] = "BRA\t@4096\tWord";
    lines[MOST_LINES - 1] = "BRA\t@4097\tWord";
    let named = sheet(0, &lines);
    let more = sheet(0, &[&lines[..], &["NOP"]].concat());
    vec![exact, short, beyond, named, more]
}

/// 65,536 bytes and one more, otherwise acceptable.
fn bytes() -> Vec<Record> {
    let text = whole::sheet();
    let more = text.replacen("START\t4096\n", "START\t40960\n", 1);
    vec![Record::of_program(text), Record::of_program(more)]
}

/// Word branches of 32,766 and -32,768, of 32,768 and of -32,770.
fn far() -> Vec<Record> {
    vec![branches(0, 0), branches(2, 0), branches(2, 2)]
}

/// A branch to the last line, and one from the line before it to the first,
/// `more` bytes further than they reach; the forward one `nearer` by so many
/// lines.
fn branches(more: usize, nearer: usize) -> Record {
    let between = dense(32_760 + more);
    let last = between.len() + 4 - nearer;
    let lines = [
        vec!["NOP".to_string(), format!("BRA\t@{last}\tWord")],
        between,
        vec!["BRA\t@1\tWord".to_string(), "NOP".to_string()],
    ];
    Record::new(text("4096", &lines.concat()), PLACES, MOST_ROOM)
}

/// So many bytes of instructions in few enough lines and in a short text.
fn dense(bytes: usize) -> Vec<String> {
    let wide = bytes / 23;
    let left = bytes - 16 * wide;
    let lines = [(DENSE, wide), (SHORT, left / 4), ("NOP", left % 4 / 2)];
    let lines = lines.map(|(line, count)| vec![line.to_string(); count]);
    lines.concat()
}
