use std::collections::{BTreeSet, HashSet};

use super::answer::{answer_line, text, NOT_68000};
use super::entries::{is_of_68000, not_marked};
use super::list;
use crate::answer::{lines, NOT_IN_FORM};
use crate::instructions::Instruction;
use crate::machine::Processor;
use crate::reading::answer::{answer_by, answer_line as first_line, text as first, NOTHING, SHORT};
use crate::reading::decoder::decoded;
use crate::reading::judge::{read, Reading};
use crate::reading::malformed;
use crate::reading::run::Run;
use crate::reading::sweep::runs;
use crate::schema::instructions;
use crate::written::place;

/// The variants that are never of the MC68000, in their order.
const REFUSED: [&str; 17] = [
    "MOVEfromCCR",
    "RTD",
    "BKPT",
    "MOVEC",
    "MOVES",
    "CHKL",
    "LINKL",
    "TRAPcc",
    "MULL",
    "PACK",
    "UNPK",
    "CHK2",
    "CMP2",
    "CAS",
    "CAS2",
    "BF",
    "DIVL",
];

/// The variants that have no reading.
const LEFT_OUT: [&str; 2] = ["IllegalWord", "SIMHALT"];

/// The headings, footnotes and index words that keep something out.
const MARKS: usize = 26;

fn stored() -> Vec<u8> {
    let mut text = Vec::new();
    list::write(68020, &mut text).expect("written");
    text
}

/// What the first reader reads in the stored list.
fn read_in_list() -> Vec<Instruction> {
    let text = stored();
    let runs = lines(&text).into_iter().filter_map(Run::of_line);
    let read = runs.filter_map(|run| match read(&run.words, run.address) {
        Reading::Read(instruction, _) => Some(instruction),
        _ => None,
    });
    read.collect()
}

#[test]
fn lines_outside_the_form_are_refused() {
    for line in malformed::lines().chain(malformed::raw_lines()) {
        assert_eq!(answer_line(line), NOT_IN_FORM, "{line:?}");
    }
}

#[test]
fn the_stored_list_has_its_kinds() {
    let text = stored();
    assert!(text.len() < 400_000);
    assert_ne!(text.last(), Some(&b'\n'));
    let lines = lines(&text);
    assert!((3_000..=6_000).contains(&lines.len()));
    assert_eq!(lines.iter().collect::<HashSet<_>>().len(), lines.len());
    let answers: Vec<String> = lines.iter().map(|line| answer_line(line)).collect();
    let count = |kind: &str| answers.iter().filter(|answer| *answer == kind).count();
    assert!(count(NOT_68000) > 900);
    assert!(count(SHORT) > 400);
    assert!(count(NOTHING) > 600);
    assert!(count(NOT_IN_FORM) > 60);
    let shown = answers.iter().filter(|answer| !answer.starts_with("ref"));
    assert!(shown.count() > 2_000);
}

#[test]
fn the_stored_list_shows_and_refuses_every_variant() {
    let read = read_in_list();
    let places = |is_shown: bool| -> BTreeSet<usize> {
        let kept = read.iter().filter(|read| is_of_68000(read) == is_shown);
        kept.map(place).collect()
    };
    let (shown, refused) = (places(true), places(false));
    for (place, variant) in instructions().iter().enumerate() {
        let never = REFUSED.contains(&variant.name);
        let left_out = LEFT_OUT.contains(&variant.name);
        assert_eq!(
            shown.contains(&place),
            !never && !left_out,
            "{}",
            variant.name
        );
        assert!(!never || refused.contains(&place), "{}", variant.name);
    }
    let marks: BTreeSet<&str> = read.iter().filter_map(not_marked).collect();
    assert_eq!(marks.len(), MARKS, "{marks:?}");
}

#[test]
fn answers_are_the_first_reader_s_or_15() {
    let agrees = |second: &str, first: &str| match second {
        NOT_68000 => !first.starts_with("ref"),
        _ => second == first,
    };
    for run in runs(17, 4).step_by(7) {
        let (second, first) = (answer_by(text, &run), answer_by(first, &run));
        assert!(agrees(&second, &first), "{}", run.line());
    }
    for line in lines(&stored()) {
        let (second, first) = (answer_line(line), first_line(line));
        assert!(agrees(&second, &first), "{line:?}");
    }
}

/// What decode.rs reads for the MC68000 as the first reader does is shown, and
/// nothing else, but for $FFFF before $FFFF.
#[test]
fn the_marks_are_those_of_the_decoder() {
    for run in runs(19, 6).step_by(3) {
        let Reading::Read(instruction, bytes) = read(&run.words, run.address) else {
            continue;
        };
        let old = decoded(&run, Processor::M68000).expect("enough words");
        let alike = old.instruction == instruction && old.size as usize == bytes;
        let simhalt = run.words.starts_with(&[0xFFFF, 0xFFFF]);
        assert_eq!(
            is_of_68000(&instruction),
            alike || simhalt,
            "{}",
            run.line()
        );
    }
}
