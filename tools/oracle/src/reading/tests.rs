use std::collections::HashSet;

use super::answer::{answer_line, NOTHING, SHORT};
use super::back::due;
use super::judge::{exact, read, Reading, MOST_WORDS};
use super::plain::plain;
use super::run::Run;
use super::sweep::runs;
use super::{list, malformed};
use crate::answer::{lines, NOT_IN_FORM};
use crate::generate;
use crate::machine::encode::encode;
use crate::numeric::placed;
use crate::random::Random;
use crate::schema::instructions;
use crate::written::{numbers, place};

/// Generated lines looked through.
const GENERATED: usize = 100_000;

/// What is due for the accepted generated lines.
fn accepted() -> impl Iterator<Item = (String, super::back::Due)> {
    let mut random = Random::new(5);
    let lines = generate::lines(3).take(GENERATED);
    lines.filter_map(move |line| due(&line, &mut random).map(|due| (line, due)))
}

#[test]
fn lines_outside_the_form_are_refused() {
    for line in malformed::lines().chain(malformed::raw_lines()) {
        assert_eq!(answer_line(line), NOT_IN_FORM, "{line:?}");
    }
}

#[test]
fn the_ends_of_the_form_are_in_it() {
    for line in ["0", "4294967295", "0\t0000", "4294967295\tFFFF\tabcd\tEf09"] {
        assert_ne!(answer_line(line.as_bytes()), NOT_IN_FORM, "{line}");
    }
    let run = Run::of_line(b"4096\t4e71\tAbCd").expect("in the form");
    assert_eq!(run.line(), "4096\t4E71\tABCD");
}

#[test]
fn accepted_instructions_read_as_their_plain_form() {
    for (line, due) in accepted() {
        let found = read(&due.run.words, due.run.address);
        assert_eq!(found, Reading::Read(due.instruction, due.bytes), "{line}");
    }
}

#[test]
fn proper_beginnings_are_short() {
    for (line, due) in accepted().step_by(10) {
        for length in 0..due.bytes / 2 {
            let found = read(&due.run.words[..length], due.run.address);
            assert_eq!(found, Reading::Short, "{line}, {length} words");
        }
    }
}

#[test]
fn plain_form_keeps_the_words_and_is_its_own_plain_form() {
    for (line, due) in accepted() {
        let words = encode(&due.instruction, due.run.address).expect("accepted");
        assert_eq!(words, due.run.words[..due.bytes / 2], "{line}");
        assert_eq!(plain(due.instruction), due.instruction, "{line}");
    }
}

#[test]
fn every_variant_but_two_is_read() {
    let read: HashSet<usize> = accepted().map(|(_, due)| place(&due.instruction)).collect();
    let names = instructions().iter().enumerate();
    let missing: Vec<&str> = names
        .filter(|(place, _)| !read.contains(place))
        .map(|(_, variant)| variant.name)
        .collect();
    assert_eq!(missing, ["IllegalWord", "SIMHALT"]);
}

#[test]
fn the_written_form_reads_back() {
    for (line, due) in accepted() {
        let again = format!("{}\t{}", due.run.address, numbers(&due.instruction));
        let again = placed(again.as_bytes()).expect("in the form");
        assert_eq!(again.instruction, due.instruction, "{line}");
    }
}

#[test]
fn at_most_one_beginning_is_an_encoding() {
    let whole = |run: &Run| run.words.len() > MOST_WORDS;
    for run in runs(9, 9).filter(whole).step_by(3) {
        let lengths = 1..=MOST_WORDS;
        let reading = lengths.filter(|length| exact(&run.words[..*length], run.address).is_some());
        assert!(reading.count() <= 1, "{}", run.line());
    }
}

#[test]
fn what_reads_encodes_to_its_beginning() {
    for run in runs(11, 4).step_by(7) {
        if let Reading::Read(instruction, bytes) = read(&run.words, run.address) {
            let words = encode(&instruction, run.address).expect("accepted");
            assert_eq!(words, run.words[..bytes / 2], "{}", run.line());
        }
    }
}

#[test]
fn the_stored_list_has_its_kinds() {
    let mut text = Vec::new();
    list::write(68020, &mut text).expect("written");
    assert!(text.len() < 1 << 20);
    assert_ne!(text.last(), Some(&b'\n'));
    let answers: Vec<String> = lines(&text).iter().map(|line| answer_line(line)).collect();
    assert!((8_000..=13_000).contains(&answers.len()));
    let count = |kind: &str| answers.iter().filter(|answer| *answer == kind).count();
    assert!(count(SHORT) > 500);
    assert!(count(NOTHING) > 1_500);
    assert!(count(NOT_IN_FORM) > 60);
    let read = answers.iter().filter(|answer| !answer.starts_with("ref"));
    let places: HashSet<&str> = read
        .filter_map(|answer| answer.split('\t').next())
        .collect();
    assert_eq!(places.len(), instructions().len() - 2);
}
