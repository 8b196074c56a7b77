use std::collections::BTreeSet;

use super::answer::answer;
use super::case::{Case, Way, MOST_BYTES, MOST_WORDS};
use super::cases::{faults, order, written};
use super::generate::{image, records};
use super::judge::{read, write};
use super::outside;
use super::record::text;
use super::{list, manual};
use crate::image::Image;
use crate::random::Random;
use crate::stored::{checks, of_feeds};

const SEED: u64 = 68020;

/// The number and the line of the refusal of a text with this much lent.
fn refused(text: &[u8], lent: usize) -> Option<(u32, usize)> {
    let refused = read(text, lent).err();
    refused.map(|refused| (refused.number, refused.line))
}

/// Checks a text with enough, with little and with nothing lent.
fn check(text: &[u8], due: (u32, usize)) {
    for lent in [0, 4, MOST_WORDS] {
        assert_eq!(refused(text, lent), Some(due), "{}", text.escape_ascii());
    }
}

#[test]
fn worked_texts_are_enough() {
    assert!(manual::examples().len() >= 40);
    assert_eq!(manual::check(), 0);
}

#[test]
fn each_fault_is_refused_in_its_place() {
    let places = || (1..=faults::PLACES).cycle();
    for (number, texts) in [
        (12, faults::texts(&faults::FORM)),
        (13, faults::texts(&faults::SUM)),
        (14, faults::texts(&faults::PAST)),
    ] {
        for (text, line) in texts.iter().zip(places()) {
            check(text, (number, line));
        }
    }
    for (text, line) in faults::texts(&faults::MOVED).iter().zip(places()) {
        check(text, (14, line.max(2)));
    }
}

#[test]
fn the_earlier_record_wins_and_then_the_order_of_its_checks() {
    for (text, due) in order::together().iter().chain(&order::apart()) {
        check(text, *due);
    }
}

#[test]
fn a_written_text_reads_back() {
    let mut random = Random::new(SEED);
    for _ in 0..2_000 {
        let image = image(&mut random);
        let text = write(&image, written::bytes(image.words.len())).expect("accepted");
        assert_eq!(text.len(), written::bytes(image.words.len()));
        assert_eq!(read(text.as_bytes(), image.words.len()), Ok(image));
    }
}

#[test]
fn records_of_any_kinds_read_back() {
    let mut random = Random::new(SEED);
    for _ in 0..2_000 {
        let image = image(&mut random);
        let text = text(&records(&image, &mut random));
        let need = image.words.len();
        if need > 0 {
            assert_eq!(refused(&text, need - 1), Some((11, 0)));
        }
        assert_eq!(read(&text, need), Ok(image));
    }
}

#[test]
fn images_read_back_from_their_lines() {
    let mut random = Random::new(SEED);
    for _ in 0..2_000 {
        let image = image(&mut random);
        assert_eq!(Image::of_line(image.line().as_bytes()), Some(image));
    }
}

#[test]
fn every_end_is_judged_before_what_is_lent() {
    for (start, words, due) in [
        (u32::MAX, 0, None),
        (u32::MAX, 1, Some(9)),
        (u32::MAX - 1, 1, None),
        (u32::MAX - 1, 2, Some(9)),
        (0, 1, None),
    ] {
        let image = Image {
            start,
            words: vec![0; words],
        };
        let number = |lent| write(&image, lent).err().map(|refused| refused.number);
        assert_eq!(number(MOST_BYTES), due);
        assert_eq!(number(0), due.or(Some(11)));
    }
}

#[test]
fn the_largest_image_has_room() {
    assert_eq!(written::bytes(MOST_WORDS), 222_479);
    assert!(written::bytes(MOST_WORDS) <= MOST_BYTES);
}

#[test]
fn lists_outside_the_form_end_there() {
    let whole = "15\t1\t0\nS70500000000FA\n";
    checks::end_outside::<Case>(outside::lists(), whole, "0\n\n");
}

#[test]
fn the_longest_list_is_answered() {
    let list = |bytes| of_feeds(bytes, "1\t0");
    checks::longest_is_answered::<Case>(list, "refused\t12\t1\t0\t0\n\n");
}

#[test]
fn the_stored_list_reads_back_and_ends_outside_the_form() {
    let mut text = Vec::new();
    list::write(SEED, &mut text).expect("written");
    assert!(text.len() < 600_000, "{}", text.len());
    let cases = list::cases(SEED);
    assert!(cases.len() >= 800, "{}", cases.len());
    checks::reads_back(&text, &cases);
}

#[test]
fn the_stored_list_has_every_refusal() {
    let mut found = BTreeSet::new();
    for case in list::cases(SEED) {
        let answer = answer(&case).expect("in the form");
        let fields: Vec<&str> = answer.trim_end().split('\t').collect();
        if fields[0] == "refused" {
            found.insert((case.way.number(), fields[1].to_string()));
        }
    }
    let due = [
        (Way::Write, "11"),
        (Way::Write, "9"),
        (Way::Read, "11"),
        (Way::Read, "12"),
        (Way::Read, "13"),
        (Way::Read, "14"),
    ];
    let due = due.map(|(way, number)| (way.number(), number.to_string()));
    assert_eq!(found, due.into_iter().collect());
}
