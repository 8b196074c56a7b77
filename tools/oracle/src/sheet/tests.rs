use std::collections::{BTreeSet, HashMap};
use std::sync::LazyLock;

use super::answer::answer;
use super::cases::{blocks, large, lines, named, order};
use super::generate::{either, places, sheet};
use super::judge::{judge, requests, Refused};
use super::line::Line;
use super::record::{Record, Way, PLACES};
use super::{list, outside, whole};
use crate::draft::{Draft, Kind};
use crate::kinds::{kind_of, KINDS};
use crate::random::Random;
use crate::schema::{is_operand, variants, Type, Variant};
use crate::stored::{checks, of_feeds};

const SEED: u64 = 68020;

/// The stored list.
static RECORDS: LazyLock<Vec<Record>> = LazyLock::new(|| list::records(SEED));

/// The place of each fault of `order` in the table, and its number.
const FAULTS: [(u32, u32); 12] = [
    (0, 10),
    (1, 7),
    (1, 9),
    (2, 11),
    (LINES, 7),
    (LINES, 8),
    (LINES, 1),
    (LINES, 2),
    (LINES, 3),
    (4, 9),
    (4, 11),
    (ENCODED, 2),
];
const LINES: u32 = 3;
const ENCODED: u32 = 5;

fn refused(record: &Record) -> Option<Refused> {
    judge(record).err()
}

/// The number and the line of a fault on this line.
fn due((place, number): (u32, u32), line: usize) -> (u32, usize) {
    match place == LINES || place == ENCODED {
        true => (number, line),
        false => (number, 0),
    }
}

fn check(record: &Record, due: (u32, usize)) {
    let refused = refused(record).expect("refused");
    assert_eq!((refused.refusal.number, refused.line), due);
}

#[test]
fn each_fault_is_refused() {
    for (record, fault) in order::alone().iter().zip(FAULTS) {
        check(record, due(fault, 2));
    }
}

#[test]
fn the_earlier_place_wins_and_then_the_lower_line() {
    let mut pairs = order::pairs().into_iter();
    for (at, first) in FAULTS.into_iter().enumerate() {
        for second in &FAULTS[at + 1..] {
            for (line, other) in [(2, 3), (3, 2)] {
                let record = pairs.next().expect("another pair");
                let lower = first.0 == LINES && second.0 == LINES && other < line;
                match lower {
                    true => check(&record, due(*second, other)),
                    false => check(&record, due(first, line)),
                }
            }
        }
    }
    assert!(pairs.next().is_none());
}

#[test]
fn lines_outside_the_form_are_refused() {
    for record in lines::outside() {
        check(&record, (7, 2));
    }
}

#[test]
fn made_sheets_are_accepted() {
    let mut random = Random::new(SEED);
    for _ in 0..2_000 {
        let sheet = sheet(&mut random);
        let record = Record::new(sheet.text(), sheet.lines.len(), sheet.words as usize);
        if record.text.len() <= 65_536 {
            assert_eq!(refused(&record), None, "{}", sheet.text());
        }
    }
}

#[test]
fn the_largest_sheets() {
    let answers: Vec<String> = large::all().iter().map(answer).collect();
    let first = |text: &str| text.lines().next().map(str::to_string);
    let firsts: Vec<String> = answers.iter().filter_map(|text| first(text)).collect();
    assert_eq!(
        firsts,
        [
            "1\tFFFFE000\t4E71",
            "refused\t11\t0\t0\t0",
            "refused\t9\t0\t0\t0",
            "refused\t8\t4096\t0\t0",
            "refused\t10\t0\t0\t0",
            "1\t00001000\t7064",
            "refused\t10\t0\t0\t0",
            "1\t00001000\t4E71",
            "refused\t2\t2\t2\t32768",
            "refused\t2\t3922\t2\t-32770",
        ]
    );
}

#[test]
fn the_whole_sheet_is_whole() {
    let text = whole::sheet();
    assert_eq!(text.len(), 65_536);
    let listing = judge(&Record::of_program(text)).expect("accepted");
    assert_eq!(listing.len(), 4_096);
}

#[test]
fn the_stored_list_reads_back_and_ends_outside_the_form() {
    let mut text = Vec::new();
    list::write(SEED, &mut text).expect("written");
    assert!(RECORDS.len() >= 300);
    checks::reads_back(&text, &RECORDS);
}

#[test]
fn lists_outside_the_form_end_there() {
    let (whole, answers) = ("12\t1\t1\nSTART\t0\nNOP\n", "1\t00000000\t4E71\n\n");
    checks::end_outside::<Record>(outside::lists(), whole, answers);
    let whole = "12\t1\t1\t1\nSTART\t0\nNOP\n".to_string() + whole;
    checks::end_outside::<Record>(outside::lists(), &whole, &answers.repeat(2));
}

#[test]
fn the_longest_list_is_answered() {
    let list = |bytes| of_feeds(bytes, "0\t0\t1");
    checks::longest_is_answered::<Record>(list, "refused\t10\t0\t0\t0\n\n");
}

#[test]
fn the_small_scratch_has_a_place_for_64_lines() {
    let counts = [1, 64, 65, 128, 129, 4_095, 4_096];
    let places = counts.map(|count| Way::Small.places(count));
    assert_eq!(places, [1, 1, 2, 2, 3, 64, 64]);
    assert_eq!(counts.map(|count| Way::Full.places(count)), counts);
}

#[test]
fn sheets_that_want_a_place_are_stored_with_it_and_accepted() {
    let short = blocks::short();
    let lines: Vec<usize> = short.iter().map(Record::lines).collect();
    assert_eq!(lines, [1, 63, 64, 65, 127, 128, 129, 4_095, 4_096]);
    for record in short {
        check(&record, (11, 0));
        let exact = record.by(Way::Small, record.places + 1);
        assert_eq!(refused(&exact), None);
        assert!(RECORDS.contains(&record) && RECORDS.contains(&exact));
    }
}

/// Refusals that come before the scratch is looked at.
fn before_the_scratch(record: &Record) -> bool {
    let refused = refused(&record.by(Way::Full, 0));
    refused.is_some_and(|refused| refused.refusal.number != 11)
}

#[test]
fn both_ways_answer_alike_where_enough_is_lent() {
    let mut random = Random::new(SEED);
    let random = std::iter::repeat_with(|| either(&mut random)).take(1_000);
    for record in RECORDS.iter().cloned().chain(random) {
        let needed = record.way.unwrap_or_default().places(record.lines());
        let due = match needed <= record.places || before_the_scratch(&record) {
            true => judge(&record.by(Way::Full, PLACES)),
            false => judge(&record.by(Way::Full, 0)),
        };
        assert_eq!(judge(&record), due);
    }
}

#[test]
fn the_stored_list_has_every_refusal_either_way() {
    for way in Way::ALL {
        let records = RECORDS.iter();
        let found = records.filter(|record| record.way.unwrap_or_default() == way);
        let found: BTreeSet<u32> = found
            .map(|record| refused(record).map_or(0, |refused| refused.refusal.number))
            .collect();
        assert_eq!(found, BTreeSet::from([0, 1, 2, 3, 7, 8, 9, 10, 11]));
    }
}

#[test]
fn bytes_reach_over_the_end_of_64_lines_and_no_further() {
    let found = blocks::borders();
    for four in found.chunks(4) {
        let values = [&four[2], &four[3]].map(|record| refused(record).expect("refused"));
        assert_eq!(values.map(|refused| refused.refusal.number), [2, 2]);
        assert_eq!(values.map(|refused| refused.refusal.value), [128, -130]);
        assert!(judge(&four[0]).is_ok() && judge(&four[1]).is_ok());
    }
}

#[test]
fn lines_name_lines_from_and_to_every_place_of_64() {
    let (mut from, mut to) = (BTreeSet::new(), BTreeSet::new());
    for record in named::all() {
        let lines = record.text.split(|byte| *byte == b'\n');
        for (line, text) in lines.enumerate().skip(1) {
            let names = Line::of_text(text).map_or(vec![], |line| line.names().collect());
            for name in names {
                from.insert(line % 64);
                to.insert(name % 64);
            }
        }
    }
    assert_eq!((from.len(), to.len()), (64, 64));
}

#[test]
fn sheets_whose_lines_name_lines_have_every_count_of_words() {
    for record in named::all() {
        let listing = judge(&record).expect("accepted");
        let words: BTreeSet<usize> = listing.iter().map(|listed| listed.words.len()).collect();
        assert_eq!(words, (1..=11).collect());
    }
}

/// Lines stand at even addresses, and branches name lines.
#[test]
fn no_sheet_is_of_n5() {
    let of_n5 = |record: &Record| requests(record).n5 > 0;
    assert!(!RECORDS.iter().any(of_n5));
}

/// The drafts of the lines of accepted sheets of the stored list.
fn accepted_drafts() -> Vec<Draft> {
    let records = RECORDS.iter();
    let accepted = records.filter(|record| refused(record).is_none());
    let texts: Vec<&str> = accepted
        .map(|record| std::str::from_utf8(&record.text).expect("accepted sheets are text"))
        .collect();
    let lines = texts.iter().flat_map(|text| text.lines().skip(1));
    lines
        .map(|text| {
            let line = Line::of_text(text.as_bytes()).expect("in the form");
            let numeric = line.numeric(0, |_| 0);
            Draft::of_line(std::str::from_utf8(&numeric).expect("digits and tabs"))
        })
        .collect()
}

#[test]
fn accepted_sheets_have_every_instruction_operand_and_variant() {
    let drafts = accepted_drafts();
    let found: BTreeSet<usize> = drafts.iter().map(|draft| draft.place).collect();
    assert_eq!(found, places().into_iter().collect());
    let mut kinds = BTreeSet::new();
    let mut named: HashMap<*const Variant, BTreeSet<i128>> = HashMap::new();
    for draft in &drafts {
        for (leaves, kind) in draft.fields.iter().zip(draft.variant().fields) {
            if is_operand(kind) {
                kinds.insert(kind_of(leaves));
            }
        }
        for leaf in draft.fields.iter().flatten() {
            if let Kind::Place(variants) = leaf.kind {
                let places = named.entry(variants.as_ptr()).or_default();
                places.insert(leaf.value);
            }
        }
    }
    assert_eq!(kinds.len(), KINDS.len());
    for kind in places().iter().flat_map(|place| enums(*place)) {
        let all: BTreeSet<i128> = (0..kind.len() as i128).collect();
        assert_eq!(named.get(&kind.as_ptr()), Some(&all), "{}", kind[0].name);
    }
}

/// The enums among the fields of an instruction, at any depth.
fn enums(place: usize) -> Vec<&'static [Variant]> {
    let fields = crate::schema::instructions()[place].fields;
    fields.iter().flat_map(|kind| enums_in(kind)).collect()
}

fn enums_in(kind: &'static Type) -> Vec<&'static [Variant]> {
    let inside = match kind {
        Type::Number(_) => return Vec::new(),
        Type::Struct(fields) => return fields.iter().flat_map(|kind| enums_in(kind)).collect(),
        Type::Enum(variants) => variants.iter().flat_map(|variant| variant.fields),
    };
    let inside = inside.flat_map(|kind| enums_in(kind));
    std::iter::once(variants(kind)).chain(inside).collect()
}
