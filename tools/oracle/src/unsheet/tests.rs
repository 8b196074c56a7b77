use std::collections::{BTreeMap, BTreeSet};
use std::sync::LazyLock;

use super::answer::answer;
use super::back::{check, translated};
use super::case::{Case, MOST_LENT};
use super::cases::{broken, large, order};
use super::generate::{case, of_sheet};
use super::judge::{unsheet, Refused, MOST_BYTES, MOST_LINES};
use super::replay::of_bytes;
use super::{list, manual, outside};
use crate::draft::{Draft, Kind};
use crate::image::Image;
use crate::kinds::{kind_of, KINDS};
use crate::random::Random;
use crate::reading::judge::{read, Reading};
use crate::reading::plain::plain;
use crate::schema::{is_operand, Variant};
use crate::sheet::generate::places;
use crate::sheet::judge::judge;
use crate::sheet::line::Line;
use crate::sheet::record::{Record, MOST_ROOM, PLACES};
use crate::sheet::whole;
use crate::stored::checks;

const SEED: u64 = 68020;

/// The stored list.
static CASES: LazyLock<Vec<Case>> = LazyLock::new(|| list::cases(SEED));

fn refused(case: &Case) -> Option<Refused> {
    let image = Image::of_line(&case.payload).expect("an image's line");
    unsheet(&image, case.lent).err()
}

/// The number of the first fault of a choice of `order`.
fn first_fault(choice: usize, many: bool) -> Option<u32> {
    let numbers = [(1, 9), (2, 9), (4, 6), (8, 5), (0, 10), (16, 16), (32, 17)];
    let met = |bit| match bit {
        0 => many,
        bit => choice & bit != 0,
    };
    let met = numbers.into_iter().find(|(bit, _)| met(*bit));
    met.map(|(_, number)| number)
}

#[test]
fn worked_images_are_enough() {
    assert!(manual::examples().len() >= 30);
    assert_eq!(manual::check(), 0);
}

#[test]
fn the_earlier_fault_wins() {
    for choice in 0..order::every() {
        for (between, many) in [(6, false), (MOST_LINES + 1, true)] {
            let found = refused(&order::with(choice, between));
            let number = found.map(|refused| refused.number);
            assert_eq!(number, first_fault(choice, many), "{choice}");
        }
    }
}

#[test]
fn broken_words_are_broken() {
    for words in broken::NOTHING {
        assert_eq!(read(words, 4096), Reading::Nothing, "{words:04X?}");
    }
    for words in broken::LONG {
        let whole = read(words, 4096);
        assert!(matches!(whole, Reading::Read(_, bytes) if bytes == 2 * words.len()));
        for count in 1..words.len() {
            assert_eq!(read(&words[..count], 4096), Reading::Short);
        }
    }
}

#[test]
fn texts_have_their_bytes() {
    for bytes in MOST_BYTES - 100..=MOST_BYTES {
        let text = unsheet(&large::of_bytes(bytes), MOST_BYTES);
        assert_eq!(text.map(|text| text.len()), Ok(bytes));
    }
    let longer = large::of_bytes(MOST_BYTES + 1);
    let due = Refused {
        number: 17,
        place: 0,
    };
    assert_eq!(unsheet(&longer, usize::MAX), Err(due));
}

#[test]
fn the_image_of_an_accepted_sheet_has_a_sheet() {
    let mut random = Random::new(SEED);
    for _ in 0..2_000 {
        let image = of_sheet(&mut random);
        match unsheet(&image, usize::MAX) {
            Ok(text) => check(&image, &text),
            Err(refused) => assert_eq!(refused.number, 17),
        }
    }
}

#[test]
fn the_whole_sheet_comes_back() {
    let text = whole::sheet();
    let image = translated(text.clone()).expect("accepted");
    assert_eq!(unsheet(&image, MOST_BYTES), Ok(text));
}

#[test]
fn as_many_bytes_as_the_text_has_are_enough_and_no_fewer() {
    let mut random = Random::new(SEED);
    for _ in 0..300 {
        let asked = case(&mut random);
        let image = Image::of_line(&asked.payload).expect("an image's line");
        if let Ok(text) = unsheet(&image, MOST_LENT) {
            let short = unsheet(&image, random.below(text.len() as u64) as usize);
            assert_eq!(short.map_err(|refused| refused.number), Err(17));
            assert_eq!(unsheet(&image, text.len()), Ok(text));
        }
    }
}

#[test]
fn lists_outside_the_form_end_there() {
    let whole = "7\t12\n0\t4E71\n";
    checks::end_outside::<Case>(outside::lists(), whole, "START\t0\nNOP\n\n");
}

#[test]
fn the_longest_list_is_answered() {
    checks::longest_is_answered::<Case>(of_bytes, "refused\t10\t0\t0\t0\n\n");
}

#[test]
fn the_stored_list_reads_back_and_ends_outside_the_form() {
    let mut text = Vec::new();
    list::write(SEED, &mut text).expect("written");
    assert!(CASES.len() >= 800, "{}", CASES.len());
    checks::reads_back(&text, &CASES);
}

#[test]
fn the_stored_list_has_every_refusal() {
    let found = CASES.iter().filter_map(refused);
    let found: BTreeSet<u32> = found.map(|refused| refused.number).collect();
    assert_eq!(found, BTreeSet::from([5, 6, 9, 10, 16, 17]));
}

/// The lines of an accepted text in the numeric form, each at its address.
fn numeric(text: &str) -> Vec<String> {
    let listing = judge(&Record::new(text, PLACES, MOST_ROOM)).expect("accepted");
    let named = |name: usize| listing[name - 1].address;
    let lines = text.lines().skip(1).zip(&listing);
    lines
        .map(|(text, listed)| {
            let line = Line::of_text(text.as_bytes()).expect("in the form");
            String::from_utf8(line.numeric(listed.address, named)).expect("digits and tabs")
        })
        .collect()
}

/// The sheets of the images of the stored list.
fn texts() -> Vec<String> {
    let answers = CASES.iter().filter_map(answer);
    answers.filter(|text| text.starts_with("START")).collect()
}

#[test]
fn every_line_is_in_plain_form() {
    for line in texts().iter().flat_map(|text| numeric(text)) {
        let placed = crate::numeric::placed(line.as_bytes()).expect("in the form");
        assert_eq!(plain(placed.instruction), placed.instruction, "{line}");
    }
}

/// A target that stands as a number is no line's address.
#[test]
fn every_line_that_can_be_named_is() {
    for text in texts() {
        let lines = numeric(&text);
        let addresses = lines.iter().filter_map(|line| line.split('\t').next());
        let addresses: BTreeSet<&str> = addresses.collect();
        let fields: Vec<&str> = text.split(['\t', '\n']).collect();
        for pair in fields.windows(2) {
            if let ["PcDisplacement" | "PcIndex", target] = pair {
                assert!(!addresses.contains(target), "{target} in {text}");
            }
        }
    }
}

#[test]
fn targets_are_names_and_numbers() {
    let texts = texts();
    for name in ["PcDisplacement\t", "PcIndex\t"] {
        let after = texts.iter().flat_map(|text| text.split(name).skip(1));
        let (names, numbers): (Vec<&str>, Vec<&str>) =
            after.partition(|rest| rest.starts_with('@'));
        assert!(names.len() > 200 && numbers.len() > 200, "{name}");
    }
}

#[test]
fn the_sheets_have_every_instruction_operand_and_variant() {
    let texts = texts();
    let lines = texts.iter().flat_map(|text| numeric(text));
    let drafts: Vec<Draft> = lines.map(|line| Draft::of_line(&line)).collect();
    let found: BTreeSet<usize> = drafts.iter().map(|draft| draft.place).collect();
    assert_eq!(found, places().into_iter().collect());
    let operands = drafts.iter().flat_map(|draft| {
        let fields = draft.fields.iter().zip(draft.variant().fields);
        fields
            .filter(|(_, kind)| is_operand(kind))
            .map(|(leaves, _)| kind_of(leaves))
    });
    assert_eq!(operands.collect::<BTreeSet<usize>>().len(), KINDS.len());
    let mut named: BTreeMap<*const Variant, (usize, BTreeSet<i128>)> = BTreeMap::new();
    for leaf in drafts
        .iter()
        .flat_map(|draft| draft.fields.iter().flatten())
    {
        if let Kind::Place(variants) = leaf.kind {
            let places = named.entry(variants.as_ptr()).or_default();
            places.0 = variants.len();
            places.1.insert(leaf.value);
        }
    }
    assert!(named.values().all(|(count, places)| places.len() == *count));
}
