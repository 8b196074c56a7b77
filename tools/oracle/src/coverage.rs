//! What a list of lines covers.

use std::collections::{BTreeMap, BTreeSet};

use crate::answer::{
    answer, answer_line, field_number, lines, Answer, Refusal, NOT_IN_FORM, REASONS,
};
use crate::draft::{Draft, Kind};
use crate::immediate_ends::ImmediateEnds;
use crate::instructions::Size;
use crate::kinds::KINDS;
use crate::machine::encode::Field;
use crate::numeric::placed;
use crate::requests::Requests;
use crate::schema::{instructions, is_plain_enum, operands, variants, Number};
use crate::systematic::operand_kinds;

/// Every field; an immediate by its size.
const ALL_FIELDS: [Field; 22] = [
    Field::ShortBranch,
    Field::WordBranch,
    Field::PcDisplacement,
    Field::PcIndex,
    Field::Displacement,
    Field::IndexDisplacement,
    Field::ShortAddress,
    Field::LongAddress,
    Field::Immediate(Size::Byte),
    Field::Immediate(Size::Word),
    Field::Immediate(Size::Long),
    Field::Count,
    Field::TrapVector,
    Field::BitNumber,
    Field::LinkDisplacement,
    Field::Register,
    Field::RtdDisplacement,
    Field::BreakpointVector,
    Field::BaseDisplacement,
    Field::OuterDisplacement,
    Field::NullDisplacement,
    Field::BitField,
];

/// How often a thing was accepted and refused.
#[derive(Default, Clone, Copy)]
struct Tally {
    accepted: usize,
    refused: usize,
}

#[derive(Default)]
struct Coverage {
    lines: usize,
    not_in_form: usize,
    all: Tally,
    refused_by_size: usize,
    numbers: BTreeMap<u32, usize>,
    instructions: BTreeMap<usize, Tally>,
    /// Instruction, field and operand kind.
    kinds: BTreeMap<(usize, usize, usize), Tally>,
    /// Instruction, field and place.
    settings: BTreeMap<(usize, usize, i128), Tally>,
    reasons: BTreeMap<u32, usize>,
    /// The values of each field, accepted and refused.
    accepted: BTreeMap<u32, BTreeSet<i64>>,
    refused: BTreeMap<u32, BTreeSet<i64>>,
    immediate_ends: ImmediateEnds,
    addresses: BTreeSet<u32>,
    requests: Requests,
}

impl Tally {
    fn add(&mut self, accepted: bool) {
        match accepted {
            true => self.accepted += 1,
            false => self.refused += 1,
        }
    }
}

pub fn report(input: &[u8]) {
    let mut coverage = Coverage::default();
    for line in lines(input) {
        coverage.lines += 1;
        coverage.requests += Requests::of_line(line);
        match answer_line(line) == NOT_IN_FORM {
            true => coverage.not_in_form += 1,
            false => coverage.line(std::str::from_utf8(line).expect("digits and tabs")),
        }
    }
    coverage.totals();
    coverage.instructions();
    coverage.kinds();
    coverage.settings();
    coverage.reasons();
    coverage.fields();
    coverage.immediate_ends.report();
}

fn answer_to(draft: &Draft) -> Option<Answer> {
    Some(answer(&placed(draft.line().as_bytes())?))
}

impl Coverage {
    fn line(&mut self, line: &str) {
        let draft = Draft::of_line(line);
        assert_eq!(draft.line(), line, "a line in the form is read back");
        let answer = answer_to(&draft).expect("the line is in the form");
        let accepted = answer.words.is_ok();
        self.all.add(accepted);
        self.immediate_ends.line(&draft, &answer);
        self.addresses.insert(draft.address);
        self.refused_by_size += answer.size.is_err() as usize;
        self.instructions
            .entry(draft.place)
            .or_default()
            .add(accepted);
        for (field, kind) in operand_kinds(&draft) {
            self.kinds
                .entry((draft.place, field, kind))
                .or_default()
                .add(accepted);
        }
        for (field, kind) in draft.variant().fields.iter().enumerate() {
            if is_plain_enum(kind) {
                let value = draft.fields[field][0].value;
                self.settings
                    .entry((draft.place, field, value))
                    .or_default()
                    .add(accepted);
            }
        }
        match answer.words {
            Ok(_) => self.held(&draft),
            Err(refusal) => self.refusal(refusal),
        }
    }

    fn refusal(&mut self, refusal: Refusal) {
        *self.numbers.entry(refusal.number).or_default() += 1;
        match refusal.number {
            2 => drop(
                self.refused
                    .entry(refusal.detail)
                    .or_default()
                    .insert(refusal.value),
            ),
            3 => *self.reasons.entry(refusal.detail).or_default() += 1,
            _ => {}
        }
    }

    /// Which field values an accepted draft holds: a leaf is moved out of range
    /// by a known distance, and the refused value less that distance is held.
    fn held(&mut self, draft: &Draft) {
        for at in draft.leaves() {
            let leaf = draft.fields[at.0][at.1];
            let Kind::Number(number) = leaf.kind else {
                continue;
            };
            for distance in distances(number, leaf.value) {
                let mut moved = draft.clone();
                moved.leaf(at).value = number.wrap(leaf.value + distance);
                let Some(Err(refusal)) = answer_to(&moved).map(|answer| answer.words) else {
                    continue;
                };
                if refusal.number == 2 {
                    let value = refusal.value as i128 - distance;
                    self.accepted
                        .entry(refusal.detail)
                        .or_default()
                        .insert(value as i64);
                }
            }
        }
    }

    fn totals(&self) {
        println!("{} lines, {} not in the form", self.lines, self.not_in_form);
        println!(
            "accepted {}, refused {}",
            self.all.accepted, self.all.refused
        );
        println!("{}", self.requests);
        println!("refused by `size` too {}", self.refused_by_size);
        println!("refusals of `encode` by number {:?}", self.numbers);
        let odd = self
            .addresses
            .iter()
            .filter(|address| *address % 2 == 1)
            .count();
        println!("{} addresses, {odd} of them odd", self.addresses.len());
    }

    fn instructions(&self) {
        let name = |place: &usize| instructions()[*place].name;
        println!(
            "{} of {} instructions",
            self.instructions.len(),
            instructions().len()
        );
        let without = |test: fn(&Tally) -> bool| -> Vec<&str> {
            let found = self.instructions.iter().filter(|(_, tally)| test(tally));
            found.map(|(place, _)| name(place)).collect()
        };
        println!(
            "never accepted: {}",
            without(|tally| tally.accepted == 0).join(" ")
        );
        println!(
            "never refused: {}",
            without(|tally| tally.refused == 0).join(" ")
        );
    }

    fn kinds(&self) {
        let mut missing = Vec::new();
        let mut possible = 0;
        for (place, variant) in instructions().iter().enumerate() {
            for field in operands(place) {
                for (kind, named) in KINDS.iter().enumerate() {
                    possible += 1;
                    if !self.kinds.contains_key(&(place, field, kind)) {
                        missing.push(format!("{} {field} {}", variant.name, named.name));
                    }
                }
            }
        }
        let accepted = self
            .kinds
            .values()
            .filter(|tally| tally.accepted > 0)
            .count();
        let refused = self
            .kinds
            .values()
            .filter(|tally| tally.refused > 0)
            .count();
        println!(
            "operand kinds by instruction and position: {} of {possible}",
            self.kinds.len()
        );
        println!(
            "    {accepted} accepted, {refused} refused; missing: {}",
            missing.join(", ")
        );
    }

    fn settings(&self) {
        let mut possible = 0;
        for variant in instructions() {
            let plain = variant.fields.iter().filter(|kind| is_plain_enum(kind));
            possible += plain.map(|kind| variants(kind).len()).sum::<usize>();
        }
        let accepted = self
            .settings
            .values()
            .filter(|tally| tally.accepted > 0)
            .count();
        println!(
            "sizes, conditions, directions by instruction: {} of {possible}, {accepted} accepted",
            self.settings.len()
        );
    }

    fn reasons(&self) {
        let all = 1..=REASONS.len() as u32;
        let missing: Vec<String> = all
            .filter(|number| !self.reasons.contains_key(number))
            .map(|number| number.to_string())
            .collect();
        println!(
            "{} of {} reasons; missing: {}",
            self.reasons.len(),
            REASONS.len(),
            missing.join(" ")
        );
    }

    fn fields(&self) {
        println!("fields: held at the low end, at the high end; refused one below, one above");
        for (number, low, high, name) in field_ends() {
            let has = |values: &BTreeMap<u32, BTreeSet<i64>>, value: i64| {
                let found = values
                    .get(&number)
                    .is_some_and(|values| values.contains(&value));
                if found {
                    "yes"
                } else {
                    "-"
                }
            };
            println!(
                "    {number:2} {name:18} {low}: {}, {high}: {}; {}: {}, {}: {}",
                has(&self.accepted, low),
                has(&self.accepted, high),
                low - 1,
                has(&self.refused, low - 1),
                high + 1,
                has(&self.refused, high + 1),
            );
        }
    }
}

/// How far to move a leaf to leave every range it can have.
fn distances(number: Number, value: i128) -> Vec<i128> {
    match number {
        Number::U8 => vec![255 - value],
        Number::U32 | Number::I32 => vec![0x80_0000],
        Number::U64 => vec![0x80_0000, -0x80_0000, 1 << 40],
        _ => Vec::new(),
    }
}

/// Number, low end, high end and name of every field; Immediate by size.
fn field_ends() -> Vec<(u32, i64, i64, String)> {
    let fields = ALL_FIELDS.iter().flat_map(|field| {
        let ranges = ranges(*field).into_iter();
        ranges.map(move |(low, high)| (field_number(*field), low, high, format!("{field:?}")))
    });
    fields.collect()
}

/// The range of a field; ShortBranch holds neither -1 nor 0.
fn ranges(field: Field) -> Vec<(i64, i64)> {
    let (low, high) = field.range();
    match field {
        Field::ShortBranch => vec![(low, -2), (1, high)],
        _ => vec![(low, high)],
    }
}
