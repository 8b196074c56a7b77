//! The systematic part of the generated lines: kinds, settings, ends, targets,
//! extension words, bit fields and several faults at once.

use crate::answer::{answer, Answer};
use crate::draft::{Draft, Kind};
use crate::fill::{accepted, draft};
use crate::immediates::{immediates, ENDS};
use crate::instructions::{DisplacementSize, ExtensionWord};
use crate::kinds::{kind_of, DATA, IMMEDIATE, KINDS};
use crate::numeric::placed;
use crate::random::Random;
use crate::schema::{instructions, is_plain_enum, operands, size_field, variants, Number, Type};
use crate::values::{ends, fault, ADDRESSES, DISPLACEMENTS};

/// Instructions whose operands take every end of every number; the others
/// take a share of them.
const WHOLE: [&str; 2] = ["LEA", "TST"];
const SHARE: u64 = 40;

/// Instructions whose targets are tried at every address.
const EVERYWHERE: [&str; 2] = ["BRA", "LEA"];

/// Places in `KINDS`.
const INDIRECT: usize = 3;
const FULL: usize = 13;

const IMMEDIATES: [i128; 11] = [0, 1, 2, 7, 8, 9, 255, 256, 65535, 65536, 0xFFFF_FFFF];

/// Drafts of faults, per instruction.
const FAULTS: usize = 20;

pub struct Systematic {
    random: Random,
    drafts: Vec<Draft>,
}

/// The whole part, in order.
pub fn drafts(seed: u64) -> Vec<Draft> {
    let mut made = Systematic {
        random: Random::new(seed),
        drafts: Vec::new(),
    };
    for place in 0..instructions().len() {
        made.settings(place);
        made.kinds(place);
        made.pairs(place);
        made.partners(place);
        made.immediates(place);
        made.values(place);
        made.number_ends(place);
        made.operand_ends(place);
        made.targets(place);
        made.faults(place);
    }
    made.extension_words();
    made.extension_displacements();
    made.longest();
    made.index_crossings();
    made.movep_crossings();
    made.bit_fields();
    made.immediate_ends();
    made.drafts
}

fn place_of(name: &str) -> usize {
    let found = instructions()
        .iter()
        .position(|variant| variant.name == name);
    found.expect("the instruction is declared")
}

/// Every combination of the fields that are enums without fields.
fn settings(place: usize) -> Vec<Vec<(usize, i128)>> {
    let mut all = vec![Vec::new()];
    for (field, kind) in instructions()[place].fields.iter().enumerate() {
        if is_plain_enum(kind) {
            let count = variants(kind).len() as i128;
            let extended = all.iter().flat_map(|setting: &Vec<_>| {
                (0..count).map(move |value| [setting.clone(), vec![(field, value)]].concat())
            });
            all = extended.collect();
        }
    }
    all
}

/// What a crossing leaf tries.
type Choices<'c> = &'c [((usize, usize), &'c [i128])];

impl Systematic {
    fn address(&mut self) -> u32 {
        match self.random.chance(60) {
            true => self.random.pick(&ADDRESSES),
            false => self.random.next() as u32,
        }
    }

    fn push(&mut self, draft: &Draft) {
        self.drafts.push(draft.clone());
    }

    /// An accepted draft, if one is found, with some operands of given kinds
    /// and some settings fixed.
    fn base(
        &mut self,
        place: usize,
        kinds: &[(usize, usize)],
        setting: &[(usize, i128)],
        tries: u32,
    ) -> Draft {
        let address = self.address();
        let random = &mut self.random;
        accepted(tries, || {
            let mut made = draft(place, address, random);
            for (field, kind) in kinds {
                made.fields[*field] = KINDS[*kind].leaves(address, random);
            }
            for (field, value) in setting {
                made.fields[*field][0].value = *value;
            }
            made
        })
    }

    /// Every combination of sizes, conditions, directions and the like.
    fn settings(&mut self, place: usize) {
        for setting in settings(place) {
            for _ in 0..3 {
                let base = self.base(place, &[], &setting, 300);
                self.push(&base);
            }
        }
    }

    /// Every operand kind in every operand position with every setting.
    fn kinds(&mut self, place: usize) {
        for field in operands(place) {
            for kind in 0..KINDS.len() {
                for setting in settings(place) {
                    let base = self.base(place, &[(field, kind)], &setting, 40);
                    self.push(&base);
                }
            }
        }
    }

    /// Every two operand kinds side by side, the forms of `Extended` in turn.
    fn pairs(&mut self, place: usize) {
        let fields = operands(place);
        if fields.len() < 2 {
            return;
        }
        for first in 0..13 {
            for second in 0..13 {
                let turn = (first + second) % 4;
                let pick = |kind: usize| if kind == 12 { 12 + turn } else { kind };
                let kinds = [(fields[0], pick(first)), (fields[1], pick(second))];
                let base = self.base(place, &kinds, &[], 20);
                self.push(&base);
            }
        }
    }

    /// Every operand kind beside an operand that many pairs take, word sized.
    fn partners(&mut self, place: usize) {
        let fields = operands(place);
        if fields.len() < 2 {
            return;
        }
        for kind in 0..KINDS.len() {
            for (first, second) in [
                (IMMEDIATE, kind),
                (DATA, kind),
                (kind, DATA),
                (kind, INDIRECT),
            ] {
                let mut base =
                    self.base(place, &[(fields[0], first), (fields[1], second)], &[], 20);
                if let Some(size) = size_field(place) {
                    base.fields[size][0].value = 1;
                }
                if first == IMMEDIATE {
                    base.fields[fields[0]][1].value = 1;
                }
                self.push(&base);
            }
        }
    }

    /// Immediates as the first of two operands, at the ends of their ranges in
    /// every size.
    fn immediates(&mut self, place: usize) {
        let fields = operands(place);
        if fields.len() < 2 {
            return;
        }
        for (turn, value) in IMMEDIATES.into_iter().enumerate() {
            for size in 0..3 {
                let second = if (turn + size) % 3 == 0 {
                    INDIRECT
                } else {
                    DATA
                };
                let kinds = [(fields[0], IMMEDIATE), (fields[1], second)];
                let setting: Vec<(usize, i128)> = size_field(place)
                    .map(|field| (field, size as i128))
                    .into_iter()
                    .collect();
                let mut base = self.base(place, &kinds, &setting, 20);
                base.fields[fields[0]][1].value = value;
                self.push(&base);
            }
        }
    }

    /// The same of the immediate instructions, whose value stands apart.
    fn values(&mut self, place: usize) {
        let variant = &instructions()[place];
        let (Some(Type::Number(Number::U32)), Some(field)) =
            (variant.fields.first(), size_field(place))
        else {
            return;
        };
        for value in IMMEDIATES {
            for size in 0..3 {
                let mut base = self.base(place, &[], &[(field, size)], 100);
                base.fields[0][0].value = value;
                self.push(&base);
            }
        }
    }

    /// Every end of every number that stands outside the operands.
    fn number_ends(&mut self, place: usize) {
        let fields = operands(place);
        let base = self.base(place, &[], &[], 300);
        for at in base.leaves() {
            if !fields.contains(&at.0) {
                self.leaf_ends(&base, at, 1);
            }
        }
    }

    /// The ends of the numbers in the operands, by kind.
    fn operand_ends(&mut self, place: usize) {
        let whole = WHOLE.contains(&instructions()[place].name);
        let share = if whole { 1 } else { SHARE };
        for field in operands(place) {
            for kind in 0..KINDS.len() {
                let base = self.base(place, &[(field, kind)], &[], 60);
                for leaf in 1..base.fields[field].len() {
                    self.leaf_ends(&base, (field, leaf), share);
                }
            }
        }
    }

    fn leaf_ends(&mut self, base: &Draft, at: (usize, usize), share: u64) {
        let mut changed = base.clone();
        for value in ends(&base.fields[at.0][at.1], base.address) {
            if self.random.below(share) == 0 {
                changed.leaf(at).value = value;
                self.push(&changed);
            }
        }
    }

    /// Targets at both ends of the distance and one past, from the word that
    /// holds the distance.
    fn targets(&mut self, place: usize) {
        let everywhere = EVERYWHERE.contains(&instructions()[place].name);
        let fields = operands(place);
        for setting in settings(place).iter().take(3) {
            if fields.is_empty() {
                let base = self.base(place, &[], setting, 300);
                self.targets_of(&base, everywhere);
            }
        }
        for field in fields {
            for kind in [8, 9, 14, 15] {
                let base = self.base(place, &[(field, kind)], &[], 60);
                self.targets_of(&base, everywhere);
            }
        }
    }

    fn targets_of(&mut self, base: &Draft, everywhere: bool) {
        let some = [self.address()];
        let addresses = if everywhere {
            &ADDRESSES[..]
        } else {
            &some[..]
        };
        for at in base.leaves() {
            let Some(offset) = word_offset(base, at) else {
                continue;
            };
            for address in addresses {
                self.distances(base, at, *address, offset);
            }
        }
    }

    fn distances(&mut self, base: &Draft, at: (usize, usize), address: u32, offset: i128) {
        let mut changed = base.clone();
        changed.address = address;
        for displacement in DISPLACEMENTS {
            let leaf = changed.leaf(at);
            let Kind::Number(number) = leaf.kind else {
                return;
            };
            leaf.value = number.wrap(address as i128 + offset + displacement);
            self.push(&changed);
        }
    }

    /// Two or three faults at once, told apart by their numbers.
    fn faults(&mut self, place: usize) {
        for turn in 0..FAULTS {
            let base = self.base(place, &[], &[], 100);
            if base.leaves().len() < 2 {
                return;
            }
            let faulty = faulty(&base, 2 + turn % 2, &mut self.random);
            self.push(&faulty);
        }
    }

    /// Every low byte of a full extension word, with and without index bits.
    fn extension_words(&mut self) {
        let place = place_of("LEA");
        for low in 0..256 {
            for high in [0x0100, 0x9B00] {
                let kind = self.random.pick(&[13, 15]);
                let mut base = self.base(place, &[(0, kind)], &[], 20);
                base.fields[0][2].value = high | low;
                base.fields[0][3].value = if kind == 13 {
                    0
                } else {
                    Number::I32.wrap(base.address as i128 + 2)
                };
                base.fields[0][4].value = 0;
                self.push(&base);
            }
        }
    }

    /// Base and outer displacements at their ends in every width.
    fn extension_displacements(&mut self) {
        let words = [
            0x0110, 0x0120, 0x0130, 0x0111, 0x0122, 0x0133, 0x0126, 0x01A3, 0x0190,
        ];
        for word in words {
            for register in [3, 8] {
                let mut base = self.base(place_of("LEA"), &[(0, 13)], &[], 20);
                let measured = register == 8 && word & 0x0080 == 0;
                let none = if measured {
                    base.address as i128 + 2
                } else {
                    0
                };
                let numbers = [register, word, Number::I32.wrap(none), 0];
                for (leaf, number) in numbers.into_iter().enumerate() {
                    base.leaf((0, leaf + 1)).value = number;
                }
                match measured {
                    true => self.distances(&base, (0, 3), base.address, 2),
                    false => self.small_ends(&base, 3),
                }
                self.small_ends(&base, 4);
            }
        }
    }

    /// Two full extension words in one instruction, of every two lengths.
    fn longest(&mut self) {
        let words = [
            0x0110, 0x0111, 0x0112, 0x0113, 0x0121, 0x0122, 0x0123, 0x0131, 0x0132, 0x0133,
        ];
        for source in words {
            for destination in words {
                let mut base = self.base(place_of("MOVE"), &[(0, FULL), (1, FULL)], &[], 1);
                base.fields[0][2].value = source;
                base.fields[1][2].value = destination;
                for operand in 0..2 {
                    let full = ExtensionWord(base.fields[operand][2].value as u16);
                    base.leaf((operand, 3)).value = self.held(full.base_displacement_size());
                    base.leaf((operand, 4)).value = self.held(full.outer_displacement_size());
                }
                self.push(&base);
            }
        }
    }

    /// A displacement that `size` holds.
    fn held(&mut self, size: DisplacementSize) -> i128 {
        match size {
            DisplacementSize::Null => 0,
            DisplacementSize::Word => self.random.between(-32768, 32767),
            DisplacementSize::Long => self.random.between(i32::MIN as i128, i32::MAX as i128),
        }
    }

    fn small_ends(&mut self, base: &Draft, leaf: usize) {
        let mut changed = base.clone();
        for value in DISPLACEMENTS {
            changed.leaf((0, leaf)).value = value;
            self.push(&changed);
        }
    }

    /// Base register, displacement, index register and index size, each right
    /// and wrong.
    fn index_crossings(&mut self) {
        for (name, operand) in [("LEA", 0), ("JMP", 0), ("MOVE", 1)] {
            let base = self.base(place_of(name), &[(operand, 7)], &[], 300);
            let choices: [((usize, usize), &[i128]); 6] = [
                ((operand, 1), &[0, 1]),
                ((operand, 2), &[1, 9]),
                ((operand, 3), &[127, 128]),
                ((operand, 4), &[0, 1]),
                ((operand, 5), &[2, 10]),
                ((operand, 6), &[0, 2]),
            ];
            self.cross(&base, &choices);
        }
    }

    /// The parts of a MOVEP, each right and wrong.
    fn movep_crossings(&mut self) {
        let base = self.base(place_of("MOVEP"), &[(3, 6)], &[], 300);
        let choices: [((usize, usize), &[i128]); 6] = [
            ((1, 0), &[0, 2]),
            ((2, 0), &[0, 1]),
            ((2, 1), &[1, 9]),
            ((3, 1), &[-32768, -32769]),
            ((3, 2), &[0, 1]),
            ((3, 3), &[2, 10]),
        ];
        self.cross(&base, &choices);
    }

    fn cross(&mut self, base: &Draft, choices: Choices) {
        let Some(((at, values), rest)) = choices.split_first() else {
            return self.push(base);
        };
        let mut changed = base.clone();
        for value in *values {
            changed.leaf(*at).value = *value;
            self.cross(&changed, rest);
        }
    }

    /// Offsets and widths, numbers and registers, within and past their ends.
    fn bit_fields(&mut self) {
        let numbers = [0, 7, 8, 31, 32, 255];
        let values: Vec<(i128, i128)> = numbers
            .iter()
            .flat_map(|number| [(0, *number), (1, *number)])
            .collect();
        for (turn, offset) in values.iter().enumerate() {
            for (other, width) in values.iter().enumerate() {
                let mut base = self.base(place_of("BF"), &[], &[], 300);
                base.fields[2][0].value = offset.0;
                base.fields[2][1].value = offset.1;
                base.fields[2][2].value = width.0;
                base.fields[2][3].value = width.1;
                base.fields[3][0].value = [0, 7, 3, 8, 5][(turn + 3 * other) % 5];
                self.push(&base);
            }
        }
    }

    /// The ends of Byte and Word and one past each, in every Immediate at every
    /// size, and where a bit number or a count stands.
    fn immediate_ends(&mut self) {
        for immediate in immediates(&mut self.random) {
            let drafts = ENDS.map(|number| immediate.with(number));
            self.drafts.extend(drafts);
        }
    }
}

/// `base` with `count` of its leaves at fault.
pub fn faulty(base: &Draft, count: usize, random: &mut Random) -> Draft {
    let places = base.leaves();
    let mut changed = base.clone();
    if places.is_empty() {
        return changed;
    }
    for mark in 0..count {
        let at = random.pick(&places);
        changed.leaf(at).value = fault(&base.fields[at.0][at.1], mark, random);
    }
    changed
}

fn answer_of(draft: &Draft) -> Option<Answer> {
    Some(answer(&placed(draft.line().as_bytes())?))
}

/// How far from the instruction the word stands that holds the distance to
/// the leaf's target; `None` where the leaf is no target.
pub fn word_offset(base: &Draft, at: (usize, usize)) -> Option<i128> {
    const FAR: i128 = 0x10_0000;
    let mut changed = base.clone();
    let leaf = changed.leaf(at);
    let Kind::Number(number @ (Number::U32 | Number::I32)) = leaf.kind else {
        return None;
    };
    leaf.value = number.wrap(base.address as i128 + FAR);
    let refusal = answer_of(&changed)?.words.err()?;
    let offset = FAR - refusal.value as i128;
    (refusal.number == 2 && (2..=20).contains(&offset)).then_some(offset)
}

/// The kinds of a draft's operands, with their fields.
pub fn operand_kinds(draft: &Draft) -> Vec<(usize, usize)> {
    let fields = operands(draft.place).into_iter();
    fields
        .map(|field| (field, kind_of(&draft.fields[field])))
        .collect()
}
