//! The runs of the stored list.

use std::cmp::Reverse;
use std::collections::{BTreeMap, HashSet};

use super::back::due;
use super::judge::{read, Reading, MOST_WORDS};
use super::run::Run;
use super::tails::{mixed, tail, LENGTH};
use crate::answer::answer;
use crate::generate::{self, random_address};
use crate::immediates::{immediates, ENDS};
use crate::manual;
use crate::numeric::placed;
use crate::random::Random;
use crate::values::ADDRESSES;
use crate::written::place;

/// How many kinds of tail are used in turn.
const TAILS: usize = 12;

/// Generated lines looked through, and the instructions of a variant kept.
const GENERATED: usize = 60_000;
const KEPT: usize = 14;

/// Of the kept ones, those of which every beginning is taken.
const CUT: usize = 5;

/// Words after the first in which a bit is changed.
const CHANGED_WORDS: usize = 2;

/// Near 0, in the middle and near 2^32, even and odd.
const BRANCH_ADDRESSES: [u32; 5] = [0, 1, 0x1000, 0xFFFF_FFFE, 0xFFFF_FFFF];

/// The words of the worked encodings.
pub fn worked() -> Vec<Run> {
    let examples = manual::examples().into_iter();
    examples
        .filter_map(|example| words_of(&example.line))
        .collect()
}

/// The words of a line that is accepted.
fn words_of(line: &str) -> Option<Run> {
    let placed = placed(line.as_bytes())?;
    let words = answer(&placed).words.ok()?;
    Some(Run {
        address: placed.address,
        words,
    })
}

/// The words of every Immediate with each end that it holds, N2 included, and
/// the same with the high byte of the second word filled.
pub fn ends(random: &mut Random) -> Vec<Run> {
    let immediates = immediates(random);
    let lines = immediates
        .iter()
        .flat_map(|immediate| ENDS.map(|number| immediate.with(number).line()));
    lines
        .filter_map(|line| words_of(&line))
        .flat_map(|run| filled(&run).into_iter().chain([run]))
        .collect()
}

fn filled(run: &Run) -> Option<Run> {
    let mut run = run.clone();
    *run.words.get_mut(1)? |= 0xFF00;
    Some(run)
}

/// A first word of each of the 1,024 entries of the reader's table.
pub fn groups(random: &mut Random) -> Vec<Run> {
    (0..1024u16)
        .map(|group| {
            let low = random.below(64) as u16;
            with_tail(group << 6 | low, group as usize, random)
        })
        .collect()
}

pub fn first_words(step: usize, random: &mut Random) -> Vec<Run> {
    (0..=u16::MAX)
        .step_by(step)
        .enumerate()
        .map(|(number, first)| with_tail(first, number, random))
        .collect()
}

fn with_tail(first: u16, number: usize, random: &mut Random) -> Run {
    let mut words = [vec![first], tail(number % TAILS, random)].concat();
    words.truncate(random.between(3, LENGTH as i128 + 1) as usize);
    Run {
        address: random_address(random),
        words,
    }
}

/// Accepted instructions of every variant, and what is made of their words.
#[derive(Default)]
pub struct Encoded {
    pub alone: Vec<Run>,
    /// With some words behind.
    pub behind: Vec<Run>,
    /// Every proper beginning.
    pub beginnings: Vec<Run>,
    /// With one bit after the first word changed.
    pub changed: Vec<Run>,
}

impl Encoded {
    pub fn runs(self) -> Vec<Run> {
        [self.alone, self.behind, self.beginnings, self.changed].concat()
    }
}

pub fn encoded(seed: u64, random: &mut Random) -> Encoded {
    let mut made = Encoded::default();
    for of_variant in by_variant(seed, random).values() {
        let kept = spread(of_variant, KEPT);
        let cut = kept.iter().take(CUT);
        made.beginnings.extend(cut.flat_map(|run| beginnings(run)));
        for (number, run) in kept.iter().enumerate() {
            match number % 2 {
                0 => made.alone.push((*run).clone()),
                _ => made.behind.push(followed(run, random)),
            }
        }
        let shortest = of_variant.iter().rev().find(|run| run.words.len() > 1);
        made.changed.extend(shortest.into_iter().flat_map(changed));
    }
    made
}

/// The words of the accepted generated instructions by variant, those with the
/// most words first, none twice.
fn by_variant(seed: u64, random: &mut Random) -> BTreeMap<usize, Vec<Run>> {
    let mut seen = HashSet::new();
    let mut found: BTreeMap<usize, Vec<Run>> = BTreeMap::new();
    let lines = generate::lines(seed).take(GENERATED);
    for mut due in lines.filter_map(|line| due(&line, random)) {
        due.run.words.truncate(due.bytes / 2);
        if seen.insert(due.run.words.clone()) {
            let of_variant = found.entry(place(&due.instruction)).or_default();
            of_variant.push(due.run);
        }
    }
    for runs in found.values_mut() {
        runs.sort_by_key(|run| Reverse(run.words.len()));
    }
    found
}

/// About `count` of the runs, evenly spread, with one of each length.
fn spread(runs: &[Run], count: usize) -> Vec<&Run> {
    let step = runs.len().div_ceil(count);
    let kept = runs.iter().enumerate().filter(|(at, run)| {
        let first_of_length = *at == 0 || runs[at - 1].words.len() != run.words.len();
        at % step == 0 || first_of_length
    });
    kept.map(|(_, run)| run).collect()
}

pub fn followed(run: &Run, random: &mut Random) -> Run {
    let length = random.between(1, 3) as usize;
    Run {
        address: run.address,
        words: [run.words.clone(), mixed(length, random)].concat(),
    }
}

pub fn beginnings(run: &Run) -> impl Iterator<Item = Run> + '_ {
    (1..run.words.len()).map(|length| Run {
        address: run.address,
        words: run.words[..length].to_vec(),
    })
}

fn changed(run: &Run) -> impl Iterator<Item = Run> + '_ {
    let last = run.words.len().min(CHANGED_WORDS + 1);
    let bits = (1..last).flat_map(|at| (0..16).map(move |bit| (at, bit)));
    bits.map(|(at, bit)| {
        let mut run = run.clone();
        run.words[at] ^= 1 << bit;
        run
    })
}

/// `count` runs that read but for one bit, whole and cut after the word with it.
pub fn unused(count: usize, random: &mut Random) -> Vec<Run> {
    let mut found = Vec::new();
    while found.len() < count {
        let first = random.next() as u16;
        let number = random.below(TAILS as u64) as usize;
        let address = random_address(random);
        let mut words = [vec![first], tail(number, random)].concat();
        let Reading::Read(_, bytes) = read(&words[..MOST_WORDS], address) else {
            continue;
        };
        if bytes == 2 {
            continue;
        }
        let at = random.between(1, bytes as i128 / 2 - 1) as usize;
        words[at] ^= 1 << random.below(16);
        for length in [bytes / 2, at + 1] {
            let words = words[..length].to_vec();
            if read(&words, address) == Reading::Nothing {
                found.push(Run { address, words });
            }
        }
    }
    found
}

/// Words whose reading depends on the address, at every address of the list:
/// none at all, branches, DBcc, d16(PC), d8(PC,Xn) and full words from the PC.
pub fn placed_words() -> Vec<Run> {
    let words: [&[u16]; 12] = [
        &[],
        &[0x6000, 0xFFFE],
        &[0x607F],
        &[0x6180],
        &[0x67FF, 0x8000, 0x0000],
        &[0x51C8, 0x7FFF],
        &[0x41FA, 0x8000],
        &[0x41FB, 0x0080],
        &[0x41FB, 0x0280],
        &[0x41FB, 0x0110],
        &[0x41FB, 0x0120, 0x8000],
        &[0x41FB, 0x0190],
    ];
    let at_every_address = |words: &[u16]| {
        ADDRESSES.map(|address| Run {
            address,
            words: words.to_vec(),
        })
    };
    words.iter().copied().flat_map(at_every_address).collect()
}

/// First words with byte $FF alone, with one word and with two and more, with byte
/// $00 alone and with a word, and with the bytes beside these, for BRA, BSR and
/// every condition.
pub fn branches() -> Vec<Run> {
    let bytes: [(u16, &[u16]); 11] = [
        (0xFF, &[]),
        (0xFF, &[0xFFFF]),
        (0xFF, &[0x0000]),
        (0xFF, &[0x0000, 0x0000]),
        (0xFF, &[0xFFFF, 0xFFFF]),
        (0xFF, &[0x7FFF, 0xFFFF, 0x4E71]),
        (0x00, &[]),
        (0x00, &[0x0000]),
        (0x00, &[0xFFFF]),
        (0xFE, &[]),
        (0x01, &[]),
    ];
    let mut runs = Vec::new();
    for condition in 0..16 {
        for (byte, behind) in bytes {
            let words = [&[0x6000 | condition << 8 | byte], behind].concat();
            runs.extend(BRANCH_ADDRESSES.map(|address| Run {
                address,
                words: words.clone(),
            }));
        }
    }
    runs
}
