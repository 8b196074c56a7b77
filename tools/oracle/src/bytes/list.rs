//! The stored list: every count of words with bytes just enough, more and
//! fewer, refusals with bytes lent, the ends of every Immediate, branches around
//! -1, and lines that are not in the form.

use std::collections::{BTreeMap, HashMap};
use std::io::{self, Write};

use super::answer::{answer_line, MOST};
use crate::answer::{encoded_bytes, Refusal, NOT_IN_FORM};
use crate::immediates::{immediates, ENDS};
use crate::numeric::placed;
use crate::random::Random;
use crate::values::ADDRESSES;
use crate::{branches, generate, malformed};

/// How many generated lines are looked through.
const LOOKED: usize = 60_000;

/// Lines of each group.
const EACH: usize = 20;

/// Of one instruction among those of a group.
const ALIKE: usize = 3;

/// What no call lends.
const LEADS: [&str; 14] = [
    "33",
    "34",
    "40",
    "63",
    "64",
    "255",
    "256",
    "4294967295",
    "18446744073709551616",
    "-1",
    "-0",
    "01",
    "+1",
    "",
];

const LAST: &str = "2\t0\t81";

/// The lengths around a size.
pub fn lengths(size: u64) -> Vec<u64> {
    let mut lengths: Vec<u64> = (size.saturating_sub(2)..=size + 2).collect();
    lengths.extend([0, MOST]);
    lengths.sort();
    lengths.dedup();
    lengths
}

/// What tells lines apart: the number of a refusal, or the size.
#[derive(PartialEq, Eq, PartialOrd, Ord)]
enum Group {
    Refused(u32),
    Accepted(usize),
}

pub fn write(seed: u64, output: &mut impl Write) -> io::Result<()> {
    for lines in groups(seed).values() {
        for line in chosen(lines) {
            for length in lent(line) {
                writeln!(output, "{length}\t{line}")?;
            }
        }
    }
    for line in ends(seed).into_iter().chain(around_minus_one()) {
        writeln!(output, "{line}")?;
    }
    outside(output)?;
    output.write_all(LAST.as_bytes())?;
    output.flush()
}

fn groups(seed: u64) -> BTreeMap<Group, Vec<String>> {
    let mut found: BTreeMap<Group, Vec<String>> = BTreeMap::new();
    for line in generate::lines(seed).take(LOOKED) {
        let group = match encoded(&line) {
            Err(refusal) => Group::Refused(refusal.number),
            Ok(bytes) => Group::Accepted(bytes.len()),
        };
        found.entry(group).or_default().push(line);
    }
    found
}

fn encoded(line: &str) -> Result<Vec<u8>, Refusal> {
    encoded_bytes(&placed(line.as_bytes()).expect("in the form"))
}

/// The lengths that are lent for a line.
fn lent(line: &str) -> Vec<u64> {
    match encoded(line) {
        Ok(bytes) => lengths(bytes.len() as u64),
        Err(_) => vec![0, 1, 2, 10, 22, MOST],
    }
}

/// Every Immediate with each end, one past it, and bytes enough; with the
/// highest, one byte short as well.
fn ends(seed: u64) -> Vec<String> {
    let mut lines = Vec::new();
    for immediate in immediates(&mut Random::new(seed)) {
        let highest = immediate.with(ENDS[ENDS.len() - 1]).line();
        let short = encoded(&highest).map(|bytes| bytes.len() - 1);
        lines.extend(short.map(|length| format!("{length}\t{highest}")));
        lines.extend(ENDS.map(|number| format!("{MOST}\t{}", immediate.with(number).line())));
    }
    lines
}

/// Every branch around -1 at one address with no bytes, one short, just enough and
/// one more; the short ones of -1 and 0 with the most at every address.
fn around_minus_one() -> Vec<String> {
    let mut lines = Vec::new();
    for (turn, branch) in branches::all().into_iter().enumerate() {
        let line = branch.line(branches::address(turn));
        let enough = branch.bytes();
        let lengths = [0, enough - 1, enough, enough + 1];
        lines.extend(lengths.map(|length| format!("{length}\t{line}")));
        if branch.is_excluded() {
            lines.extend(ADDRESSES.map(|address| format!("{MOST}\t{}", branch.line(address))));
        }
    }
    lines
}

/// `EACH` of the lines, far apart: of one instruction few, unless no others
/// are there.
fn chosen(lines: &[String]) -> Vec<&String> {
    let mut seen: HashMap<&str, usize> = HashMap::new();
    let (few, more): (Vec<&String>, Vec<&String>) = lines.iter().partition(|line| {
        let count = seen.entry(variant(line)).or_default();
        *count += 1;
        *count <= ALIKE
    });
    let mut chosen = spread(&few, EACH);
    chosen.extend(spread(&more, EACH - chosen.len()));
    chosen
}

fn spread<'l>(lines: &[&'l String], count: usize) -> Vec<&'l String> {
    let step = lines.len().div_ceil(count.max(1)).max(1);
    lines.iter().step_by(step).take(count).copied().collect()
}

fn variant(line: &str) -> &str {
    line.split('\t').nth(1).expect("a line has an instruction")
}

/// Lines that are not in the form.
fn outside(output: &mut impl Write) -> io::Result<()> {
    let leads = LEADS
        .iter()
        .map(|lead| format!("{lead}\t0\t81").into_bytes());
    let bodies = malformed::lines().map(|line| [b"32\t", line].concat());
    for line in leads.chain(bodies).chain([b"2".to_vec(), b"81".to_vec()]) {
        assert_eq!(answer_line(&line), NOT_IN_FORM);
        output.write_all(&line)?;
        output.write_all(b"\n")?;
    }
    Ok(())
}
