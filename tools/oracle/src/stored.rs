//! Stored lists of cases: a header of decimal numbers parted by tabs, of which
//! the first says how many bytes follow its LF.

#[cfg(test)]
pub mod checks;

use std::collections::HashSet;
use std::hash::Hash;
use std::io::{self, Write};
use std::ops::RangeInclusive;

use crate::batch::Lists;
use crate::compare::{Comparison, Expected};
use crate::manual::{count_different, Outcome};
use crate::numeric::digits;
use crate::random::Random;
use crate::requests::Requests;

/// The bytes of the longest list.
pub const LONGEST: usize = 1 << 20;

/// What ends the answers where a list is not in the form.
pub const NOT_IN_FORM: &str = "list\n";

/// The first case of a list, if it is in the form.
pub struct First<'l> {
    /// The numbers of its header after the first.
    pub numbers: Vec<u64>,
    /// The bytes that follow the header.
    pub payload: &'l [u8],
    pub rest: &'l [u8],
}

pub fn first(list: &[u8]) -> Option<First<'_>> {
    let end = list.iter().position(|byte| *byte == b'\n')?;
    let (header, behind) = (&list[..end], &list[end + 1..]);
    let numbers: Option<Vec<u64>> = header.split(|byte| *byte == b'\t').map(digits).collect();
    let numbers = numbers?;
    let (bytes, others) = numbers.split_first()?;
    let bytes = usize::try_from(*bytes).ok()?;
    Some(First {
        numbers: others.to_vec(),
        payload: behind.get(..bytes)?,
        rest: &behind[bytes..],
    })
}

/// A case of a stored list.
pub trait Asked: Clone + Eq + Hash {
    /// The first case of a list and the rest, if it is in the form.
    fn first(list: &[u8]) -> Option<(Self, &[u8])>;
    fn write(&self, output: &mut impl Write) -> io::Result<()>;
    fn payload(&self) -> &[u8];
    /// None where the payload is not in the form.
    fn answer(&self) -> Option<String>;
    /// The requests without which the answer would be another.
    fn requests(&self) -> Requests {
        Requests::default()
    }
}

/// What is printed for a case alone.
pub fn due(case: &impl Asked) -> String {
    case.answer().unwrap_or(NOT_IN_FORM.to_string())
}

/// The answers to a list, each followed by an empty line.
pub fn answer_list<C: Asked>(list: &[u8], output: &mut impl Write) -> io::Result<()> {
    let mut rest = list;
    if list.len() > LONGEST {
        return last(output);
    }
    while !rest.is_empty() {
        let first = C::first(rest).and_then(|(case, after)| Some((case.answer()?, after)));
        let Some((answer, after)) = first else {
            return last(output);
        };
        writeln!(output, "{answer}")?;
        rest = after;
    }
    output.flush()
}

fn last(output: &mut impl Write) -> io::Result<()> {
    output.write_all(NOT_IN_FORM.as_bytes())?;
    output.flush()
}

/// Cases, and behind them a header that is not in the form.
pub fn write_list(cases: &[impl Asked], last: &[u8], output: &mut impl Write) -> io::Result<()> {
    for case in cases {
        case.write(output)?;
    }
    output.write_all(last)?;
    output.flush()
}

/// Cases without those that stand before.
pub fn distinct<C: Asked>(mut cases: Vec<C>) -> Vec<C> {
    let mut seen = HashSet::new();
    cases.retain(|case| seen.insert(case.clone()));
    cases
}

/// Random cases: how many, of how many bytes.
pub fn sampled<C: Asked>(
    sizes: &[(usize, RangeInclusive<usize>)],
    case: fn(&mut Random) -> C,
    random: &mut Random,
) -> Vec<C> {
    let mut found = Vec::new();
    for (count, bytes) in sizes {
        let cases = std::iter::repeat_with(|| case(random));
        let fitting = cases.filter(|case| bytes.contains(&case.payload().len()));
        found.extend(fitting.take(*count));
    }
    found
}

/// A case written down by hand, and its answer.
pub struct Example<C> {
    pub what: &'static str,
    pub case: C,
    pub answer: String,
}

/// Checks every example; gives how many differ.
pub fn check<C: Asked>(kind: &str, examples: Vec<Example<C>>) -> usize {
    let outcomes = examples.into_iter().map(|example| Outcome {
        text: example.what,
        answer: due(&example.case),
        by_hand: example.answer,
        requests: example.case.requests(),
    });
    count_different(kind, outcomes)
}

/// A list of so many bytes: a case of LFs alone, whose header has `others` after
/// the first number.
pub fn of_feeds(bytes: usize, others: &str) -> Vec<u8> {
    let feeds = bytes - format!("1000000\t{others}\n").len();
    let header = format!("{feeds}\t{others}\n");
    [header.into_bytes(), vec![b'\n'; feeds]].concat()
}

/// What a program is run on: lists that are not in the form, alone and after a
/// case; none; the longest and one byte more; worked cases and random ones.
pub struct Replay<C> {
    pub before: &'static [u8],
    pub outside: Vec<Vec<u8>>,
    pub of_bytes: fn(usize) -> Vec<u8>,
    pub examples: Vec<Example<C>>,
    pub case: fn(&mut Random) -> C,
}

impl<C: Asked> Replay<C> {
    /// Compares the answers of a program, to `count` random cases of `seed`.
    pub fn run(self, program: &str, seed: u64, count: usize) -> io::Result<Comparison> {
        let mut lists = Lists::new(program);
        for list in self.outside {
            whole::<C>(&mut lists, [self.before, &list].concat())?;
            whole::<C>(&mut lists, list)?;
        }
        whole::<C>(&mut lists, Vec::new())?;
        for bytes in [LONGEST, LONGEST + 1] {
            whole::<C>(&mut lists, (self.of_bytes)(bytes))?;
        }
        for example in self.examples {
            push(&mut lists, &example.case)?;
        }
        let mut random = Random::new(seed);
        for _ in 0..count {
            push(&mut lists, &(self.case)(&mut random))?;
        }
        lists.finish()
    }
}

fn whole<C: Asked>(lists: &mut Lists, list: Vec<u8>) -> io::Result<()> {
    let mut due = Vec::new();
    answer_list::<C>(&list, &mut due)?;
    lists.whole(list, &due)
}

fn push(lists: &mut Lists, case: &impl Asked) -> io::Result<()> {
    let mut asked = Vec::new();
    case.write(&mut asked)?;
    lists.push(asked, Expected::new(due(case), case.requests()))
}
