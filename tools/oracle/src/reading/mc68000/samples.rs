//! Accepted instructions for the stored list, each with a choice of its own.

use std::collections::{BTreeMap, HashSet};

use crate::draft::{Draft, Kind};
use crate::generate;
use crate::kinds::kind_of;
use crate::random::Random;
use crate::reading::back::{due, Due};
use crate::reading::run::Run;
use crate::reading::samples::{beginnings, followed, Encoded};
use crate::schema::is_operand;
use crate::written::numbers;

/// Generated lines looked through.
const GENERATED: usize = 60_000;

/// A variant, a field of it, and the operand kind or the variant that stands
/// there.
type Choice = (usize, usize, usize);

pub fn encoded(seed: u64, random: &mut Random) -> Encoded {
    let mut made = Encoded::default();
    let mut longest: BTreeMap<usize, Run> = BTreeMap::new();
    for (number, (place, run)) in kept(seed, random).into_iter().enumerate() {
        made.changed.push(changed(&run, random));
        match number % 2 {
            0 => made.alone.push(run.clone()),
            _ => made.behind.push(followed(&run, random)),
        }
        let most = longest.entry(place).or_insert_with(|| run.clone());
        if run.words.len() > most.words.len() {
            *most = run;
        }
    }
    made.beginnings = longest.values().flat_map(beginnings).collect();
    made
}

/// The words of the instructions that make a choice none before them makes,
/// with the places of their variants.
fn kept(seed: u64, random: &mut Random) -> Vec<(usize, Run)> {
    let mut made: HashSet<Choice> = HashSet::new();
    let mut found = Vec::new();
    let lines = generate::lines(seed).take(GENERATED);
    for mut due in lines.filter_map(|line| due(&line, random)) {
        let choices = choices(&due);
        let place = choices[0].0;
        if choices
            .into_iter()
            .filter(|choice| made.insert(*choice))
            .count()
            > 0
        {
            due.run.words.truncate(due.bytes / 2);
            found.push((place, due.run));
        }
    }
    found
}

/// The choices of an instruction in plain form; the first stands for the
/// variant itself.
fn choices(due: &Due) -> Vec<Choice> {
    let line = format!("{}\t{}", due.run.address, numbers(&due.instruction));
    let draft = Draft::of_line(&line);
    let kinds = draft.variant().fields;
    let fields = kinds.iter().zip(&draft.fields).enumerate();
    let chosen = fields.map(|(field, (kind, leaves))| {
        let choice = match leaves[0].kind {
            _ if is_operand(kind) => kind_of(leaves),
            Kind::Place(_) => leaves[0].value as usize,
            Kind::Number(_) => 0,
        };
        (draft.place, field, choice)
    });
    [(draft.place, kinds.len(), 0)]
        .into_iter()
        .chain(chosen)
        .collect()
}

/// `run` with one bit changed.
fn changed(run: &Run, random: &mut Random) -> Run {
    let mut run = run.clone();
    let at = random.below(run.words.len() as u64) as usize;
    run.words[at] ^= 1 << random.below(16);
    run
}
