//! Accepted instructions through encode.rs, with N2 and N5, and then through a
//! program: their plain form comes back. The judge of runs has no part in it.

use std::io;

use super::answer::Text;
use super::judge::Reading;
use super::plain::{left_out, plain};
use super::run::Run;
use super::tails::mixed;
use crate::answer::answer;
use crate::batch::Batches;
use crate::branches;
use crate::compare::{Comparison, Expected};
use crate::generate;
use crate::instructions::Instruction;
use crate::numeric::placed;
use crate::random::Random;
use crate::requests::Requests;

/// The most words behind an instruction.
const BEHIND: u64 = 3;

/// An instruction's words with some behind them, and the reading due.
pub struct Due {
    pub run: Run,
    pub instruction: Instruction,
    pub bytes: usize,
    pub requests: Requests,
}

impl Due {
    fn expected(&self, text: Text) -> Expected {
        let text = text(Reading::Read(self.instruction, self.bytes));
        Expected::new(text, self.requests)
    }
}

/// What the line of the numeric form calls for, if `encode` accepts it and
/// the reading does not leave it out.
pub fn due(line: &str, random: &mut Random) -> Option<Due> {
    let placed = placed(line.as_bytes())?;
    let answer = answer(&placed);
    let (Ok(mut words), Ok(bytes)) = (answer.words, answer.size) else {
        return None;
    };
    if left_out(&placed.instruction) {
        return None;
    }
    words.extend(mixed(random.below(BEHIND + 1) as usize, random));
    Some(Due {
        run: Run {
            address: placed.address,
            words,
        },
        instruction: plain(placed.instruction),
        bytes: bytes as usize,
        requests: Requests::of(&placed),
    })
}

/// Compares the accepted ones of the branches around -1 and of `count` generated
/// lines, answered by `text`.
pub fn replay(text: Text, program: &str, seed: u64, count: usize) -> io::Result<Comparison> {
    let mut comparison = Comparison::default();
    let mut batches = Batches::new(program, |asked: &[u8], due: Expected, found: &[u8]| {
        comparison.due(asked, &due, Some(found))
    });
    let mut random = Random::new(seed);
    let branches = branches::lines().into_iter();
    for line in branches.chain(generate::lines(seed).take(count)) {
        if let Some(due) = due(&line, &mut random) {
            batches.push(due.run.line().as_bytes(), due.expected(text))?;
        }
    }
    batches.finish()?;
    Ok(comparison)
}
