//! A program against objdump for the MC68000, with objdump for the MC68020
//! beside it, so that 15 and 6 are told apart. Wherever objdump takes no notice
//! of the processor, 15 is due.

use std::io;

use super::answer::NOT_68000;
use super::entries::index_words;
use crate::batch::Batches;
use crate::instructions::{BranchSize::Long, Instruction};
use crate::random::Random;
use crate::reading::answer::NOTHING;
use crate::reading::classes::{Classes, Verdict};
use crate::reading::family::is_of;
use crate::reading::judge::{read, Reading};
use crate::reading::objdump::{
    self, disassembly, line_class, numbered, refused_class, runs, Shown, MC68000, MC68020, NUMBERED,
};
use crate::reading::run::Run;
use crate::schema::instructions;
use crate::written::place;

/// A run and what objdump shows of it for the MC68000 and for the MC68020.
struct Note {
    run: Run,
    old: Shown,
    new: Shown,
}

pub fn compare(program: &str, seed: u64, tails: usize) -> io::Result<Classes> {
    let mut classes = Classes::default();
    let mut batches = Batches::new(program, |asked: &[u8], note: Note, found: &[u8]| {
        let found = String::from_utf8_lossy(found);
        classes.count(note.verdict(&found), || {
            let asked = String::from_utf8_lossy(asked);
            let (old, new) = (note.old.said(), note.new.said());
            format!("{asked:?}: {found:?}, objdump {old} (68020: {new})")
        });
    });
    let mut random = Random::new(seed);
    for number in 0..tails {
        let runs = runs(number, &mut random);
        let (old, new) = (disassembly(&runs, MC68000)?, disassembly(&runs, MC68020)?);
        for (run, (old, new)) in runs.into_iter().zip(old.into_iter().zip(new)) {
            let line = run.line();
            batches.push(line.as_bytes(), Note { run, old, new })?;
        }
    }
    batches.finish()?;
    Ok(classes)
}

impl Note {
    /// 15 needs an instruction of the MC68020 alone, 6 one of neither.
    fn agrees(&self, found: &str) -> bool {
        let (old, new) = (self.old.is_instruction(), self.new.is_instruction());
        match found {
            NOT_68000 => !old && new,
            NOTHING => !old && !new,
            _ => objdump::agrees(found, &self.old),
        }
    }

    fn verdict(&self, found: &str) -> Verdict {
        match self.not_of_68000() {
            Some(rule) if found == NOT_68000 => Verdict::Class(rule.to_string()),
            None if self.agrees(found) => Verdict::Same,
            None => Verdict::different(self.class(found)),
            Some(_) => Verdict::Unexplained,
        }
    }

    /// The rule that explains a difference where objdump minds the processor.
    fn class(&self, found: &str) -> Option<String> {
        match found {
            NOTHING if self.old.is_instruction() => refused_class(&self.run, &self.old),
            NOTHING => {
                let class = refused_class(&self.run, &self.new)?;
                Some(format!("{class} for the MC68020 alone"))
            }
            _ => {
                let (name, _) = objdump::read(found)?;
                line_class(name, &self.old).map(str::to_string)
            }
        }
    }

    /// The rule by which 15 is due where objdump does not show it.
    fn not_of_68000(&self) -> Option<&'static str> {
        use Instruction::*;
        let Reading::Read(instruction, bytes) = read(&self.run.words, self.run.address) else {
            return None;
        };
        let shown = (self.old.is_instruction(), self.new.is_instruction());
        match (shown, instruction) {
            ((false, false), BF { .. }) if numbered(&self.run) => Some(NUMBERED),
            ((true, true), BRA(_, Long) | BSR(_, Long) | Bcc(_, _, Long)) => {
                let minus_one = self.old.bytes == 2 && self.new.bytes == 6;
                minus_one.then_some("$FF branch: objdump shows a short branch")
            }
            ((true, true), _) => self.index_word(instruction, bytes),
            _ => None,
        }
    }

    /// objdump shows scales and full words for every processor.
    fn index_word(&self, instruction: Instruction, bytes: usize) -> Option<&'static str> {
        let name = instructions()[place(&instruction)].name;
        let alike = self.old.text == self.new.text
            && self.old.bytes == bytes
            && is_of(name, self.old.mnemonic());
        match index_words(instruction) {
            (_, true) if alike => Some("full word: objdump shows it for every processor"),
            (true, false) if alike => Some("scale above 1: objdump shows it for every processor"),
            _ => None,
        }
    }
}
