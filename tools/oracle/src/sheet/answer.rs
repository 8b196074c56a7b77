//! What the program `sheet` prints.

use std::io::{self, Write};

use super::judge::{judge, Listed, Refused};
use super::record::Record;
use crate::stored;

/// The listing or the refusal, each line with its LF.
pub fn answer(record: &Record) -> String {
    match judge(record) {
        Ok(listing) => {
            let lines = listing.iter().enumerate();
            lines.map(|(at, listed)| listed.line(at + 1)).collect()
        }
        Err(refused) => refused.line(),
    }
}

impl Listed {
    fn line(&self, number: usize) -> String {
        let words: String = self
            .words
            .iter()
            .map(|word| format!("\t{word:04X}"))
            .collect();
        format!("{number}\t{:08X}{words}\n", self.address)
    }
}

impl Refused {
    fn line(&self) -> String {
        let refusal = self.refusal;
        format!(
            "refused\t{}\t{}\t{}\t{}\n",
            refusal.number, self.line, refusal.detail, refusal.value
        )
    }
}

/// The answers to a stored list, each followed by an empty line.
pub fn answer_list(list: &[u8], output: &mut impl Write) -> io::Result<()> {
    stored::answer_list::<Record>(list, output)
}

/// The answer to one sheet as the program `sheet` has it.
pub fn answer_one(text: Vec<u8>, output: &mut impl Write) -> io::Result<()> {
    output.write_all(answer(&Record::of_program(text)).as_bytes())?;
    output.flush()
}
