//! A run of words at an address, and the line it stands on.

use crate::numeric::digits;

#[derive(Debug, Clone, PartialEq, Eq)]
pub struct Run {
    pub address: u32,
    pub words: Vec<u16>,
}

impl Run {
    /// The run on `line`, which has no LF; `None` where it is not in the form.
    pub fn of_line(line: &[u8]) -> Option<Run> {
        let mut fields = line.split(|byte| *byte == b'\t');
        let address = digits(fields.next()?)?;
        let address = u32::try_from(address).ok()?;
        let words = fields.map(word).collect::<Option<Vec<u16>>>()?;
        Some(Run { address, words })
    }

    pub fn line(&self) -> String {
        let mut line = self.address.to_string();
        for word in &self.words {
            line.push_str(&format!("\t{word:04X}"));
        }
        line
    }
}

/// Exactly four hexadecimal digits, capitals or not.
fn word(field: &[u8]) -> Option<u16> {
    if field.len() != 4 {
        return None;
    }
    field.iter().try_fold(0, |value, byte| {
        let digit = (*byte as char).to_digit(16)?;
        Some(value << 4 | digit as u16)
    })
}
