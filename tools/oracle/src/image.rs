//! An image, its start and its words, and the line that it is written as.

use crate::numeric::digits;

#[derive(Debug, Clone, PartialEq, Eq)]
pub struct Image {
    pub start: u32,
    pub words: Vec<u16>,
}

impl Image {
    /// The address past the last word; it may be above 2^32.
    pub fn end(&self) -> u64 {
        self.start as u64 + 2 * self.words.len() as u64
    }

    /// The bytes, the high one of each word first.
    pub fn bytes(&self) -> Vec<u8> {
        let bytes = self.words.iter().flat_map(|word| word.to_be_bytes());
        bytes.collect()
    }

    /// The start in decimal and each word after a tab, with LF.
    pub fn line(&self) -> String {
        let words = self.words.iter().map(|word| format!("\t{word:04X}"));
        format!("{}{}\n", self.start, words.collect::<String>())
    }

    /// The image whose line this is, LF included.
    pub fn of_line(line: &[u8]) -> Option<Image> {
        let mut fields = line.strip_suffix(b"\n")?.split(|byte| *byte == b'\t');
        let start = u32::try_from(digits(fields.next()?)?).ok()?;
        let words: Option<Vec<u16>> = fields.map(word).collect();
        let words = words?;
        Some(Image { start, words })
    }
}

fn word(field: &[u8]) -> Option<u16> {
    let capitals = |byte: &u8| matches!(byte, b'0'..=b'9' | b'A'..=b'F');
    if field.len() != 4 || !field.iter().all(capitals) {
        return None;
    }
    u16::from_str_radix(std::str::from_utf8(field).ok()?, 16).ok()
}
