//! Records as they are made, right ones and ones with something wrong.

/// What is known of a record before it is written.
#[derive(Debug, Clone)]
pub struct Record {
    /// The digit after `S`.
    pub kind: u8,
    pub address: u32,
    pub data: Vec<u8>,
}

pub fn record(kind: u8, address: u32, data: &[u8]) -> Record {
    Record {
        kind,
        address,
        data: data.to_vec(),
    }
}

/// The bytes of the address of a kind.
pub fn wide(kind: u8) -> usize {
    match kind {
        1 | 9 => 2,
        2 | 8 => 3,
        _ => 4,
    }
}

/// The most data bytes of a kind that are whole words.
pub fn most_data(kind: u8) -> usize {
    (255 - wide(kind) - 1) & !1
}

/// Whether the address can stand in a record of the kind.
pub fn takes(kind: u8, address: u64) -> bool {
    address < 1 << (8 * wide(kind))
}

impl Record {
    /// The bytes before the checksum: count, address and data.
    pub fn covered(&self) -> Vec<u8> {
        let wide = wide(self.kind);
        let mut bytes = vec![(wide + self.data.len() + 1) as u8];
        bytes.extend(&self.address.to_be_bytes()[4 - wide..]);
        bytes.extend(&self.data);
        bytes
    }

    /// The record with its checksum.
    pub fn line(&self) -> Vec<u8> {
        spelled(self.kind, &summed(self.covered()))
    }
}

/// The bytes with their checksum: it and they make $FF in the low byte.
pub fn summed(mut bytes: Vec<u8>) -> Vec<u8> {
    let sum = bytes.iter().fold(0u8, |sum, byte| sum.wrapping_add(*byte));
    bytes.push(0xFF - sum);
    bytes
}

/// A record of these bytes.
pub fn spelled(kind: u8, bytes: &[u8]) -> Vec<u8> {
    let digits = bytes.iter().map(|byte| format!("{byte:02X}"));
    format!("S{kind}{}\n", digits.collect::<String>()).into_bytes()
}

/// The text of records.
pub fn text(records: &[Record]) -> Vec<u8> {
    records.iter().flat_map(Record::line).collect()
}

/// So many data bytes, no two neighbours equal.
pub fn counted(count: usize) -> Vec<u8> {
    (0..count).map(|at| (at * 37 + 11) as u8).collect()
}
