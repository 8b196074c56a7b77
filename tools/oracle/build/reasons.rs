//! The reason texts of encode.rs, numbered from 1 by first appearance.

use crate::text::{pieces, Piece};

const COUNT: usize = 65;
const KNOWN: [(usize, &str); 2] = [
    (26, "`jmp` takes a control operand"),
    (
        43,
        "`exg` of a data and an address register is written data register first",
    ),
];

/// The table, as source.
pub fn table(encode: &str) -> String {
    let texts = texts(encode);
    assert_eq!(texts.len(), COUNT, "the count of reasons");
    for (number, text) in KNOWN {
        assert_eq!(texts[number - 1], text, "reason {number}");
    }
    format!("pub static REASONS: [&str; {COUNT}] = {texts:#?};\n")
}

/// Every literal from the encoder on: before it stand only the names of
/// fields and the formats of messages.
fn texts(encode: &str) -> Vec<&str> {
    let start = encode
        .find("impl Encoder {")
        .expect("encode.rs has an Encoder");
    let mut texts = Vec::new();
    for piece in pieces(&encode[start..]) {
        match piece {
            Piece::Literal(text) if !texts.contains(&text) => texts.push(text),
            _ => {}
        }
    }
    texts
}
