//! The sheets of examples/.

use super::super::record::Record;

macro_rules! example {
    ($name:literal) => {
        include_bytes!(concat!("../../../../../examples/", $name, ".sheet"))
    };
}

const SHEETS: [&[u8]; 11] = [
    example!("countdown"),
    example!("ratio"),
    example!("table"),
    example!("refused-1"),
    example!("refused-2"),
    example!("refused-3"),
    example!("refused-7"),
    example!("refused-8"),
    example!("refused-9"),
    example!("refused-10"),
    example!("refused-11"),
];

pub fn all() -> Vec<Record> {
    SHEETS.map(Record::of_program).to_vec()
}
