//! The original encoder and decoder, with stand-ins for what they lean on.

#![allow(dead_code)]

include!(concat!(env!("OUT_DIR"), "/mod_encode.rs"));
include!(concat!(env!("OUT_DIR"), "/mod_decode.rs"));

/// The processors, oldest first.
#[derive(Debug, Clone, Copy, PartialEq, Eq, PartialOrd, Ord)]
pub enum Processor {
    M68000,
    M68010,
    M68020,
}

impl Processor {
    pub const ALL: [Processor; 3] = [Processor::M68000, Processor::M68010, Processor::M68020];

    /// Whether it has what `first` brought.
    pub fn has(self, first: Processor) -> bool {
        self >= first
    }
}

#[derive(Debug, Clone, Copy, PartialEq, Eq)]
pub struct Dialect {
    pub processor: Processor,
    pub bit_fields: bool,
}

impl From<Processor> for Dialect {
    fn from(processor: Processor) -> Dialect {
        Dialect {
            processor,
            bit_fields: false,
        }
    }
}
