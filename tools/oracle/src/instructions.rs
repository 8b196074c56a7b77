//! The module path under which encode.rs and decode.rs name the types.

#![allow(dead_code)]

include!(concat!(env!("OUT_DIR"), "/mod_encoded.rs"));

pub use encoded::*;
