//! Writes an instruction in numeric form, the inverse of `numeric`.

use crate::instructions::*;

/// A value that the numeric form can hold.
trait Written {
    fn write(&self, numbers: &mut Vec<i128>);
}

/// The numbers of `instruction`, without an address.
pub fn values(instruction: &Instruction) -> Vec<i128> {
    let mut numbers = Vec::new();
    instruction.write(&mut numbers);
    numbers
}

/// The numeric form of `instruction`, without an address.
pub fn numbers(instruction: &Instruction) -> String {
    let numbers: Vec<String> = values(instruction).iter().map(i128::to_string).collect();
    numbers.join("\t")
}

/// The place of `instruction` among the variants.
pub fn place(instruction: &Instruction) -> usize {
    values(instruction)[0] as usize
}

macro_rules! number {
    ($($kind:ty),*) => {$(
        impl Written for $kind {
            fn write(&self, numbers: &mut Vec<i128>) {
                numbers.push(*self as i128);
            }
        }
    )*};
}

number!(u8, u16, u32, usize, i32, bool);

impl<T: Written> Written for Option<T> {
    fn write(&self, numbers: &mut Vec<i128>) {
        numbers.push(self.is_some() as i128);
        if let Some(value) = self {
            value.write(numbers);
        }
    }
}

impl<A: Written, B: Written> Written for (A, B) {
    fn write(&self, numbers: &mut Vec<i128>) {
        self.0.write(numbers);
        self.1.write(numbers);
    }
}

impl Written for IndexBase {
    fn write(&self, numbers: &mut Vec<i128>) {
        self.address_register().unwrap_or(8).write(numbers);
    }
}

impl Written for ExtensionWord {
    fn write(&self, numbers: &mut Vec<i128>) {
        self.0.write(numbers);
    }
}

include!(concat!(env!("OUT_DIR"), "/writers.rs"));
