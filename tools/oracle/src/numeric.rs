//! Reads one line of the numeric form into the original's types.

use crate::instructions::*;

#[cfg(not(target_pointer_width = "64"))]
compile_error!("the addresses of the numeric form are 64 bits wide");

/// A line in numeric form.
pub struct Placed {
    pub address: u32,
    pub instruction: Instruction,
    /// Whether refusal 1 applies; `instruction` then stands for nothing.
    pub outside: bool,
}

/// The numbers of a line not read yet.
pub struct Numbers<'l> {
    rest: Option<&'l [u8]>,
    outside: bool,
}

/// A value that the numeric form can hold.
pub trait Numeric: Sized {
    fn read(numbers: &mut Numbers) -> Option<Self>;
}

/// The instruction and address of `line`, which has no LF; `None` where it
/// is not in the form.
pub fn placed(line: &[u8]) -> Option<Placed> {
    let mut numbers = Numbers {
        rest: Some(line),
        outside: false,
    };
    let address = numbers.read()?;
    let instruction = numbers.read()?;
    if numbers.rest.is_some() {
        return None;
    }
    let outside = numbers.outside || outside_its_line(&instruction);
    Some(Placed {
        address,
        instruction,
        outside,
    })
}

fn outside_its_line(instruction: &Instruction) -> bool {
    match instruction {
        Instruction::LINEA(word) => !(0xA000..=0xAFFF).contains(word),
        Instruction::LINEF(word) => *word < 0xF000,
        _ => false,
    }
}

impl<'l> Numbers<'l> {
    pub fn read<T: Numeric>(&mut self) -> Option<T> {
        T::read(self)
    }

    /// The next number as it stands, up to a tab or the end.
    fn token(&mut self) -> Option<&'l [u8]> {
        let rest = self.rest?;
        match rest.iter().position(|byte| *byte == b'\t') {
            Some(tab) => {
                self.rest = Some(&rest[tab + 1..]);
                Some(&rest[..tab])
            }
            None => {
                self.rest = None;
                Some(rest)
            }
        }
    }

    fn unsigned(&mut self, highest: u64) -> Option<u64> {
        let value = digits(self.token()?)?;
        (value <= highest).then_some(value)
    }

    fn signed(&mut self) -> Option<i32> {
        let token = self.token()?;
        match token.strip_prefix(b"-") {
            Some(rest) => {
                let value = digits(rest)?;
                (1..=1 << 31)
                    .contains(&value)
                    .then(|| (value as i64).wrapping_neg() as i32)
            }
            None => i32::try_from(digits(token)?).ok(),
        }
    }

    /// The place of one of `count` variants.
    fn place(&mut self, count: u64) -> Option<u64> {
        self.unsigned(count - 1)
    }
}

/// A decimal number below 2^64 with no leading zero.
pub fn digits(token: &[u8]) -> Option<u64> {
    if token.is_empty() || (token.len() > 1 && token[0] == b'0') {
        return None;
    }
    token.iter().try_fold(0u64, |value, byte| {
        let digit = byte.is_ascii_digit().then(|| (byte - b'0') as u64)?;
        value.checked_mul(10)?.checked_add(digit)
    })
}

impl Numeric for u8 {
    fn read(numbers: &mut Numbers) -> Option<Self> {
        Some(numbers.unsigned(u8::MAX as u64)? as u8)
    }
}

impl Numeric for u16 {
    fn read(numbers: &mut Numbers) -> Option<Self> {
        Some(numbers.unsigned(u16::MAX as u64)? as u16)
    }
}

impl Numeric for u32 {
    fn read(numbers: &mut Numbers) -> Option<Self> {
        Some(numbers.unsigned(u32::MAX as u64)? as u32)
    }
}

impl Numeric for usize {
    fn read(numbers: &mut Numbers) -> Option<Self> {
        Some(numbers.unsigned(u64::MAX)? as usize)
    }
}

impl Numeric for i32 {
    fn read(numbers: &mut Numbers) -> Option<Self> {
        numbers.signed()
    }
}

impl Numeric for bool {
    fn read(numbers: &mut Numbers) -> Option<Self> {
        Some(numbers.place(2)? == 1)
    }
}

impl<T: Numeric> Numeric for Option<T> {
    fn read(numbers: &mut Numbers) -> Option<Self> {
        match numbers.place(2)? {
            0 => Some(None),
            _ => Some(Some(numbers.read()?)),
        }
    }
}

impl<A: Numeric, B: Numeric> Numeric for (A, B) {
    fn read(numbers: &mut Numbers) -> Option<Self> {
        Some((numbers.read()?, numbers.read()?))
    }
}

impl Numeric for IndexBase {
    fn read(numbers: &mut Numbers) -> Option<Self> {
        let number: u8 = numbers.read()?;
        numbers.outside |= number > 8;
        Some(match number {
            0..=7 => IndexBase::address(number),
            _ => IndexBase::PC,
        })
    }
}

impl Numeric for ExtensionWord {
    fn read(numbers: &mut Numbers) -> Option<Self> {
        let word = ExtensionWord(numbers.read()?);
        numbers.outside |= word.is_full() && !word.is_canonical();
        Some(word)
    }
}

include!(concat!(env!("OUT_DIR"), "/readers.rs"));
