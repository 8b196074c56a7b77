//! The answer to a line of ten numbers, of which the first says what is asked.

use crate::answer::NOT_IN_FORM;
use crate::instructions::*;
use crate::machine::Processor;
use crate::numeric::digits;

/// How many numbers a line has.
pub const NUMBERS: usize = 10;

const INDIRECTIONS: [Indirection; 3] = [
    Indirection::None,
    Indirection::Preindexed,
    Indirection::Postindexed,
];

/// The answer to a line, without LF.
pub fn answer_line(line: &[u8]) -> String {
    let values = numbers(line).and_then(|numbers| asked(&numbers));
    match values {
        Some(values) => {
            let values: String = values.iter().map(|value| format!("\t{value}")).collect();
            format!("=>{values}")
        }
        None => NOT_IN_FORM.to_string(),
    }
}

fn numbers(line: &[u8]) -> Option<Vec<u64>> {
    let numbers: Option<Vec<u64>> = line.split(|byte| *byte == b'\t').map(digits).collect();
    numbers.filter(|numbers| numbers.len() == NUMBERS)
}

/// A number above its range is taken modulo it.
fn asked(numbers: &[u64]) -> Option<Vec<u32>> {
    let first = numbers[1];
    Some(match numbers[0] {
        0 => word(first as u16),
        1 => {
            let size = size(first);
            vec![size.to_bytes() as u32, size.to_bits() as u32]
        }
        2 => vec![register(first, numbers[2]).to_index() as u32],
        3 => {
            let size = DisplacementSize::of_code(first as u16);
            vec![size.bytes(), size.code() as u32]
        }
        4 => vec![Condition::from_code(first as u16).code() as u32],
        5 => bit_field(BitFieldOperation::ALL[first as usize % 8]),
        6 => base(IndexBase::address(first as u8)),
        7 => vec![ExtensionWord::brief(index(numbers), numbers[4] as u8).0 as u32],
        8 => vec![full(numbers).0 as u32],
        9 => constants(),
        _ => return None,
    })
}

fn word(code: u16) -> Vec<u32> {
    let word = ExtensionWord(code);
    vec![
        word.is_full() as u32,
        word.base_suppressed() as u32,
        word.index_suppressed() as u32,
        word.is_canonical() as u32,
        index_number(word.index_register()),
        word.scale_shift(),
        word.scale() as u32,
        word.index().map_or(0, |index| 1 + index_number(index)),
        word.base_displacement_size().code() as u32,
        word.indirection() as u32,
        word.outer_displacement_size().code() as u32,
        word.bytes(),
        DisplacementSize::of_code(code).code() as u32,
        Condition::from_code(code).code() as u32,
        ControlRegister::from_code(code).0 as u32,
        processor(ControlRegister(code).processor()),
        BitFieldOperation::ALL[code as usize % 8] as u32,
    ]
}

fn index_number(index: IndexRegister) -> u32 {
    let size = match index.size {
        Size::Byte => 0,
        Size::Word => 1,
        Size::Long => 2,
    };
    index.register.to_index() as u32 * 4 + size
}

fn processor(processor: Option<Processor>) -> u32 {
    processor.map_or(0, |processor| 1 + processor as u32)
}

fn size(place: u64) -> Size {
    [Size::Byte, Size::Word, Size::Long][place as usize % 3]
}

fn register(place: u64, number: u64) -> RegisterOperand {
    match place % 2 {
        0 => RegisterOperand::Address(number as u8),
        _ => RegisterOperand::Data(number as u8),
    }
}

fn index(numbers: &[u64]) -> IndexRegister {
    IndexRegister {
        register: register(numbers[1], numbers[2]),
        size: size(numbers[3]),
    }
}

fn bit_field(operation: BitFieldOperation) -> Vec<u32> {
    vec![
        operation.has_register() as u32,
        operation.writes() as u32,
        operation as u32,
    ]
}

fn base(base: IndexBase) -> Vec<u32> {
    let register = base.address_register();
    vec![
        base.is_pc() as u32,
        register.map_or(0, |number| 1 + number as u32),
    ]
}

fn full(numbers: &[u64]) -> ExtensionWord {
    ExtensionWord::full(
        index(numbers),
        numbers[4] as u8,
        numbers[5] % 2 == 1,
        numbers[6] % 2 == 1,
        DisplacementSize::of_code(numbers[7] as u16),
        INDIRECTIONS[numbers[8] as usize % 3],
        DisplacementSize::of_code(numbers[9] as u16),
    )
}

fn constants() -> Vec<u32> {
    let flags = [
        ExtensionWord::FULL as u32,
        ExtensionWord::BASE_SUPPRESSED as u32,
        ExtensionWord::INDEX_SUPPRESSED as u32,
        EXTENSION_WORD_OFFSET as u32,
    ];
    let registers = [
        ControlRegister::SFC,
        ControlRegister::DFC,
        ControlRegister::CACR,
        ControlRegister::USP,
        ControlRegister::VBR,
        ControlRegister::CAAR,
        ControlRegister::MSP,
        ControlRegister::ISP,
    ];
    let registers = registers.map(|register| register.0 as u32);
    [&flags[..], &base(IndexBase::PC), &registers].concat()
}
