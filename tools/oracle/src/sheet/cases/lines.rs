//! Lines that stand against one rule, each as line 2 of 3.

use super::super::record::Record;
use super::second;

const LINES: [&[u8]; 79] = [
    b"",
    b"\t",
    b" ",
    b"\r",
    b"0",
    b"81",
    b"nop",
    b"Nop",
    b"NO",
    b"NOPE",
    b"NOP ",
    b" NOP",
    b"NOP\t",
    b"\tNOP",
    b"NOP\r",
    b"NOP\0",
    b"\0",
    b"\xFF",
    b"NOP\xC3\xA9",
    b"NOP;",
    b"NOP NOP",
    b"IllegalWord",
    b"IllegalWord\t0",
    b"IllegalWord\t65535",
    b"SIMHALT",
    b"SIMHALT\t0",
    b"START\t4096",
    b"Instruction",
    b"MOVEQ",
    b"MOVEQ\t",
    b"MOVEQ\t\t\t",
    b"MOVEQ\t5\tData\t0\t",
    b"MOVEQ\t5\t\tData\t0",
    b"MOVEQ\t5 \tData\t0",
    b"MOVEQ\t 5\tData\t0",
    b"MOVEQ 5\tData\t0",
    b"MOVEQ\t+5\tData\t0",
    b"MOVEQ\t05\tData\t0",
    b"MOVEQ\t0x5\tData\t0",
    b"MOVEQ\t$5\tData\t0",
    b"MOVEQ\t5.0\tData\t0",
    b"MOVEQ\t5/\tData\t0",
    b"MOVEQ\t5:\tData\t0",
    b"MOVEQ\t-5\tData\t0",
    b"MOVEQ\t261\tData\t0",
    b"MOVEQ\t4294967295\tData\t0",
    b"MOVEQ\t4294967301\tData\t0",
    b"MOVEQ\t18446744073709551621\tData\t0",
    b"MOVEQ\t5\tData\t00",
    b"MOVEQ\t5\tData\t-0",
    b"MOVEQ\t5\tD0",
    b"MOVEQ\t5\tRegister\tData\t0",
    b"PEA\tIndirectDisplacement\t-\tAddress\t0",
    b"PEA\tIndirectDisplacement\t--4\tAddress\t0",
    b"PEA\tIndirectDisplacement\t-04\tAddress\t0",
    b"PEA\tIndirectDisplacement\t4-\tAddress\t0",
    b"PEA\tIndirectDisplacement\t-18446744073709551612\tAddress\t0",
    b"PEA\tIndirectDisplacement\t18446744073709551612\tAddress\t0",
    b"PEA\tAbsolute\t-4\tLong",
    b"PEA\tAbsolute\t36893488147419103236\tLong",
    b"PEA\tAbsolute\t4\tByte",
    b"PEA\tIndirect\tAddress\t0",
    b"PEA\tIndirectIndex\tAddress\t0\t4\tData\t1",
    b"PEA\tOperand\tIndirect\t0",
    b"BRA\t@1\tByte",
    b"BRA\tShort\t@1",
    b"Bcc\t@1\tEqual\tShort\tShort",
    b"Bcc\t@1\tEQ\tShort",
    b"BEQ\t@1\tShort",
    b"MULL\tRegister\tData\t1\t2\tNone",
    b"MULL\tRegister\tData\t1\t2\t3\tSigned",
    b"MULL\tRegister\tData\t1\t2\tSome\t256\tSigned",
    b"TRAPcc\tTrue\tNone\t0",
    b"TRAPcc\tTrue\tWord",
    b"TRAPcc\tTrue\tWord\t4294967295",
    b"ADDQ\t4294967295\tRegister\tData\t0\tByte",
    b"STOP\t4294967295",
    b"ORItoCCR\t4294967295",
    b"CAS2\t0\t1\t2\t3\tAddress\t0\tWord",
];

/// Names of lines: of none, of one too large for any width, not in the form,
/// and where no name or only a name may stand.
const NAMES: [&str; 42] = [
    "BRA\t@0\tWord",
    "BRA\t@4\tWord",
    "BRA\t@3\tWord",
    "BRA\t@257\tWord",
    "BRA\t@65537\tWord",
    "BRA\t@4294967297\tWord",
    "BRA\t@18446744073709551617\tWord",
    "BRA\t@340282366920938463463374607431768211457\tWord",
    "BRA\t@100000000000000000000000000000\tWord",
    "BRA\t@10000000000000000000000000000x\tWord",
    "BRA\t@10000000000000000000000000000 \tWord",
    "BRA\t@000000000000000000000000000001\tWord",
    "BRA\t@9\tword",
    "BRA\t@9\tWord\t",
    "BRA\t@9",
    "BRA\t@9\t",
    "BRA\t@\tWord",
    "BRA\t@@1\tWord",
    "BRA\t@1@\tWord",
    "BRA\t1@\tWord",
    "BRA\t@ 1\tWord",
    "BRA\t@-1\tWord",
    "BRA\t@+1\tWord",
    "BRA\t1\tWord",
    "BSR\t4096\tWord",
    "Bcc\t4096\tEqual\tWord",
    "DBcc\tData\t0\t4096\tFalse",
    "DBcc\tData\t@1\t@1\tFalse",
    "DBcc\tData\t8\t@9\tFalse",
    "Bcc\t@9\tTrue\tWord",
    "Bcc\t@1\tTrue\tWord",
    "MOVE\tPcDisplacement\t@9\tRegister\tData\t256\tWord",
    "MOVE\tPcDisplacement\t@9\tRegister\tData\t255\tWord",
    "MOVE\tPcIndex\t@0\tData\t1\tByte\tIndirect\t0\tWord",
    "MOVE\tPcIndex\t@1\tData\t1\tByte\tIndirect\t0\tWord",
    "MOVE\tPcIndex\t@01\tData\t1\tWord\tIndirect\t0\tWord",
    "MOVE\tImmediate\t@1\tIndirect\t0\tWord",
    "MOVE\tIndirect\t@1\tIndirect\t0\tWord",
    "PEA\tAbsolute\t@1\tLong",
    "PEA\tExtended\t8\t@1\t0\t0",
    "LINK\tAddress\t0\t@1",
    "JMP\tPcDisplacement\t-1",
];

/// Digits, tabs or letters in a long field or line.
const LONG: usize = 5_000;

pub fn all() -> Vec<Record> {
    let names = NAMES.iter().map(|line| second(line.as_bytes()));
    let long = long().map(|line| second(line.as_bytes()));
    outside().into_iter().chain(names).chain(long).collect()
}

/// Lines that are not in the form.
pub fn outside() -> Vec<Record> {
    LINES.into_iter().map(second).collect()
}

/// A name of no line, one that is no name, a number, fields and a variant.
fn long() -> [String; 5] {
    let digits = "1".repeat(LONG);
    [
        format!("BRA\t@{digits}\tWord"),
        format!("BRA\t@{digits}x\tWord"),
        format!("MOVEQ\t{digits}\tData\t0"),
        format!("NOP{}", "\t".repeat(LONG)),
        format!("NOP{}", "P".repeat(LONG)),
    ]
}
