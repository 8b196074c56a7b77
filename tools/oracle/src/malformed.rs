//! Lines that are not in the numeric form, each against one rule.

use crate::random::Random;

const LINES: [&[u8]; 73] = [
    b"",
    b" ",
    b"\t",
    b"0",
    b"0\t",
    b"0\t99",
    b"0\t100",
    b"0\t999999999999999999999999999999",
    b"0\t-1",
    b"00\t81",
    b"01\t81",
    b"-0\t81",
    b"-1\t81",
    b"+1\t81",
    b"4294967296\t81",
    b"18446744073709551616\t81",
    b"123456789012345678901234567890\t81",
    b"0\t081",
    b"0\t+81",
    b"0\t81\t",
    b"0\t81\t0",
    b"\t0\t81",
    b"0\t\t81",
    b"0\t81 ",
    b" 0\t81",
    b"0 81",
    b"0\t81\r",
    b"0,81",
    b"0\tNOP",
    b"0x0\t81",
    b"0\t8 1",
    b"zero\t81",
    b"0\t81.0",
    b"0\t\xC3\xA9",
    // MOVEQ
    b"0\t11",
    b"0\t11\t5",
    b"0\t11\t5\t1",
    b"0\t11\t5\t1\t0\t0",
    b"0\t11\t256\t1\t0",
    b"0\t11\t-1\t1\t0",
    b"0\t11\t05\t1\t0",
    b"0\t11\t5\t2\t0",
    b"0\t11\t5\t1\t256",
    b"0\t11\t5\t1\t-0",
    // CLR of d16(An), and of an absolute address
    b"0\t23\t5\t2147483648\t0\t0\t1",
    b"0\t23\t5\t-2147483649\t0\t0\t1",
    b"0\t23\t5\t-0\t0\t0\t1",
    b"0\t23\t5\t+4\t0\t0\t1",
    b"0\t23\t5\t--4\t0\t0\t1",
    b"0\t23\t5\t-\t0\t0\t1",
    b"0\t23\t5\t-04\t0\t0\t1",
    b"0\t23\t5\t4\t0\t0\t3",
    b"0\t23\t11\t0\t0",
    b"0\t23\t10\t18446744073709551616\t0\t1",
    b"0\t23\t10\t-1\t0\t1",
    b"0\t23\t10\t0\t2\t1",
    b"0\t23\t9\t256\t272\t0\t0\t1",
    b"0\t23\t9\t0\t65536\t0\t0\t1",
    b"0\t23\t9\t0\t272\t0\t1",
    // ADDI, STOP, Bcc
    b"0\t13\t4294967296\t1\t1\t0\t2",
    b"0\t13\t-1\t1\t1\t0\t2",
    b"0\t58\t65536",
    b"0\t58\t-1",
    // a byte or word that no Immediate is: MOVEQ, ADDQ, STOP, ORItoCCR, TRAPcc
    b"0\t11\t4294967295\t1\t0",
    b"0\t10\t4294967295\t1\t1\t0\t1",
    b"0\t58\t4294967295",
    b"0\t69\t4294967295",
    b"0\t89\t7\t1\t4294967295",
    b"0\t35\t0\t16\t1",
    b"0\t35\t0\t7\t3",
    // MOVEUSP, MULL: a bool and an `Option`
    b"0\t60\t2\t0\t0",
    b"0\t90\t1\t1\t0\t2\t2\t0\t0",
    b"0\t90\t1\t1\t0\t2\t0\t0\t0",
];

/// Lines with bytes that are no text.
const RAW: [&[u8]; 4] = [b"0\t81\x00", b"0\t\xFF", b"\x80", b"\x00"];

/// Each line, none of which is in the form.
pub fn lines() -> impl Iterator<Item = &'static [u8]> {
    LINES.into_iter()
}

pub fn raw_lines() -> impl Iterator<Item = &'static [u8]> {
    RAW.into_iter()
}

/// `line` with one byte put in, taken out or changed; it may still be in the
/// form.
pub fn spoiled(line: &str, random: &mut Random) -> Vec<u8> {
    spoiled_by(b"0123456789\t\t-- +\rx", line, random)
}

/// The same with a byte of `alphabet`.
pub fn spoiled_by(alphabet: &[u8], line: &str, random: &mut Random) -> Vec<u8> {
    let mut bytes = line.as_bytes().to_vec();
    let at = random.below(bytes.len() as u64) as usize;
    let byte = random.pick(alphabet);
    match random.below(3) {
        0 => bytes.insert(at, byte),
        1 => bytes[at] = byte,
        _ => drop(bytes.remove(at)),
    }
    bytes
}
