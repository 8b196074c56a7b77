//! Lines that are not in the form of a run, each against one rule.

use crate::malformed::spoiled_by;
use crate::random::Random;

const LINES: [&[u8]; 76] = [
    b"",
    b" ",
    b"\t",
    b"\t\t",
    // the address
    b"\t4E71",
    b"00\t4E71",
    b"01\t4E71",
    b"00",
    b"-0\t4E71",
    b"-1\t4E71",
    b"+1\t4E71",
    b"-1",
    b"4294967296",
    b"4294967296\t4E71",
    b"4294967300\t4E71",
    b"5000000000\t4E71",
    b"18446744073709551616\t4E71",
    b"123456789012345678901234567890\t4E71",
    b"0x0\t4E71",
    b"$0\t4E71",
    b"1000h\t4E71",
    b"FFFF\t4E71",
    b"1/\t4E71",
    b"1:\t4E71",
    b"1e3\t4E71",
    b"1.0\t4E71",
    b"1,000\t4E71",
    b"zero\t4E71",
    b" 0\t4E71",
    b"0 \t4E71",
    b"0\r",
    b"4E71",
    // the tabs
    b"0\t",
    b"0\t\t",
    b"0\t4E71\t",
    b"0\t4E71\t\t",
    b"0\t\t4E71",
    b"0\t4E71\t\t4E71",
    b"\t0\t4E71",
    b"0 4E71",
    b"0,4E71",
    b"0\t4E71 4E71",
    b"0\t4E71,4E71",
    // a word
    b"0\t4",
    b"0\t4E7",
    b"0\t4E710",
    b"0\t04E71",
    b"0\t00004E71",
    b"0\t4E714E71",
    b"0\t4E71\t000",
    b"0\t4E71\t00000",
    b"0\t $E71",
    b"0\t$4E7",
    b"0\t$4E71",
    b"0\t0x4E",
    b"0\t0x4E71",
    b"0\t4E7/",
    b"0\t4E7:",
    b"0\t4E7@",
    b"0\t4E7G",
    b"0\t4E7`",
    b"0\t4E7g",
    b"0\tG000",
    b"0\t+E71",
    b"0\t-E71",
    b"0\t4.71",
    b"0\tNOP0",
    b"0\t 4E71",
    b"0\t4E71 ",
    b"0\t4E71\r",
    b"0\t4E71\t4E71\r",
    b"0\t\xC3\x8971",
    // a word that is not one after words that read, that do not and that end
    b"0\t4E71\tZZZZ",
    b"0\t4AFB\tZZZZ",
    b"0\t60FF\t0000\tZZZZ",
    b"0\t81\t=>\t2",
];

/// Lines with bytes that are no text.
const RAW: [&[u8]; 6] = [
    b"0\t4E71\x00",
    b"0\x004E71",
    b"0\t4E7\xFF",
    b"\x80",
    b"\x00",
    b"0\t4E71\x0B4E71",
];

pub fn lines() -> impl Iterator<Item = &'static [u8]> {
    LINES.into_iter()
}

pub fn raw_lines() -> impl Iterator<Item = &'static [u8]> {
    RAW.into_iter()
}

/// `line` with one byte put in, taken out or changed; it may still be in the
/// form.
pub fn spoiled(line: &str, random: &mut Random) -> Vec<u8> {
    spoiled_by(b"0123456789ABCDEFabcdefGg\t\t\t- \rx", line, random)
}
