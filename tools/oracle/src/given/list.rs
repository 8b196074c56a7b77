//! The lines: all words, variants and arguments, and a sample of them that is
//! the stored list.

use std::io::{self, Write};

use super::answer::{answer_line, NUMBERS};
use crate::answer::NOT_IN_FORM;

/// Lines that are not in the form.
const OUTSIDE: [&[u8]; 12] = [
    b"",
    b"0",
    b"9",
    b"0\t1\t0\t0\t0\t0\t0\t0\t0",
    b"0\t1\t0\t0\t0\t0\t0\t0\t0\t0\t0",
    b"10\t0\t0\t0\t0\t0\t0\t0\t0\t0",
    b"0\t-1\t0\t0\t0\t0\t0\t0\t0\t0",
    b"0\t1\t0\t0\t0\t0\t0\t0\t0\t-1",
    b"0\t01\t0\t0\t0\t0\t0\t0\t0\t0",
    b"0\t1\t0\t0\t0\t0\t0\t0\t0\t0\t",
    b"0\t18446744073709551616\t0\t0\t0\t0\t0\t0\t0\t0",
    b"word\t1\t0\t0\t0\t0\t0\t0\t0\t0",
];

/// Numbers above their ranges.
const ABOVE: [[u64; 5]; 10] = [
    [0, 65536, 0, 0, 0],
    [0, u64::MAX, 0, 0, 0],
    [1, 3, 0, 0, 0],
    [2, 2, 256, 0, 0],
    [3, 7, 0, 0, 0],
    [4, 16, 0, 0, 0],
    [5, 8, 0, 0, 0],
    [6, 256, 0, 0, 0],
    [7, 3, 511, 5, 258],
    [8, 2, 263, 4, 264],
];

pub fn outside() -> impl Iterator<Item = &'static [u8]> {
    OUTSIDE.into_iter()
}

/// A line; numbers that are not given are 0.
fn line(numbers: &[u64]) -> String {
    let zeros = std::iter::repeat(&0).take(NUMBERS - numbers.len());
    let numbers: Vec<String> = numbers.iter().chain(zeros).map(u64::to_string).collect();
    numbers.join("\t")
}

/// The lines that ask for a variant, a base or the constants.
fn variants(push: &mut impl FnMut(String)) {
    (0..3).for_each(|place| push(line(&[1, place])));
    (0..512).for_each(|k| push(line(&[2, k / 256, k % 256])));
    (0..4).for_each(|code| push(line(&[3, code])));
    (0..16).for_each(|code| push(line(&[4, code])));
    (0..8).for_each(|code| push(line(&[5, code])));
    (0..256).for_each(|number| push(line(&[6, number])));
    push(line(&[9]));
    ABOVE.iter().for_each(|numbers| push(line(numbers)));
}

/// The arguments of `full` behind the scale.
fn parts() -> impl Iterator<Item = [u64; 5]> {
    (0..108).map(|k| [k % 2, k / 2 % 2, 1 + k / 4 % 3, k / 12 % 3, 1 + k / 36])
}

/// Every word, every variant, every argument of `brief`; every register, size
/// and part of `full` with six scales, and every scale with four registers.
pub fn all(push: &mut impl FnMut(String)) {
    (0..65536).for_each(|word| push(line(&[0, word])));
    variants(push);
    for k in 0..512 * 3 {
        let index = [k / 768, k / 3 % 256, k % 3];
        (0..256).for_each(|scale| push(line(&[&[7], &index[..], &[scale]].concat())));
        let scales = [0, 1, 2, 4, 8, 255];
        scales.iter().for_each(|scale| fulls(&index, *scale, push));
    }
    for (place, number) in [(0, 0), (0, 7), (1, 3), (1, 255)] {
        for k in 0..3 * 256 {
            fulls(&[place, number, k % 3], k / 3, push);
        }
    }
}

fn fulls(index: &[u64; 3], scale: u64, push: &mut impl FnMut(String)) {
    for parts in parts() {
        push(line(&[&[8], &index[..], &[scale], &parts].concat()));
    }
}

/// The stored list: words that differ from 0 and from others in each field,
/// the variants, some arguments, and lines that are not in the form.
pub fn write(output: &mut impl Write) -> io::Result<()> {
    let mut lines: Vec<String> = Vec::new();
    for base in [0x0000, 0x0110, 0x0151, 0xFFFF, 0x8932] {
        (0..16).for_each(|bit| lines.push(line(&[0, base ^ (1 << bit)])));
        lines.push(line(&[0, base]));
    }
    (0..256)
        .step_by(7)
        .for_each(|low| lines.push(line(&[0, 0x0100 | low])));
    (0..8).for_each(|code| lines.push(line(&[0, [0, 1, 2, 3, 2048, 2050, 2052, 2053][code]])));
    variants(&mut |line: String| lines.push(line));
    for (k, parts) in parts().enumerate() {
        let (k, scale) = (k as u64, [1, 2, 4, 8, 0, 3][k % 6]);
        lines.push(line(
            &[&[8, k % 2, k % 11, k % 3, scale], &parts[..]].concat(),
        ));
        lines.push(line(&[7, k / 2 % 2, k % 9, k / 3 % 3, scale]));
    }
    for line in lines {
        writeln!(output, "{line}")?;
    }
    for line in outside() {
        assert_eq!(answer_line(line), NOT_IN_FORM);
        output.write_all(line)?;
        output.write_all(b"\n")?;
    }
    output.flush()
}
