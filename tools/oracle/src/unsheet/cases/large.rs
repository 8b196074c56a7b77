//! Images at the ends of what a sheet may have: lines and bytes.

use super::super::back::translated;
use super::super::case::{Case, MOST_LENT};
use super::super::judge::{MOST_BYTES, MOST_LINES};
use super::{case, image};
use crate::image::Image;
use crate::sheet::whole;

/// One word in 48 bytes, and lines of 4, 6, 15 and 17.
const WIDE: &str = "ROXd\tRegister\tData\t7\tRegister\tData\t0\tRight\tLong";
const NOP: &str = "NOP";
const TRAPV: &str = "TRAPV";
const MOVEQ: [&str; 2] = ["MOVEQ\t5\tData\t0", "MOVEQ\t255\tData\t0"];

/// The bytes of a text, and those lent.
const BYTES: [(usize, usize); 11] = [
    (MOST_BYTES - 1, MOST_BYTES - 2),
    (MOST_BYTES - 1, MOST_BYTES - 1),
    (MOST_BYTES - 1, MOST_BYTES),
    (MOST_BYTES, MOST_BYTES - 1),
    (MOST_BYTES, MOST_BYTES),
    (MOST_BYTES, MOST_LENT),
    (MOST_BYTES + 1, MOST_BYTES),
    (MOST_BYTES + 1, MOST_BYTES + 1),
    (MOST_BYTES + 1, MOST_LENT),
    (MOST_LENT, MOST_LENT),
    (MOST_LENT + 1, MOST_LENT),
];

/// A branch of an odd number of bytes.
const ASTRAY: u16 = 0x6001;

pub fn all() -> Vec<Case> {
    let sized = BYTES.map(|(bytes, lent)| Case::new(&of_bytes(bytes), lent));
    let mut astray = of_bytes(MOST_BYTES + 1);
    astray.words.push(ASTRAY);
    let astray = case(&astray);
    sized
        .into_iter()
        .chain([astray])
        .chain(lines())
        .chain(whole())
        .collect()
}

/// An image whose sheet has so many bytes.
pub fn of_bytes(bytes: usize) -> Image {
    let size = |line: &str| line.len() + 1;
    let rest = bytes - size("START\t4096");
    let wide = rest / size(WIDE) - 1;
    let mut lines = vec![WIDE; wide];
    let rest = rest - wide * size(WIDE);
    let odd = match rest % size(NOP) {
        0 => vec![],
        1 => vec![MOVEQ[1]],
        2 => vec![TRAPV],
        _ => vec![MOVEQ[0]],
    };
    let taken: usize = odd.iter().map(|line| size(line)).sum();
    lines.extend(odd);
    lines.resize(lines.len() + (rest - taken) / size(NOP), NOP);
    image(4096, &lines)
}

/// As many lines as a sheet may have, the last ones named; the same with words
/// more that are cut; one line more.
fn lines() -> Vec<Case> {
    let mut lines = vec![NOP; MOST_LINES];
    lines[0] = "BRA\t@4096\tWord";
    lines[1] = "PEA\tPcDisplacement\t@4095";
    lines[MOST_LINES - 2] = "DBcc\tData\t1\t@2\tFalse";
    lines[MOST_LINES - 1] = "BSR\t@1\tWord";
    let most = image(4096, &lines);
    let mut cut = most.clone();
    cut.words.push(0x6000);
    let more = image(0, &[NOP; MOST_LINES + 1]);
    [most, cut, more].iter().map(case).collect()
}

/// The whole sheet with a byte too few lent, and with a start of one digit more.
fn whole() -> Vec<Case> {
    let exact = translated(whole::sheet()).expect("accepted");
    let mut longer = exact.clone();
    longer.start = 40_960;
    vec![Case::new(&exact, MOST_BYTES - 1), case(&longer)]
}
