//! PC-relative operands whose targets are lines, inside lines and outside.

use super::super::case::Case;
use super::{addresses, case, image, STARTS};
use crate::image::Image;

/// Lines with a target, whose words stand after none, one or two others, or
/// before others.
const NAMING: [&str; 24] = [
    "LEA\tPcDisplacement\t@\tAddress\t7",
    "PEA\tPcDisplacement\t@",
    "JMP\tPcDisplacement\t@",
    "JSR\tPcIndex\t@\tAddress\t7\tLong",
    "JMP\tPcIndex\t@\tData\t0\tWord",
    "TST\tPcDisplacement\t@\tByte",
    "ADD\tPcDisplacement\t@\tRegister\tData\t1\tLong",
    "CMPA\tPcIndex\t@\tData\t6\tWord\tAddress\t2\tWord",
    "CHK\tPcDisplacement\t@\tData\t4",
    "DIVx\tPcIndex\t@\tAddress\t3\tWord\tData\t5\tUnsigned",
    "MOVEtoSR\tPcDisplacement\t@",
    "MOVE\tPcDisplacement\t@\tAbsolute\t305419896\tLong\tWord",
    "MOVE\tPcIndex\t@\tData\t3\tLong\tExtended\t3\t307\t-1\t-70000\tByte",
    "MOVEM\tFromMemory\tLong\t65535\tPcDisplacement\t@",
    "MOVEM\tFromMemory\tWord\t1\tPcIndex\t@\tData\t3\tWord",
    "BTST\tImmediate\t7\tPcDisplacement\t@",
    "BTST\tRegister\tData\t2\tPcIndex\t@\tAddress\t0\tLong",
    "BF\tTest\tPcDisplacement\t@\tImmediate\t0\tImmediate\t31\t0",
    "BF\tExtractSigned\tPcIndex\t@\tData\t3\tWord\tRegister\t1\tRegister\t2\t7",
    "MULL\tPcDisplacement\t@\t2\tSome\t3\tSigned",
    "CMP2\tPcIndex\t@\tData\t3\tWord\tData\t1\tWord",
    "CMPI\t65536\tPcDisplacement\t@\tLong",
    "CMPI\t255\tPcIndex\t@\tData\t3\tWord\tByte",
    "CHK2\tPcDisplacement\t@\tAddress\t1\tByte",
];

/// Lines on either side of those with targets.
const BEFORE: [&str; 2] = ["NOP", "LINK\tAddress\t6\t4294967288"];
const AFTER: [&str; 2] = ["LEA\tAbsolute\t8\tLong\tAddress\t6", "RTS"];

/// Lines of a kind that stand together between them.
const TOGETHER: usize = 4;

/// A line counted from 0, the end being one more, and the bytes past its first.
const TARGETS: [(usize, i32); 20] = [
    (0, 0),
    (0, -2),
    (2, 2),
    (7, 0),
    (8, 0),
    (1, 0),
    (1, 1),
    (5, 0),
    (0, 1),
    (3, 0),
    (6, 2),
    (8, 1),
    (6, 0),
    (1, 2),
    (0, -1),
    (4, 0),
    (8, 2),
    (2, 0),
    (6, 4),
    (0, -40),
];

/// Lines of two words in an image of which every address is a target.
const DENSE: usize = 60;

/// How far targets before and past an image are.
const PAST: i64 = 4;

pub fn all() -> Vec<Case> {
    let lines = NAMING.iter().enumerate();
    let images = lines.flat_map(|(turn, line)| around(turn, line));
    let images = images.chain(every_address());
    let images = images.chain([9, 99, 999].map(numbered));
    images.map(|image| case(&image)).collect()
}

/// A line with each target, so many in an image.
fn around(turn: usize, line: &str) -> Vec<Image> {
    let groups = TARGETS.chunks(TOGETHER).enumerate();
    groups
        .map(|(group, targets)| {
            let start = STARTS[(turn + group) % STARTS.len()];
            let addresses = addresses(start, &between(vec![line.replace('@', "0"); TOGETHER]));
            let targets = targets
                .iter()
                .map(|(at, past)| addresses[*at].wrapping_add_signed(*past));
            let lines = targets.map(|target| line.replace('@', &target.to_string()));
            image(start, &between(lines.collect()))
        })
        .collect()
}

fn between(lines: Vec<String>) -> Vec<String> {
    let [before, after] = [BEFORE, AFTER].map(|lines| lines.map(String::from).to_vec());
    [before, lines, after].concat()
}

/// Images with every address in them as a target, and some outside.
fn every_address() -> Vec<Image> {
    let bytes = 4 * DENSE as i64;
    let away: Vec<i64> = (-PAST..=bytes + PAST).collect();
    let groups = away.chunks(DENSE);
    let lines = |start: u32, group: &[i64]| -> Vec<String> {
        let away = group.iter().chain(&[0; DENSE]).take(DENSE);
        away.map(|away| format!("PEA\tPcDisplacement\t{}", (start as i64 + away) as u32))
            .collect()
    };
    groups
        .zip(STARTS)
        .map(|(group, start)| image(start, &lines(start, group)))
        .collect()
}

/// Lines named on either side of one more digit.
fn numbered(last: usize) -> Image {
    let names = last - 1..=last + 2;
    let mut lines: Vec<String> = names
        .clone()
        .map(|name| format!("PEA\tPcDisplacement\t@{name}"))
        .collect();
    lines.resize(last + 2, "NOP".to_string());
    lines.extend(names.map(|name| format!("BRA\t@{name}\tWord")));
    image(4096, &lines)
}
