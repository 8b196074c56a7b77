//! Images that are cut or do not read: 5 and 6 in the first, a middle and the
//! last line, with a branch astray or not.

use super::super::back::translated;
use super::super::case::Case;
use super::{case, image};
use crate::image::Image;
use crate::sheet::whole;

/// Words without reading, told by the first, second, third or seventh.
pub const NOTHING: [&[u16]; 12] = [
    &[0x4AFB],
    &[0x4AFA],
    &[0x06C0],
    &[0x7100],
    &[0x0000, 0x0112],
    &[0x41F0, 0x0100],
    &[0x4C01, 0x2801],
    &[0x4E78, 0x0000],
    &[0x083C, 0x0001, 0x0002],
    &[0x0CFC, 0x0000, 0x0800],
    &[0x06D0, 0x0000],
    &[
        0x23B1, 0x1F33, 0x0000, 0x0001, 0x0000, 0x0002, 0x0174, 0x0000, 0x0003, 0x0000, 0x0004,
    ],
];

/// Words of which each beginning is cut: two to eleven.
pub const LONG: [&[u16]; 10] = [
    &[0x6000, 0x0004],
    &[0x50FA, 0x1234],
    &[0x4C01, 0x2800],
    &[0x60FF, 0x0000, 0x0000],
    &[0x203C, 0x1234, 0x5678],
    &[0x0CFC, 0x0000, 0x0000],
    &[0x48F9, 0xFFFF, 0x0001, 0x0000],
    &[0x23FC, 0x0000, 0x0001, 0x0000, 0x0002],
    &[
        0x00B0, 0x0000, 0x0001, 0x0133, 0x0000, 0x0002, 0x0000, 0x0003,
    ],
    &[
        0x23B1, 0x1F33, 0x0000, 0x0001, 0x0000, 0x0002, 0x0133, 0x0000, 0x0003, 0x0000, 0x0004,
    ],
];

/// Lines of one to four words around what is broken.
const AROUND: [&str; 4] = [
    "NOP",
    "LINK\tAddress\t6\t4294967288",
    "LEA\tAbsolute\t8\tLong\tAddress\t6",
    "ADDI\t65536\tAbsolute\t8\tWord\tLong",
];

/// Branches past the end and before the start.
const ASTRAY: [u16; 2] = [0x6050, 0x61FC];

/// Sheets whose images are cut after every word.
const CUT: [&str; 4] = [
    "START\t4096\nMOVEQ\t5\tData\t0\nSUBQ\t1\tRegister\tData\t0\tWord\nBcc\t@2\tNotEqual\tShort\nRTS\n",
    "START\t0\nBRA\t@3\tLong\nDBcc\tData\t1\t@1\tFalse\nBSR\t@1\tWord\nJMP\tPcDisplacement\t@2\nCAS2\t1\t2\t3\t4\tData\t5\tAddress\t6\tWord\n",
    "START\t4294967200\nMOVE\tExtended\t1\t7987\t65537\t131074\tExtended\t2\t307\t3\t4\tLong\nNOP\nMOVEM\tToMemory\tLong\t65535\tAbsolute\t65536\tLong\nBF\tInsert\tIndirectDisplacement\t-4\tAddress\t7\tRegister\t1\tRegister\t2\t3\n",
    "START\t2147483640\nPACK\tRegister\tData\t1\tRegister\tData\t2\t65535\nMULL\tImmediate\t305419896\t2\tSome\t3\tSigned\nMOVEC\t1\t2049\tAddress\t7\nTRAPcc\tEqual\tLong\t305419896\n",
];

/// Words of the whole sheet's image kept before it is cut or broken.
const KEPT: usize = 300;

pub fn all() -> Vec<Case> {
    let images = [without_reading(), cut(), cut_everywhere(), far()].concat();
    images.iter().map(case).collect()
}

fn of_words(words: Vec<u16>) -> Image {
    Image { start: 4096, words }
}

/// Words alone, first, in the middle and last, and after a branch astray.
fn without_reading() -> Vec<Image> {
    let around = image(4096, &AROUND).words;
    let kinds = NOTHING.iter().enumerate();
    kinds
        .flat_map(|(turn, words)| {
            let astray = &ASTRAY[turn % ASTRAY.len()..][..1];
            [
                words.to_vec(),
                [words, &around[..]].concat(),
                [&around[..], words, &around].concat(),
                [&around[..], words].concat(),
                [astray, &around, words, &around].concat(),
                [words, &around[..], words].concat(),
            ]
        })
        .map(of_words)
        .collect()
}

/// Every beginning alone, and last, and after a branch astray.
fn cut() -> Vec<Image> {
    let around = image(4096, &AROUND).words;
    let beginnings = LONG
        .iter()
        .flat_map(|words| (1..words.len()).map(|count| &words[..count]));
    beginnings
        .enumerate()
        .flat_map(|(turn, words)| {
            let astray = &ASTRAY[turn % ASTRAY.len()..][..1];
            [
                words.to_vec(),
                [&around[..], words].concat(),
                [astray, &around, words].concat(),
            ]
        })
        .map(of_words)
        .collect()
}

/// Images of sheets after every word.
fn cut_everywhere() -> Vec<Image> {
    let images = CUT.map(|text| translated(text).expect("accepted"));
    let beginnings = images.iter().flat_map(|image| {
        (1..=image.words.len()).map(|count| Image {
            start: image.start,
            words: image.words[..count].to_vec(),
        })
    });
    beginnings.collect()
}

/// A long image cut, and broken at its end and in its middle.
fn far() -> Vec<Image> {
    let image = translated(whole::sheet()).expect("accepted");
    let kept = &image.words[..KEPT];
    let (before, after) = kept.split_at(KEPT / 2);
    let images = [
        [kept, &[0x203C]].concat(),
        [kept, &[0x4AFB]].concat(),
        [before, &[0x4AFB], after].concat(),
        [before, &[0x4AFB], after, &[0x203C]].concat(),
    ];
    images.map(of_words).to_vec()
}
