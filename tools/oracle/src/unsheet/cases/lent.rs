//! Images with enough bytes lent, just enough, one more and too few.

use super::super::back::translated;
use super::super::case::{Case, MOST_LENT};
use super::super::judge::{unsheet, MOST_BYTES};
use crate::image::Image;
use crate::sheet::whole;

/// Sheets with names, numbers and words of all lengths.
const SHEETS: [&str; 8] = [
    "START\t0\nNOP\n",
    "START\t4294967294\nRTS\n",
    "START\t4096\nBRA\t@1\tShort\n",
    "START\t4096\nLEA\tPcDisplacement\t4097\tAddress\t0\n",
    "START\t10\nMOVEQ\t255\tData\t7\nLINEA\t40960\nLINEF\t65535\n",
    "START\t4096\nMOVEQ\t5\tData\t0\nSUBQ\t1\tRegister\tData\t0\tWord\nBcc\t@2\tNotEqual\tShort\nRTS\n",
    "START\t4096\nPEA\tIndirectDisplacement\t-32768\tAddress\t7\nMULL\tRegister\tData\t1\t2\tNone\tSigned\n",
    "START\t65536\nMOVE\tExtended\t1\t7987\t-65537\t131074\tExtended\t2\t307\t-3\t4\tLong\n",
];

/// Words of the whole sheet's image for a text of some thousand bytes.
const KEPT: usize = 200;

pub fn all() -> Vec<Case> {
    let images = SHEETS.iter().filter_map(|text| translated(*text));
    let images = images.chain([astray(), kept()]);
    images.flat_map(|image| around(&image)).collect()
}

/// Refused by 16 whatever is lent.
fn astray() -> Image {
    Image {
        start: 4096,
        words: vec![0x4E71, 0x6002, 0x4E71],
    }
}

/// NOPs and the first lines of the whole sheet, their branches taken out.
fn kept() -> Image {
    let text = whole::sheet();
    let lines = text.lines().filter(|line| !line.contains('@'));
    let lines = lines.take(KEPT).map(|line| format!("{line}\n"));
    translated(lines.collect::<String>()).expect("accepted")
}

fn around(image: &Image) -> Vec<Case> {
    let need = unsheet(image, MOST_LENT).map_or(0, |text| text.len());
    let little = [
        0,
        1,
        7,
        need / 2,
        need.saturating_sub(2),
        need.saturating_sub(1),
    ];
    let enough = [
        need,
        need + 1,
        MOST_BYTES - 1,
        MOST_BYTES,
        MOST_BYTES + 1,
        MOST_LENT,
    ];
    let lent = little.into_iter().chain(enough);
    lent.map(|lent| Case::new(image, lent)).collect()
}
