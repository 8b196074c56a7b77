//! All mixes of the kinds of records.

use super::super::case::Case;
use super::super::record::takes;
use super::{follow, read};

const CLOSING: [u8; 3] = [7, 8, 9];

/// Starts at which not every kind can stand, or a record runs past 2^16, 2^24.
const HIGH: [u32; 6] = [0xFFFC, 0xFFFF, 0x10000, 0xFF_FFFC, 0xFF_FFFF, 0x100_0000];

/// Up to three data records at a low start, up to two at the others, each with
/// every closing one, whether that can name the start or not.
pub fn all() -> Vec<Case> {
    let mut cases = mixes(super::START, 3);
    for start in HIGH {
        cases.extend(mixes(start, 2));
    }
    cases
}

fn mixes(start: u32, most: usize) -> Vec<Case> {
    let kinds = (0..=most).flat_map(choices);
    let kinds = kinds.filter(|kinds| stands(kinds, start));
    let mixes = kinds.flat_map(|kinds| CLOSING.map(|closing| follow(&kinds, start, closing)));
    mixes.map(|records| read(&records)).collect()
}

/// So many data records, of 2, 4 and 6 bytes, of any kinds.
fn choices(count: usize) -> Vec<Vec<(u8, usize)>> {
    let mut found = vec![Vec::new()];
    for at in 0..count {
        let longer = found.iter().flat_map(|kinds: &Vec<(u8, usize)>| {
            [1, 2, 3].map(|kind| [&kinds[..], &[(kind, 2 + 2 * at)]].concat())
        });
        found = longer.collect();
    }
    found
}

/// Whether each record's kind takes its address.
fn stands(kinds: &[(u8, usize)], start: u32) -> bool {
    let mut address = start as u64;
    kinds.iter().all(|(kind, bytes)| {
        let taken = takes(*kind, address);
        address += *bytes as u64;
        taken
    })
}
