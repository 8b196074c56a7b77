//! Both ends of every bound of a record, and one past.

use super::super::case::{Case, MOST_WORDS};
use super::super::record::{counted, most_data, record, spelled, summed, wide, Record};
use super::{follow, read, replaced, START};

const KINDS: [u8; 6] = [1, 2, 3, 7, 8, 9];
const DATA_KINDS: [u8; 3] = [1, 2, 3];
const CLOSING: [u8; 3] = [7, 8, 9];

pub fn all() -> Vec<Case> {
    let lists = [
        lengths(),
        closing_data(),
        small_counts(),
        claimed_counts(),
        ends(),
        beyond(),
        closing_bits(),
        closing_alone(),
        sums(),
    ];
    lists.concat()
}

/// A data record of every length up to 12, around 32, 64 and 128 and up to
/// the most, even and odd.
fn lengths() -> Vec<Case> {
    let mut cases = Vec::new();
    for kind in DATA_KINDS {
        let most = 254 - wide(kind);
        let lengths = [0..=12, 30..=34, 63..=65, 127..=129, most - 4..=most];
        for bytes in lengths.into_iter().flatten() {
            cases.push(read(&follow(&[(kind, bytes)], START, 9)));
        }
        let twice = [(kind, most_data(kind)), (kind, most_data(kind))];
        cases.push(read(&follow(&twice, START, 8)));
    }
    cases
}

/// A closing record with data, alone and after a data record.
fn closing_data() -> Vec<Case> {
    let mut cases = Vec::new();
    for kind in CLOSING {
        for bytes in [1, 2, 3, 4, 32, most_data(kind)] {
            let data = record(1, START, &counted(4));
            let closing = record(kind, START, &counted(bytes));
            cases.push(read(std::slice::from_ref(&closing)));
            cases.push(read(&[data, closing]));
        }
    }
    cases
}

/// Records of every count up to 8 and of so many bytes, the checksum last; a
/// count of 0 has none.
fn small_counts() -> Vec<Case> {
    let mut cases = Vec::new();
    for kind in KINDS {
        for count in 0..=8u8 {
            let mut bytes = vec![count];
            bytes.resize(count.max(1) as usize, 0x10);
            let bytes = match count {
                0 => bytes,
                _ => summed(bytes),
            };
            let line = spelled(kind, &bytes);
            let closing = record(9, 0x1010, &[]).line();
            cases.push(Case::to_read([line, closing].concat(), MOST_WORDS));
        }
    }
    cases
}

/// Records with a count that is not theirs, the checksum made for it.
fn claimed_counts() -> Vec<Case> {
    let mut cases = Vec::new();
    for kind in KINDS {
        let (at, records) = match kind {
            1..=3 => (0, follow(&[(kind, 6), (1, 4)], START, 9)),
            _ => (1, follow(&[(1, 4)], START, kind)),
        };
        for count in [
            0, 1, 2, 3, 4, 5, 6, 7, 8, 9, 10, 12, 20, 22, 24, 127, 254, 255,
        ] {
            let mut bytes = records[at].covered();
            bytes[0] = count;
            let line = spelled(kind, &summed(bytes));
            let text = replaced(&records, at, line);
            cases.push(Case::to_read(text, MOST_WORDS));
        }
    }
    cases
}

/// The places past the last address of each kind of data record.
fn limits() -> [(u8, u64); 3] {
    DATA_KINDS.map(|kind| (kind, 1 << (8 * wide(kind))))
}

/// A record that begins just before the limit of its kind, closed by S7.
fn ends() -> Vec<Case> {
    let mut cases = Vec::new();
    for (kind, limit) in limits() {
        for before in 1..=6 {
            for bytes in [0, 2, 4, 6] {
                let start = (limit - before) as u32;
                cases.push(read(&follow(&[(kind, bytes)], start, 7)));
            }
        }
        let most = most_data(kind);
        for before in [most - 1, most, most + 1] {
            let start = (limit - before as u64) as u32;
            cases.push(read(&follow(&[(kind, most)], start, 7)));
        }
    }
    cases
}

/// After it a record of every kind at its end, of which each kind takes the
/// low bytes; at 2^32 none fits.
fn beyond() -> Vec<Case> {
    let mut cases = Vec::new();
    for (kind, limit) in limits() {
        for before in [2, 4, 6] {
            for next in DATA_KINDS {
                for bytes in [0, 2] {
                    let start = (limit - before) as u32;
                    cases.push(read(&follow(&[(kind, 4), (next, bytes)], start, 7)));
                }
            }
        }
    }
    cases
}

/// A closing record in which one bit of the start is another.
fn closing_bits() -> Vec<Case> {
    let mut cases = Vec::new();
    for kind in CLOSING {
        for bit in 0..8 * wide(kind) {
            let mut records: Vec<Record> = follow(&[(1, 4)], START, kind);
            records[1].address ^= 1 << bit;
            cases.push(read(&records));
        }
    }
    cases
}

/// A closing record alone, at both ends of its addresses.
fn closing_alone() -> Vec<Case> {
    let mut cases = Vec::new();
    for kind in CLOSING {
        let last = (1u64 << (8 * wide(kind))) - 1;
        for address in [0, 1, 2, last / 2, last / 2 + 1, last - 1, last] {
            cases.push(read(&[record(kind, address as u32, &[])]));
        }
    }
    cases
}

/// Records whose bytes sum to numbers around the multiples of 256, the
/// checksum right, one more and one less.
fn sums() -> Vec<Case> {
    let mut cases = Vec::new();
    for last in [
        0x00, 0x01, 0x7F, 0x80, 0xE4, 0xE5, 0xE6, 0xE7, 0xE8, 0xE9, 0xEA, 0xEB, 0xEC, 0xFF,
    ] {
        let records = [record(1, START, &[0, last]), record(9, START, &[])];
        let right = summed(records[0].covered());
        for change in [0, 1, 255] {
            let mut bytes = right.clone();
            bytes[5] = bytes[5].wrapping_add(change);
            let text = replaced(&records, 0, spelled(1, &bytes));
            cases.push(Case::to_read(text, MOST_WORDS));
        }
    }
    cases
}
