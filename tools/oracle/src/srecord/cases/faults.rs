//! Texts with one fault, in the first, a middle, the last data record and the
//! closing one.

use super::super::case::{Case, MOST_WORDS};
use super::super::record::{record, spelled, summed, Record};
use super::{base, replaced};

/// What stands in the place of a record.
type Fault = fn(&Record) -> Vec<u8>;

/// The places of a record in a text.
pub const PLACES: usize = 4;

/// Refused with 12 in every place.
pub const FORM: [Fault; 32] = [
    |record| with_data(record, record.data.len() + 1),
    shorter,
    |record| claimed(record, |count| count.wrapping_add(1)),
    |record| claimed(record, |count| count.wrapping_sub(1)),
    |record| claimed(record, |count| count.wrapping_add(2)),
    |record| claimed(record, |count| count.wrapping_sub(2)),
    |record| claimed(record, |_| 0),
    |record| claimed(record, |_| 255),
    |record| inserted(record, b"00"),
    |record| inserted(record, b"0"),
    |record| without(record, 2),
    |record| without(record, 1),
    |record| inserted(record, b"\r"),
    |record| inserted(record, b" "),
    |record| inserted(record, b"\t"),
    |record| inserted(record, b"\0"),
    |record| inserted(record, b";"),
    |record| after(b" ", record),
    |record| after(b"\t", record),
    |record| after(b"\n", record),
    |record| after(b"\r", record),
    |record| after(b":", record),
    |record| after(b"\xEF\xBB\xBF", record),
    |record| record.line()[1..].to_vec(),
    |record| changed(record, 0, b's'),
    |record| changed(record, 1, b'0'),
    |record| changed(record, 1, b'4'),
    |record| changed(record, 1, b'5'),
    |record| changed(record, 1, b'6'),
    |record| changed(record, 1, b'A'),
    |record| ended(record, b""),
    |record| ended(record, b"\r"),
];

/// Refused with 13 in every place.
pub const SUM: [Fault; 9] = [
    |record| summed_up(record, |sum| sum ^ 1),
    |record| summed_up(record, |sum| sum ^ 0x80),
    |record| summed_up(record, |sum| !sum),
    |record| summed_up(record, |sum| sum.wrapping_add(1)),
    |record| summed_up(record, |sum| sum.wrapping_sub(1)),
    |record| summed_up(record, |sum| sum.wrapping_sub(b'S')),
    |record| byte_changed(record, 1),
    |record| byte_changed(record, 2),
    |record| byte_changed(record, record.covered().len() - 1),
];

/// Refused with 14 in every place: past 2^32 or elsewhere.
pub const PAST: [Fault; 2] = [
    |_| record(3, 0xFFFF_FFFE, &[1, 2, 3, 4]).line(),
    |_| record(3, 0xFFFF_FFFF, &[1, 2]).line(),
];

/// Refused with 14 where they stand, and in the first place at the record
/// behind it.
pub const MOVED: [Fault; 7] = [
    |record| moved(record, 1),
    |record| moved(record, 2),
    |record| moved(record, 0x100),
    |record| moved(record, 0x8000),
    |record| moved(record, u32::MAX),
    |record| moved(record, u32::MAX - 1),
    |record| moved(record, record.address.wrapping_neg()),
];

/// Every fault in every place, with enough lent and with nothing lent.
pub fn all() -> Vec<Case> {
    let faults = [&FORM[..], &SUM, &PAST, &MOVED];
    let texts: Vec<Vec<u8>> = faults.into_iter().flat_map(texts).collect();
    let enough = texts
        .iter()
        .map(|text| Case::to_read(&text[..], MOST_WORDS));
    let nothing = texts.iter().map(|text| Case::to_read(&text[..], 0));
    enough.chain(nothing).collect()
}

/// The faults one after the other, each in every place.
pub fn texts(faults: &[Fault]) -> Vec<Vec<u8>> {
    let mut texts = Vec::new();
    for (turn, fault) in faults.iter().enumerate() {
        for at in 0..PLACES {
            let records = base(turn + at);
            let line = fault(&records[at]);
            texts.push(replaced(&records, at, line));
        }
    }
    texts
}

/// The record with so many data bytes.
fn with_data(record: &Record, bytes: usize) -> Vec<u8> {
    let mut record = record.clone();
    record.data.resize(bytes, 0x5A);
    record.line()
}

/// The record with one byte less before the checksum, count and checksum
/// right.
fn shorter(record: &Record) -> Vec<u8> {
    let mut bytes = record.covered();
    bytes.pop();
    bytes[0] -= 1;
    spelled(record.kind, &summed(bytes))
}

/// The record with another count, the checksum made for it.
fn claimed(record: &Record, count: fn(u8) -> u8) -> Vec<u8> {
    let mut bytes = record.covered();
    bytes[0] = count(bytes[0]);
    spelled(record.kind, &summed(bytes))
}

/// The record with bytes put in before its LF.
fn inserted(record: &Record, bytes: &[u8]) -> Vec<u8> {
    let mut line = record.line();
    let at = line.len() - 1;
    line.splice(at..at, bytes.iter().copied());
    line
}

/// The record without so many bytes before its LF.
fn without(record: &Record, bytes: usize) -> Vec<u8> {
    let mut line = record.line();
    let end = line.len() - 1;
    line.drain(end - bytes..end);
    line
}

/// The record after these bytes.
fn after(bytes: &[u8], record: &Record) -> Vec<u8> {
    [bytes, &record.line()].concat()
}

fn changed(record: &Record, at: usize, byte: u8) -> Vec<u8> {
    let mut line = record.line();
    line[at] = byte;
    line
}

/// The record with another end than LF.
fn ended(record: &Record, end: &[u8]) -> Vec<u8> {
    let mut line = record.line();
    line.pop();
    line.extend(end);
    line
}

fn summed_up(record: &Record, sum: fn(u8) -> u8) -> Vec<u8> {
    let mut bytes = summed(record.covered());
    let last = bytes.len() - 1;
    bytes[last] = sum(bytes[last]);
    spelled(record.kind, &bytes)
}

/// The record with a byte of address or data changed, its checksum as it was.
fn byte_changed(record: &Record, at: usize) -> Vec<u8> {
    let mut bytes = summed(record.covered());
    bytes[at] ^= 0x10;
    spelled(record.kind, &bytes)
}

/// The record at another address.
fn moved(record: &Record, by: u32) -> Vec<u8> {
    let mut record = record.clone();
    record.address = record.address.wrapping_add(by);
    record.line()
}
