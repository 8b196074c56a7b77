//! Texts with a byte changed, put in or taken out, cut, or gone on.

use super::super::case::{Case, MOST_WORDS};
use super::super::record::{record, spelled, text, Record};
use super::{base, replaced, START};

/// Bytes beside the digits and capitals, and ones that end or part lines.
const BYTES: [u8; 8] = [b'/', b':', b'@', b'G', b'a', b' ', 0, 0xFF];

/// What stands after a closing record.
const TAILS: [&[u8]; 16] = [
    b"\n",
    b"\n\n",
    b"\r\n",
    b" ",
    b"\t",
    b"\0",
    b"\x1A",
    b"S",
    b"S9",
    b"S9031000EC",
    b"S9031000EC\n",
    b"S1051004700571\n",
    b"S1051000700575\nS9031000EC\n",
    b"S9031000ED\n",
    b"s9031000ec\n",
    b"; end\n",
];

pub fn all() -> Vec<Case> {
    let texts = [
        kinds(),
        changed(),
        digits(),
        put_in(),
        taken_out(),
        cut(),
        small(),
        gone_on(),
        whole(),
        repeated(),
    ];
    let texts = texts.concat().into_iter();
    texts.map(|text| Case::to_read(text, MOST_WORDS)).collect()
}

/// A data record of two words and a closing one.
fn short() -> [Record; 2] {
    let data = record(1, START, &[0xAB, 0xCD, 0x70, 0x05]);
    [data, record(9, START, &[])]
}

/// Every byte after `S`; the record is of the length of an S7 too.
fn kinds() -> Vec<Vec<u8>> {
    let records = [record(1, START, &[0x70, 0x05]), record(9, START, &[])];
    let kinds = (0..=255).map(|kind| {
        let mut text = text(&records);
        text[1] = kind;
        text
    });
    kinds.collect()
}

/// Every byte of a text another one.
fn changed() -> Vec<Vec<u8>> {
    let text = text(&short());
    let at = 0..text.len();
    let changed = at.flat_map(|at| {
        BYTES.map(|byte| {
            let mut text = text.clone();
            text[at] = byte;
            text
        })
    });
    changed.collect()
}

/// Every digit of a text another digit, and every checksum of a record.
fn digits() -> Vec<Vec<u8>> {
    let mut found = Vec::new();
    let text = text(&short());
    for at in 0..text.len() {
        for digit in [b'0', b'1', b'9', b'A', b'F'] {
            let mut text = text.clone();
            if text[at].is_ascii_hexdigit() {
                text[at] = digit;
                found.push(text);
            }
        }
    }
    let records = short();
    found.extend((0..=255).map(|sum| {
        let mut bytes = records[0].covered();
        bytes.push(sum);
        replaced(&records, 0, spelled(1, &bytes))
    }));
    found
}

/// A byte put in at every place of a text.
fn put_in() -> Vec<Vec<u8>> {
    let text = text(&short());
    let at = 0..=text.len();
    let put = at.flat_map(|at| {
        [b'0', b' ', b'\n', b'\r'].map(|byte| {
            let mut text = text.clone();
            text.insert(at, byte);
            text
        })
    });
    put.collect()
}

/// A byte, and two, taken out at every place of a text.
fn taken_out() -> Vec<Vec<u8>> {
    let text = text(&short());
    let at = 0..text.len() - 1;
    let taken = at.flat_map(|at| {
        [1, 2].map(|bytes| {
            let mut text = text.clone();
            text.drain(at..at + bytes);
            text
        })
    });
    taken.collect()
}

/// A text cut at every place, and with an LF there.
fn cut() -> Vec<Vec<u8>> {
    let text = text(&[base(1)[0].clone(), record(8, START, &[])]);
    let cut = (0..text.len()).flat_map(|at| {
        let cut = text[..at].to_vec();
        [cut.clone(), [&cut[..], b"\n"].concat()]
    });
    cut.collect()
}

/// Each capital of a text small, for every kind of record.
fn small() -> Vec<Vec<u8>> {
    let letters = [0xAB, 0xCD, 0xEF, 0xFE, 0xDC, 0xBA];
    let mut found = Vec::new();
    for (kind, closing, address) in [(1, 9, 0xABCD), (2, 8, 0xAB_CDEF), (3, 7, 0xABCD_EFAB)] {
        let text = text(&[
            record(kind, address, &letters),
            record(closing, address, &[]),
        ]);
        found.push(text.clone());
        for at in 0..text.len() {
            let mut text = text.clone();
            text[at].make_ascii_lowercase();
            found.push(text);
        }
    }
    found
}

fn gone_on() -> Vec<Vec<u8>> {
    let text = text(&short());
    let tails = TAILS.iter().map(|tail| [&text[..], tail].concat());
    tails.collect()
}

/// Whole texts written otherwise: CR LF, CR, all small, spaces between the
/// parts, a header, counts, two texts together, and text that is not records.
fn whole() -> Vec<Vec<u8>> {
    let records = base(0);
    let text = text(&records);
    let with = |end: &[u8]| -> Vec<u8> {
        let lines = text.split_inclusive(|byte| *byte == b'\n');
        lines
            .flat_map(|line| [&line[..line.len() - 1], end].concat())
            .collect()
    };
    let count = |line: &[u8]| replaced(&records, 3, [line, &records[3].line()].concat());
    vec![
        with(b"\r\n"),
        with(b"\n\r"),
        with(b"\r"),
        with(b"\n\n"),
        with(b""),
        with(b" \n"),
        text.to_ascii_lowercase(),
        [b"S00600004844521B\n", &text[..]].concat(),
        [b"S0030000FC\n", &text[..]].concat(),
        count(b"S5030003F9\n"),
        count(b"S604000003F8\n"),
        [&text[..], &text[..]].concat(),
        b"START\t4096\nNOP\n".to_vec(),
        b":10010000214601360121470136007EFE09D2190140\n:00000001FF\n".to_vec(),
        b"4096\t4E71\n".to_vec(),
        vec![0; 64],
        vec![b'\n'; 64],
        vec![b'S'; 64],
    ]
}

/// Every record twice, left out, and exchanged with the next.
fn repeated() -> Vec<Vec<u8>> {
    let records = base(2);
    let mut found = Vec::new();
    for at in 0..records.len() {
        let line = records[at].line();
        found.push(replaced(&records, at, line.repeat(2)));
        found.push(replaced(&records, at, Vec::new()));
        let mut exchanged = records.clone();
        exchanged.swap(at, (at + 1) % records.len());
        found.push(text(&exchanged));
    }
    found
}
