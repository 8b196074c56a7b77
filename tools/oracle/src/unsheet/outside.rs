//! Lists that are not in the form.

use crate::srecord::outside::IMAGES;

/// Headers alone, and headers with too few bytes behind them or too much lent.
const HEADERS: [&[u8]; 34] = [
    b"\n",
    b" ",
    b"2\n",
    b"2\n0\n",
    b"2\t9",
    b"2\t9\t0\n0\n",
    b"2\t9\t\n0\n",
    b"\t2\t9\n0\n",
    b"\t9\n0\n",
    b"2\t\n0\n",
    b"2\t\t9\n0\n",
    b"02\t9\n0\n",
    b"2\t09\n0\n",
    b"2\t00\n0\n",
    b"-2\t9\n0\n",
    b"2\t-9\n0\n",
    b"2\t-0\n0\n",
    b"+2\t9\n0\n",
    b" 2\t9\n0\n",
    b"2\t9 \n0\n",
    b"2\t9\r\n0\n",
    b"2 9\n0\n",
    b"2,9\n0\n",
    b"2\t9x\n0\n",
    b"2\t/\n0\n",
    b"2\t:\n0\n",
    b"2\t70001\n0\n",
    b"2\t4294967296\n0\n",
    b"2\t18446744073709551616\n0\n",
    b"3\t9\n0\n",
    b"4294967298\t9\n0\n",
    b"18446744073709551615\t9\n0\n",
    b"18446744073709551618\t9\n0\n",
    b"2\t9\n",
];

/// Every such list of one case.
pub fn lists() -> Vec<Vec<u8>> {
    let headers = HEADERS.iter().map(|list| list.to_vec());
    let images = IMAGES.iter().map(|image| {
        let header = format!("{}\t70000\n", image.len());
        [header.as_bytes(), image].concat()
    });
    headers.chain(images).collect()
}
