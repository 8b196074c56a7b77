//! Lists that are not in the form.

/// Headers alone, and headers with too few bytes behind them.
const HEADERS: [&[u8]; 42] = [
    b"\n",
    b" ",
    b"0\n",
    b"0\t1\n",
    b"0\t1\t0",
    b"0\t1\t0\t0\n",
    b"0\t1\t0\t\n",
    b"\t0\t1\t0\n",
    b"\t1\t0\n",
    b"0\t\t0\n",
    b"0\t1\t\n",
    b"00\t1\t0\n",
    b"0\t01\t0\n",
    b"0\t1\t00\n",
    b"-0\t1\t0\n",
    b"0\t-1\t0\n",
    b"0\t1\t-1\n",
    b"+0\t1\t0\n",
    b" 0\t1\t0\n",
    b"0\t1\t0 \n",
    b"0\t1\t0\r\n",
    b"0 1 0\n",
    b"0,1,0\n",
    b"0\t1\t0x\n",
    b"0\t1\t/\n",
    b"0\t1\t:\n",
    b"0\t1\tA\n",
    b"0\t2\t0\n",
    b"0\t10\t0\n",
    b"0\t256\t0\n",
    b"0\t4294967297\t0\n",
    b"0\t18446744073709551617\t0\n",
    b"0\t1\t45057\n",
    b"0\t1\t262144\n",
    b"0\t1\t4294967296\n",
    b"0\t1\t18446744073709551616\n",
    b"1\t1\t0\n",
    b"4294967296\t1\t0\n",
    b"18446744073709551615\t1\t0\n",
    b"18446744073709551616\t1\t0\n",
    b"16\t1\t45056\nS70500000000FA\n",
    b"2\t0\t262145\n0\n",
];

/// What is not the line of an image.
pub const IMAGES: [&[u8]; 33] = [
    b"",
    b"0",
    b"\n",
    b"\n0\n",
    b"0\n\n",
    b"0\n0\n",
    b"00\n",
    b"01\n",
    b"-1\n",
    b"-0\n",
    b"+1\n",
    b" 0\n",
    b"0 \n",
    b"0\r\n",
    b"4294967296\n",
    b"18446744073709551616\n",
    b"0x10\n",
    b"\t4E71\n",
    b"0\t\n",
    b"0\t4E71\t\n",
    b"0\t\t4E71\n",
    b"0\t4E7\n",
    b"0\t4E711\n",
    b"0\t4e71\n",
    b"0\t4E7g\n",
    b"0\t4E7/\n",
    b"0\t4E7:\n",
    b"0\t4E7@\n",
    b"0\t+4E7\n",
    b"0\t 4E7\n",
    b"0 4E71\n",
    b"0\t4E71\r\n",
    b"0\t4E71\n\t4E71\n",
];

/// Every such list of one case.
pub fn lists() -> Vec<Vec<u8>> {
    let headers = HEADERS.iter().map(|list| list.to_vec());
    let images = IMAGES.iter().map(|image| {
        let header = format!("{}\t0\t262144\n", image.len());
        [header.as_bytes(), image].concat()
    });
    headers.chain(images).collect()
}
