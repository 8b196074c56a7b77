//! Lists that are not in the form.

/// A sheet and its bytes.
const SHEET: &str = "START\t0\nNOP\n";
const BYTES: &str = "12";

/// What is no number of a header, wherever it stands.
const NONE: [&str; 18] = [
    "",
    "00",
    "01",
    "-0",
    "-1",
    "+1",
    " 1",
    "1 ",
    "1\r",
    "1x",
    "1.0",
    "/",
    ":",
    "A",
    "4294967297",
    "18446744073709551615",
    "18446744073709551616",
    "18446744073709551617",
];

/// What follows the bytes in a header; too few numbers, too many, or too large.
const OTHERS: [&str; 19] = [
    "",
    "\t1",
    "\t1\t1\t1\t",
    "\t1\t1\t1\t1",
    "\t1\t1\t0\t0",
    "\t1\t1 1",
    "\t1\t1,1",
    " 1 1",
    ",1,1",
    "\t4097\t1",
    "\t4097\t1\t0",
    "\t4097\t1\t1",
    "\t1\t45057",
    "\t1\t45057\t0",
    "\t1\t45057\t1",
    "\t1\t1\t2",
    "\t1\t1\t3",
    "\t1\t1\t10",
    "\t1\t1\t256",
];

/// Headers without their LF, or with fewer bytes behind them than they say.
const CUT: [&str; 8] = [
    "\n",
    " ",
    "0\t1\t1",
    "0\t1\t1\t1",
    "1\t1\t1\n",
    "1\t1\t1\t1\n",
    "13\t1\t1\nSTART\t0\nNOP\n",
    "13\t1\t1\t1\nSTART\t0\nNOP\n",
];

/// Every such list of one case.
pub fn lists() -> Vec<Vec<u8>> {
    let headers = OTHERS.map(|others| format!("{BYTES}{others}"));
    let headers = headers.into_iter().chain(none());
    let whole = headers.map(|header| format!("{header}\n{SHEET}"));
    let lists = whole.chain(CUT.map(String::from));
    lists.map(String::into_bytes).collect()
}

/// Headers of three and of four numbers, one of which is none.
fn none() -> Vec<String> {
    let headers: [&[&str]; 2] = [&[BYTES, "1", "1"], &[BYTES, "1", "1", "1"]];
    let mut found = Vec::new();
    for header in headers {
        for at in 0..header.len() {
            for none in NONE {
                let mut header = header.to_vec();
                header[at] = none;
                found.push(header.join("\t"));
            }
        }
    }
    found
}
