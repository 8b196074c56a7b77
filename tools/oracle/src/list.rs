//! The stored list: the worked encodings, generated lines, branches around -1,
//! and the lines that are not in the form.

use std::io::{self, Write};

use crate::answer::{answer_line, NOT_IN_FORM};
use crate::malformed;
use crate::manual;
use crate::{branches, generate, numeric};

/// The last line, a NOP, which lacks its LF.
const LAST: &str = "0\t81";

pub fn write(seed: u64, count: usize, output: &mut impl Write) -> io::Result<()> {
    for example in manual::examples() {
        writeln!(output, "{}", example.line)?;
    }
    for line in generate::lines(seed).take(count).chain(branches::lines()) {
        assert!(
            numeric::placed(line.as_bytes()).is_some(),
            "in the form: {line}"
        );
        writeln!(output, "{line}")?;
    }
    for line in malformed::lines() {
        assert_eq!(answer_line(line), NOT_IN_FORM);
        output.write_all(line)?;
        output.write_all(b"\n")?;
    }
    output.write_all(LAST.as_bytes())?;
    output.flush()
}
