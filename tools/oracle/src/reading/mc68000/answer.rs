//! The second reader's answer to a line.

use super::entries::is_of_68000;
use crate::reading::answer as first;
use crate::reading::judge::Reading;

pub const NOT_68000: &str = "refused\t15\t0\t0";

/// The answer to a line, without LF.
pub fn answer_line(line: &[u8]) -> String {
    first::answer_line_by(text, line)
}

/// 15 comes after 5 and 6: it is met only where the first reader reads.
pub fn text(reading: Reading) -> String {
    match reading {
        Reading::Read(instruction, _) if !is_of_68000(&instruction) => NOT_68000.to_string(),
        other => first::text(other),
    }
}
