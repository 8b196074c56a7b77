//! The answer to a line: how many bytes are lent, then a line of the numeric
//! form.

use crate::answer::{encoded_bytes, Refusal, NOT_IN_FORM};
use crate::numeric::{digits, placed, Placed};
use crate::requests::Requests;

/// The most bytes that a line lends.
pub const MOST: u64 = 32;

/// What the first lent byte holds before the call; the next hold one more
/// each.
const FIRST: u8 = 160;

const SHORT: Refusal = Refusal {
    number: 4,
    detail: 0,
    value: 0,
};

/// The answer to a line, without LF.
pub fn answer_line(line: &[u8]) -> String {
    match called(line) {
        Some((lent, placed)) => answer(lent, &placed),
        None => NOT_IN_FORM.to_string(),
    }
}

pub fn line_requests(line: &[u8]) -> Requests {
    let called = called(line).map(|(_, placed)| Requests::of(&placed));
    called.unwrap_or_default()
}

fn called(line: &[u8]) -> Option<(usize, Placed)> {
    let tab = line.iter().position(|byte| *byte == b'\t')?;
    let lent = digits(&line[..tab])?;
    (lent <= MOST).then_some(())?;
    Some((lent as usize, placed(&line[tab + 1..])?))
}

/// Refusal 4 comes last, nothing is written where one is given, and no byte
/// past the size.
fn answer(lent: usize, placed: &Placed) -> String {
    let mut bytes: Vec<u8> = (FIRST..).take(lent).collect();
    let returned = encoded_bytes(placed).and_then(|encoded| {
        let to = bytes.get_mut(..encoded.len()).ok_or(SHORT)?;
        to.copy_from_slice(&encoded);
        Ok(encoded.len())
    });
    let returned = match returned {
        Ok(size) => size.to_string(),
        Err(refusal) => refusal.text(),
    };
    let bytes: String = bytes.iter().map(|byte| format!("\t{byte:02X}")).collect();
    format!("{returned}\t=>{bytes}")
}
