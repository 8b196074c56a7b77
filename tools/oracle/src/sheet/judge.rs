//! The listing of a sheet, or its refusal, place by place of the table.

use super::line::Line;
use super::record::Record;
use crate::answer::{answer, answer_without_n2, answer_without_n5, Answer, Refusal};
use crate::numeric::{digits, Placed};
use crate::requests::Requests;

const MOST_BYTES: usize = 65_536;
const MOST_LINES: usize = 4_096;

/// A line's address and words.
#[derive(Debug, Clone, PartialEq, Eq)]
pub struct Listed {
    pub address: u32,
    pub words: Vec<u16>,
}

/// A refusal and its line, 0 outside lines.
#[derive(Debug, Clone, Copy, PartialEq, Eq)]
pub struct Refused {
    pub line: usize,
    pub refusal: Refusal,
}

/// A line in the form, whose `@` all name lines, and its size in bytes.
struct Measured<'t> {
    line: Line<'t>,
    size: u64,
}

pub fn judge(record: &Record) -> Result<Vec<Listed>, Refused> {
    judge_by(answer, record)
}

/// The requests without which the answer would be another.
pub fn requests(record: &Record) -> Requests {
    let due = judge(record);
    let differs = |answer| judge_by(answer, record) != due;
    Requests {
        n2: differs(answer_without_n2) as usize,
        n5: differs(answer_without_n5) as usize,
    }
}

fn judge_by(answer: fn(&Placed) -> Answer, record: &Record) -> Result<Vec<Listed>, Refused> {
    let texts = texts(&record.text)?;
    let start = start(texts[0])?;
    let texts = &texts[1..];
    let needed = record.way.unwrap_or_default().places(texts.len());
    unless(needed <= record.places, 11)?;
    let lines = measured(texts)?;
    let bytes: u64 = lines.iter().map(|line| line.size).sum();
    unless(start as u64 + bytes <= 1 << 32, 9)?;
    unless(bytes / 2 <= record.room as u64, 11)?;
    listed(answer, start, &lines)
}

fn plain(number: u32) -> Refusal {
    Refusal {
        number,
        detail: 0,
        value: 0,
    }
}

/// Refused outside lines where the condition fails.
fn unless(holds: bool, number: u32) -> Result<(), Refused> {
    let refusal = plain(number);
    holds.then_some(()).ok_or(Refused { line: 0, refusal })
}

/// The START line and the instruction lines; 10.
fn texts(text: &[u8]) -> Result<Vec<&[u8]>, Refused> {
    unless((1..=MOST_BYTES).contains(&text.len()), 10)?;
    unless(text.ends_with(b"\n"), 10)?;
    let texts: Vec<&[u8]> = text[..text.len() - 1]
        .split(|byte| *byte == b'\n')
        .collect();
    unless((1..=MOST_LINES).contains(&(texts.len() - 1)), 10)?;
    Ok(texts)
}

/// The start; 7, then 9.
fn start(text: &[u8]) -> Result<u32, Refused> {
    let start = text.strip_prefix(b"START\t").and_then(digits);
    let start = start.and_then(|start| u32::try_from(start).ok());
    unless(start.is_some(), 7)?;
    let start = start.unwrap_or_default();
    unless(start % 2 == 0, 9)?;
    Ok(start)
}

/// Each line in turn; 7, 8, then as `size` refuses it.
fn measured<'t>(texts: &[&'t [u8]]) -> Result<Vec<Measured<'t>>, Refused> {
    let lines = texts.iter().enumerate();
    lines
        .map(|(at, text)| {
            let measured = measured_line(text, texts.len());
            measured.map_err(|refusal| Refused {
                line: at + 1,
                refusal,
            })
        })
        .collect()
}

fn measured_line(text: &[u8], count: usize) -> Result<Measured<'_>, Refusal> {
    let line = Line::of_text(text).ok_or(plain(7))?;
    let placed = line.placed(0, |_| 0).ok_or(plain(7))?;
    if line.names().any(|name| !(1..=count).contains(&name)) {
        return Err(plain(8));
    }
    let size = answer(&placed).size? as u64;
    Ok(Measured { line, size })
}

/// Each line in turn, as `encode` accepts or refuses it at its address.
fn listed(
    answer: fn(&Placed) -> Answer,
    start: u32,
    lines: &[Measured],
) -> Result<Vec<Listed>, Refused> {
    let addresses = addresses(start, lines);
    let named = |name: usize| addresses[name - 1];
    let mut listing = Vec::new();
    for (at, (line, address)) in lines.iter().zip(&addresses).enumerate() {
        let placed = line.line.placed(*address, named).expect("in the form");
        let words = answer(&placed).words.map_err(|refusal| Refused {
            line: at + 1,
            refusal,
        })?;
        assert_eq!(words.len() as u64 * 2, line.size, "the size");
        let address = *address;
        listing.push(Listed { address, words });
    }
    Ok(listing)
}

/// The address of each line.
fn addresses(start: u32, lines: &[Measured]) -> Vec<u32> {
    let mut next = start as u64;
    let of_line = |line: &Measured| {
        let address = next as u32;
        next += line.size;
        address
    };
    lines.iter().map(of_line).collect()
}
