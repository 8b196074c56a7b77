//! Lines, and the cases of a stored list, given to a program in batches.

use std::io::{self, Write};
use std::process::{Command, Stdio};
use std::thread;

use crate::answer::lines;
use crate::compare::{Comparison, Expected};

/// The program takes up to 1 MiB of input a run.
const MOST: usize = 1_000_000;

const MISSING: &[u8] = b"<no line>";

/// Gives lines to a program; each comes to `check` with its note and its
/// answer.
pub struct Batches<'p, N, F> {
    program: &'p str,
    input: Vec<u8>,
    notes: Vec<N>,
    check: F,
}

impl<'p, N, F: FnMut(&[u8], N, &[u8])> Batches<'p, N, F> {
    pub fn new(program: &'p str, check: F) -> Self {
        Batches {
            program,
            input: Vec::new(),
            notes: Vec::new(),
            check,
        }
    }

    pub fn push(&mut self, line: &[u8], note: N) -> io::Result<()> {
        if self.input.len() + line.len() >= MOST {
            self.run()?;
        }
        self.input.extend_from_slice(line);
        self.input.push(b'\n');
        self.notes.push(note);
        Ok(())
    }

    pub fn finish(mut self) -> io::Result<()> {
        self.run()
    }

    fn run(&mut self) -> io::Result<()> {
        let input = std::mem::take(&mut self.input);
        let output = output_of(self.program, input.clone())?;
        let (asked, found) = (lines(&input), lines(&output));
        if found.len() > asked.len() {
            let counts = format!("{} lines for {}", found.len(), asked.len());
            return Err(io::Error::other(counts));
        }
        for (at, note) in self.notes.drain(..).enumerate() {
            (self.check)(asked[at], note, found.get(at).unwrap_or(&MISSING));
        }
        Ok(())
    }
}

/// Gives the cases of a stored list to a program, each with the answer that is
/// due, and compares.
pub struct Lists<'p> {
    program: &'p str,
    list: Vec<u8>,
    cases: Vec<(Vec<u8>, Expected)>,
    comparison: Comparison,
}

impl<'p> Lists<'p> {
    pub fn new(program: &'p str) -> Self {
        Lists {
            program,
            list: Vec::new(),
            cases: Vec::new(),
            comparison: Comparison::default(),
        }
    }

    /// A case as the list has it.
    pub fn push(&mut self, asked: Vec<u8>, due: Expected) -> io::Result<()> {
        if self.list.len() + asked.len() >= MOST {
            self.run()?;
        }
        self.list.extend_from_slice(&asked);
        self.cases.push((asked, due));
        Ok(())
    }

    /// A list by itself, with all that is due.
    pub fn whole(&mut self, list: Vec<u8>, due: &[u8]) -> io::Result<()> {
        let found = output_of(self.program, list.clone())?;
        self.comparison.answer(&list, due, Some(&found));
        Ok(())
    }

    pub fn finish(mut self) -> io::Result<Comparison> {
        self.run()?;
        Ok(self.comparison)
    }

    fn run(&mut self) -> io::Result<()> {
        let output = output_of(self.program, std::mem::take(&mut self.list))?;
        let found = answers(&output);
        if found.len() > self.cases.len() {
            let counts = format!("{} answers for {}", found.len(), self.cases.len());
            return Err(io::Error::other(counts));
        }
        for (at, (asked, due)) in self.cases.drain(..).enumerate() {
            let found = found.get(at).copied();
            self.comparison.due(&asked, &due, found);
        }
        Ok(())
    }
}

/// What a program prints to an input.
fn output_of(program: &str, input: Vec<u8>) -> io::Result<Vec<u8>> {
    let mut child = Command::new(program)
        .stdin(Stdio::piped())
        .stdout(Stdio::piped())
        .spawn()?;
    let mut stdin = child.stdin.take().expect("the input is piped");
    let writer = thread::spawn(move || stdin.write_all(&input));
    let output = child.wait_with_output()?;
    // A program that stops reading early gives too few answers, which counts.
    drop(writer.join());
    Ok(output.stdout)
}

/// The answers of an output, each followed by an empty line.
fn answers(output: &[u8]) -> Vec<&[u8]> {
    let mut answers = Vec::new();
    let mut rest = output;
    while !rest.is_empty() {
        let end = rest.windows(2).position(|bytes| bytes == b"\n\n");
        let end = end.map_or(rest.len(), |end| end + 1);
        answers.push(&rest[..end]);
        rest = rest.get(end + 1..).unwrap_or_default();
    }
    answers
}
