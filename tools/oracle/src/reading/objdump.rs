//! A program against objdump: whether words are an instruction, its length and
//! its family.

use std::io::{self, BufRead, BufReader};
use std::process::{Command, Stdio};
use std::{env, fs, process};

use super::answer::NOTHING;
use super::classes::{Classes, Verdict};
use super::family::is_of;
use super::run::Run;
use super::tails::tail;
use super::unused::rule;
use crate::batch::Batches;
use crate::random::Random;
use crate::schema::instructions;

const OBJDUMP: &str = "m68k-linux-gnu-objdump";

/// The processors as objdump names them.
pub const MC68000: &str = "m68k:68000";
pub const MC68020: &str = "m68k:68020";

/// The bytes of a run with NOPs behind it: enough that no instruction begun
/// in the run reaches the next.
const STRIDE: usize = 64;
const NOP: u16 = 0x4E71;

/// What objdump shows at the beginning of a run.
#[derive(Clone)]
pub struct Shown {
    pub text: String,
    pub bytes: usize,
}

impl Shown {
    pub fn is_instruction(&self) -> bool {
        !self.text.starts_with('.')
    }

    /// Its text and length.
    pub fn said(&self) -> String {
        format!("{:?}, {} bytes", self.text, self.bytes)
    }

    pub fn mnemonic(&self) -> &str {
        self.text.split_whitespace().next().unwrap_or("")
    }
}

pub fn compare(program: &str, seed: u64, tails: usize) -> io::Result<Classes> {
    let mut classes = Classes::default();
    let mut batches = Batches::new(program, |asked: &[u8], note: (Run, Shown), found: &[u8]| {
        let found = String::from_utf8_lossy(found);
        let (run, shown) = note;
        let verdict = match agrees(&found, &shown) {
            true => Verdict::Same,
            false => Verdict::different(class(&run, &found, &shown)),
        };
        classes.count(verdict, || {
            let asked = String::from_utf8_lossy(asked);
            format!("{asked:?}: {found:?}, objdump {}", shown.said())
        });
    });
    let mut random = Random::new(seed);
    for number in 0..tails {
        let runs = runs(number, &mut random);
        for (run, shown) in runs.iter().zip(disassembly(&runs, MC68020)?) {
            batches.push(run.line().as_bytes(), (run.clone(), shown))?;
        }
    }
    batches.finish()?;
    Ok(classes)
}

/// Every first word with a tail of one kind, a stride apart.
pub fn runs(number: usize, random: &mut Random) -> Vec<Run> {
    (0..=u16::MAX)
        .map(|first| Run {
            address: first as u32 * STRIDE as u32,
            words: [vec![first], tail(number, random)].concat(),
        })
        .collect()
}

/// What objdump shows of each run for a processor.
pub fn disassembly(runs: &[Run], machine: &str) -> io::Result<Vec<Shown>> {
    let file = env::temp_dir().join(format!("oracle-{}.bin", process::id()));
    fs::write(&file, image(runs))?;
    let child = Command::new(OBJDUMP)
        .args([
            "-D",
            "-z",
            "--no-show-raw-insn",
            "-b",
            "binary",
            "-m",
            machine,
        ])
        .arg(&file)
        .stdout(Stdio::piped())
        .spawn();
    let shown = child.and_then(|mut child| {
        let output = child.stdout.take().expect("the output is piped");
        let shown = shown(BufReader::new(output))?;
        child.wait()?;
        Ok(shown)
    });
    fs::remove_file(&file)?;
    let shown = shown?;
    match shown.len() == runs.len() {
        true => Ok(shown),
        false => Err(io::Error::other("objdump did not begin at every run")),
    }
}

fn image(runs: &[Run]) -> Vec<u8> {
    let padded = runs.iter().flat_map(|run| {
        let mut words = run.words.clone();
        words.resize(STRIDE / 2, NOP);
        words
    });
    padded.flat_map(u16::to_be_bytes).collect()
}

/// The instructions that begin a stride, with their lengths by where the next
/// begins.
fn shown(output: impl BufRead) -> io::Result<Vec<Shown>> {
    let mut found: Vec<Shown> = Vec::new();
    let mut open = None;
    for line in output.lines() {
        let line = line?;
        let Some((address, text)) = instruction(&line) else {
            continue;
        };
        if let Some(from) = open.take() {
            let last: &mut Shown = found.last_mut().expect("one was begun");
            last.bytes = address - from;
        }
        if address % STRIDE == 0 {
            open = Some(address);
            found.push(Shown {
                text: text.to_string(),
                bytes: 0,
            });
        }
    }
    Ok(found)
}

/// The address and text of a line of objdump.
fn instruction(line: &str) -> Option<(usize, &str)> {
    let (address, text) = line.split_once(":\t")?;
    let address = usize::from_str_radix(address.trim(), 16).ok()?;
    Some((address, text.trim()))
}

/// The variant's name and the length of an answer that reads.
pub fn read(found: &str) -> Option<(&'static str, usize)> {
    let (numbers, bytes) = found.split_once("\t=>\t")?;
    let place: usize = numbers.split('\t').next()?.parse().ok()?;
    Some((instructions().get(place)?.name, bytes.parse().ok()?))
}

pub fn agrees(found: &str, shown: &Shown) -> bool {
    match read(found) {
        Some((name, bytes)) => {
            shown.is_instruction() && bytes == shown.bytes && is_of(name, shown.mnemonic())
        }
        None => found == NOTHING && !shown.is_instruction(),
    }
}

/// The rule that explains a difference.
fn class(run: &Run, found: &str, shown: &Shown) -> Option<String> {
    match read(found) {
        Some((name, _)) => read_class(run, name, shown).map(str::to_string),
        None if found == NOTHING => refused_class(run, shown),
        None => None,
    }
}

fn read_class(run: &Run, name: &str, shown: &Shown) -> Option<&'static str> {
    match (name, shown.is_instruction()) {
        ("BF", false) if numbered(run) => Some(NUMBERED),
        _ => line_class(name, shown),
    }
}

/// Whether bits 14 to 12 of the second word are not all 0.
pub fn numbered(run: &Run) -> bool {
    run.words[1] & 0x7000 != 0
}

pub const NUMBERED: &str =
    "exception (ii): objdump has no Test, Change, Clear or Set with a register number";

/// The rules for line A and line F.
pub fn line_class(name: &str, shown: &Shown) -> Option<&'static str> {
    match (name, shown.is_instruction()) {
        ("LINEA", false) => Some("line A: objdump has no instruction"),
        ("LINEF", false) => Some("line F: objdump has no instruction"),
        ("LINEF", true) if shown.mnemonic().starts_with(['f', 'p']) => {
            Some("line F: objdump shows an instruction of the MC68881 or MC68851")
        }
        _ => None,
    }
}

pub fn refused_class(run: &Run, shown: &Shown) -> Option<String> {
    if let Some(rule) = rule(&run.words, run.address) {
        return Some(format!("{rule}; objdump reads"));
    }
    let class = match shown.mnemonic() {
        "callm" | "rtm" => "no variant in encoded.rs: CALLM and RTM",
        "subqb" => "a byte of an address register: objdump shows SUBQ, though not ADDQ",
        "swbegl" => "no instruction of the manual: objdump shows swbeg, a mark of the COFF tools",
        _ => return None,
    };
    Some(class.to_string())
}
