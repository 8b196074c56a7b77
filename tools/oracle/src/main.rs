//! Compares an encoder, a reader, the functions on values, a sheet translator, a
//! writer and reader of S-records and what writes the sheet of an image with the
//! Rust original and with judges.
//! README.md says how.

mod answer;
mod batch;
mod branches;
mod bytes;
mod compare;
mod coverage;
mod draft;
mod fill;
mod generate;
mod given;
mod image;
mod immediate_ends;
mod immediates;
mod instructions;
mod kinds;
mod list;
mod machine;
mod malformed;
mod manual;
mod negative_immediates;
mod numeric;
mod operands;
mod random;
mod reading;
mod replay;
mod requests;
mod schema;
mod sheet;
mod short_branch;
mod srecord;
mod stored;
mod systematic;
mod unsheet;
mod values;
mod written;

use std::error::Error;
use std::io::{self, BufWriter, Read, Write};
use std::process::ExitCode;
use std::{env, fs};

use reading::{back, mc68000, sweep};
use requests::Requests;

const USAGE: &str =
    "oracle generate SEED COUNT | list SEED COUNT | answer | answer-rust | compare A B [LINES]
       | coverage | manual
       | replay PROGRAM SEED COUNT | places | reasons
       | read-answer | read-list SEED | read-replay PROGRAM SEED TAILS | read-back PROGRAM SEED COUNT
       | read-decode PROGRAM SEED TAILS | read-objdump PROGRAM SEED TAILS
       | read-68000-answer | read-68000-list SEED | read-68000-replay PROGRAM SEED TAILS
       | read-68000-back PROGRAM SEED COUNT | read-68000-decode PROGRAM SEED TAILS
       | read-68000-objdump PROGRAM SEED TAILS
       | bytes-answer | bytes-list SEED | bytes-replay PROGRAM SEED COUNT
       | values-answer | values-list | values-replay PROGRAM
       | sheet-answer | sheet-one | sheet-list SEED | sheet-replay PROGRAM SEED COUNT
       | sheet-whole | sheet-whole-source | sheet-whole-image | sheet-whole-time ROUNDS
       | srecord-answer | srecord-list SEED | srecord-replay PROGRAM SEED COUNT
       | unsheet-answer | unsheet-list SEED | unsheet-replay PROGRAM SEED COUNT";

fn main() -> ExitCode {
    let arguments: Vec<String> = env::args().skip(1).collect();
    let arguments: Vec<&str> = arguments.iter().map(String::as_str).collect();
    match run(&arguments) {
        Ok(0) => ExitCode::SUCCESS,
        Ok(_) => ExitCode::FAILURE,
        Err(error) => {
            eprintln!("oracle: {error}");
            ExitCode::FAILURE
        }
    }
}

/// Runs a command; gives the number of differences found.
fn run(arguments: &[&str]) -> Result<usize, Box<dyn Error>> {
    match arguments {
        ["generate", seed, count] => generate(seed.parse()?, count.parse()?)?,
        ["list", seed, count] => list::write(seed.parse()?, count.parse()?, &mut output())?,
        ["answer"] => answer(answer::answer_line)?,
        ["answer-rust"] => answer(answer::rust_answer_line)?,
        ["compare", first, second] => return compare(first, second, None),
        ["compare", first, second, asked] => return compare(first, second, Some(asked)),
        ["coverage"] => coverage::report(&input()?),
        ["manual"] => return Ok(manual::check()),
        [command, program, seed, count] => {
            return against(command, program, seed.parse()?, count.parse()?)
        }
        ["places"] => places(),
        ["reasons"] => reasons(),
        ["read-answer"] => answer(reading::answer::answer_line)?,
        ["read-list", seed] => reading::list::write(seed.parse()?, &mut output())?,
        ["read-68000-answer"] => answer(mc68000::answer::answer_line)?,
        ["read-68000-list", seed] => mc68000::list::write(seed.parse()?, &mut output())?,
        ["bytes-answer"] => answer(bytes::answer::answer_line)?,
        ["bytes-list", seed] => bytes::list::write(seed.parse()?, &mut output())?,
        ["values-answer"] => answer(given::answer::answer_line)?,
        ["values-list"] => given::list::write(&mut output())?,
        ["values-replay", program] => return different(given::replay::replay(program)?),
        ["sheet-answer"] => sheet::answer::answer_list(&input()?, &mut output())?,
        ["sheet-one"] => sheet::answer::answer_one(input()?, &mut output())?,
        ["sheet-list", seed] => sheet::list::write(seed.parse()?, &mut output())?,
        ["srecord-answer"] => srecord::answer::answer_list(&input()?, &mut output())?,
        ["srecord-list", seed] => srecord::list::write(seed.parse()?, &mut output())?,
        ["unsheet-answer"] => unsheet::answer::answer_list(&input()?, &mut output())?,
        ["unsheet-list", seed] => unsheet::list::write(seed.parse()?, &mut output())?,
        ["sheet-whole"] => output().write_all(sheet::whole::sheet().as_bytes())?,
        ["sheet-whole-source"] => output().write_all(sheet::whole::source().as_bytes())?,
        ["sheet-whole-image"] => output().write_all(&sheet::whole::image())?,
        ["sheet-whole-time", rounds] => sheet::whole::time(rounds.parse()?),
        _ => return Err(USAGE.into()),
    }
    Ok(0)
}

/// Runs a command that asks a program.
fn against(command: &str, program: &str, seed: u64, count: usize) -> Result<usize, Box<dyn Error>> {
    let (first, second) = (reading::answer::text, mc68000::answer::text);
    match command {
        "replay" => different(replay::replay(program, seed, count)?),
        "read-replay" => different(sweep::replay(first, program, seed, count)?),
        "read-back" => different(back::replay(first, program, seed, count)?),
        "read-decode" => unexplained(reading::decoder::compare(program, seed, count)?),
        "read-objdump" => unexplained(reading::objdump::compare(program, seed, count)?),
        "read-68000-replay" => different(sweep::replay(second, program, seed, count)?),
        "read-68000-back" => different(back::replay(second, program, seed, count)?),
        "read-68000-decode" => unexplained(mc68000::decoder::compare(program, seed, count)?),
        "read-68000-objdump" => unexplained(mc68000::objdump::compare(program, seed, count)?),
        "bytes-replay" => different(bytes::replay::replay(program, seed, count)?),
        "sheet-replay" => different(sheet::replay::replay(program, seed, count)?),
        "srecord-replay" => different(srecord::replay::replay(program, seed, count)?),
        "unsheet-replay" => different(unsheet::replay::replay(program, seed, count)?),
        _ => Err(USAGE.into()),
    }
}

fn different(comparison: compare::Comparison) -> Result<usize, Box<dyn Error>> {
    comparison.report();
    comparison.report_requests();
    Ok(comparison.different)
}

fn unexplained(classes: reading::classes::Classes) -> Result<usize, Box<dyn Error>> {
    classes.report();
    Ok(classes.unexplained)
}

fn output() -> BufWriter<io::Stdout> {
    BufWriter::new(io::stdout())
}

fn input() -> io::Result<Vec<u8>> {
    let mut input = Vec::new();
    io::stdin().read_to_end(&mut input)?;
    Ok(input)
}

fn generate(seed: u64, count: usize) -> io::Result<()> {
    let mut output = output();
    for line in generate::lines(seed).take(count) {
        writeln!(output, "{line}")?;
    }
    output.flush()
}

fn answer(answer_line: fn(&[u8]) -> String) -> io::Result<()> {
    let mut output = output();
    for line in answer::lines(&input()?) {
        writeln!(output, "{}", answer_line(line))?;
    }
    output.flush()
}

/// Compares two files of answers; `asked` has their lines, if known.
fn compare(first: &str, second: &str, asked: Option<&str>) -> Result<usize, Box<dyn Error>> {
    let (first, second) = (fs::read(first)?, fs::read(second)?);
    let (first, second) = (answer::lines(&first), answer::lines(&second));
    let mut comparison = compare::Comparison::default();
    let Some(asked) = asked else {
        comparison.lists(&[], &first, &second);
        comparison.report();
        return Ok(comparison.different);
    };
    let asked = fs::read(asked)?;
    let asked = answer::lines(&asked);
    comparison.lists(&asked, &first, &second);
    for line in asked {
        comparison.requests += Requests::of_line(line);
    }
    different(comparison)
}

/// The instructions by their places in the numeric form.
fn places() {
    for (place, variant) in schema::instructions().iter().enumerate() {
        println!("{place}\t{}", variant.name);
    }
}

fn reasons() {
    for (place, text) in answer::REASONS.iter().enumerate() {
        println!("{}\t{text}", place + 1);
    }
}

#[cfg(test)]
mod tests {
    use super::*;

    #[test]
    fn worked_encodings_agree() {
        assert_eq!(manual::check(), 0);
    }

    #[test]
    fn lines_outside_the_form_are_refused() {
        for line in malformed::lines().chain(malformed::raw_lines()) {
            assert_eq!(answer::answer_line(line), answer::NOT_IN_FORM);
        }
    }

    #[test]
    fn the_ends_of_the_types_are_in_the_form() {
        for line in [
            "4294967295\t81",
            "0\t23\t5\t-2147483648\t0\t255\t1",
            "0\t23\t5\t2147483647\t0\t0\t1",
            "0\t23\t10\t18446744073709551615\t1\t2",
            "0\t23\t9\t255\t65535\t0\t0\t0",
        ] {
            assert!(numeric::placed(line.as_bytes()).is_some(), "{line}");
        }
    }

    #[test]
    fn generated_lines_are_in_the_form_and_read_back() {
        for line in generate::lines(1).take(40_000) {
            assert!(numeric::placed(line.as_bytes()).is_some(), "{line}");
            assert_eq!(draft::Draft::of_line(&line).line(), line);
        }
    }
}
