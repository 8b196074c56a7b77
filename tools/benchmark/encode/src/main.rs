//! Times `encode` beside the original's in one process, on the accepted lines
//! of a list in numeric form, and compares the two on every line of it.
//! docs/BENCHMARKS.md says how.

#[allow(dead_code)]
#[path = "../../../oracle/src/answer.rs"]
mod answer;
mod export;
#[path = "../../../oracle/src/instructions.rs"]
mod instructions;
#[path = "../../../oracle/src/machine.rs"]
mod machine;
#[path = "../../../oracle/src/negative_immediates.rs"]
mod negative_immediates;
#[allow(dead_code)]
#[path = "../../../oracle/src/numeric.rs"]
mod numeric;
#[path = "../../../oracle/src/operands.rs"]
mod operands;
#[path = "../../../oracle/src/short_branch.rs"]
mod short_branch;

use std::hint::black_box;
use std::process::ExitCode;
use std::time::Instant;
use std::{env, fs};

use export::{once, twice, Answer, Line};
use machine::encode::encode;

const USAGE: &str = "benchmark-encode LIST [ROUNDS | original | original-twice | once | twice | none]";
const BATCHES: usize = 100;

type Pass = fn(&[Line]);

const PASSES: [(&str, Pass); 4] = [
    ("original", original),
    ("original-twice", original_twice),
    ("once", ours),
    ("twice", ours_twice),
];

fn main() -> ExitCode {
    let arguments: Vec<String> = env::args().skip(1).collect();
    let Some(Ok(list)) = arguments.first().map(fs::read) else {
        eprintln!("{USAGE}");
        return ExitCode::FAILURE;
    };
    let lines = lines(&list);
    let accepted = match compared(&list, lines) {
        Ok(accepted) => accepted,
        Err(different) => {
            println!("{different} different");
            return ExitCode::FAILURE;
        }
    };
    let what = arguments.get(1).map_or("10", String::as_str);
    if let Ok(rounds) = what.parse() {
        report(least(&accepted, rounds));
    } else if let Some((_, pass)) = PASSES.iter().find(|(name, _)| *name == what) {
        pass(&accepted);
    } else if what != "none" {
        eprintln!("{USAGE}");
        return ExitCode::FAILURE;
    }
    ExitCode::SUCCESS
}

/// The lines of a list that are in the form.
fn lines(list: &[u8]) -> Vec<Line> {
    let lines = answer::lines(list).into_iter();
    lines.filter_map(Line::of_text).collect()
}

/// The lines that both accept, where both encoders answer every line alike but
/// for N2 and N5, also in a second call at another address; else the number of
/// differences.
fn compared(list: &[u8], lines: Vec<Line>) -> Result<Vec<Line>, usize> {
    let differ = |line: &Line| {
        let other = line.placed.address.wrapping_add(2);
        let (theirs, also) = (original_answer(line, line.placed.address), original_answer(line, other));
        let pair = twice(line, other);
        once(line) != theirs || pair.first != theirs || pair.second != also
    };
    let different = lines.iter().filter(|line| differ(line)).count();
    let accepted = |line: &Line| once(line).number == 0 && !answer::of_n2(&line.placed);
    let count = lines.iter().filter(|line| accepted(line)).count();
    println!(
        "{} lines, {} in the form, each compared at two addresses, {different} different; {count} accepted",
        answer::lines(list).len(),
        lines.len(),
    );
    if different > 0 {
        return Err(different);
    }
    Ok(lines.into_iter().filter(accepted).collect())
}

/// What the original answers, with N2 and N5, in the places of an exported answer.
fn original_answer(line: &Line, address: u32) -> Answer {
    let placed = numeric::Placed {
        address,
        instruction: line.placed.instruction.clone(),
        outside: line.placed.outside,
    };
    let mut given = Answer::default();
    match answer::answer(&placed).words {
        Ok(words) => {
            given.count = words.len();
            given.words[..words.len()].copy_from_slice(&words);
        }
        Err(refusal) => {
            given.number = refusal.number as u8;
            given.detail = refusal.detail as u8;
            given.value = refusal.value;
        }
    }
    given
}

fn original(lines: &[Line]) {
    for line in lines {
        let _ = black_box(encode(black_box(&line.placed.instruction), line.placed.address));
    }
}

fn original_twice(lines: &[Line]) {
    for line in lines {
        let _ = black_box(encode(black_box(&line.placed.instruction), line.placed.address));
        let _ = black_box(encode(black_box(&line.placed.instruction), line.placed.address));
    }
}

fn ours(lines: &[Line]) {
    for line in lines {
        black_box(once(black_box(line)));
    }
}

fn ours_twice(lines: &[Line]) {
    for line in lines {
        black_box(twice(black_box(line), line.placed.address));
    }
}

/// Nanoseconds a line of each pass, in turn: the least of a hundred batches.
fn least(lines: &[Line], rounds: usize) -> [f64; PASSES.len()] {
    let mut least = [f64::INFINITY; PASSES.len()];
    for _ in 0..BATCHES {
        for (fastest, (_, pass)) in least.iter_mut().zip(PASSES) {
            let begun = Instant::now();
            for _ in 0..rounds {
                pass(lines);
            }
            let each = begun.elapsed().as_secs_f64() * 1e9 / (rounds * lines.len()) as f64;
            *fastest = fastest.min(each);
        }
    }
    least
}

fn report([original, original_twice, once, twice]: [f64; PASSES.len()]) {
    let (theirs, ours) = (original_twice - original, twice - once);
    println!("original's encode, line after line: {original:.1} ns an instruction");
    println!("a second encode of the same instruction: original {theirs:.1} ns, ours {ours:.1} ns, ratio {:.2}", ours / theirs);
    println!("build and encode, ours: {once:.1} ns; build alone {:.1} ns", once - ours);
}
