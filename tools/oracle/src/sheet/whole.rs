//! A sheet with as many lines and bytes as a sheet may have, the same program
//! for GNU as, and the time that the original takes to encode it.

use std::hint::black_box;
use std::time::Instant;

use super::judge::judge;
use super::line::Line;
use super::record::Record;
use crate::instructions::Instruction;
use crate::machine::encode::encode;

const START: u32 = 4096;
const LINES: usize = 4_096;
const BYTES: usize = 65_536;

/// A line as a sheet and as GNU as has it: `{r}` and `{s}` are registers,
/// `{v}` is a value, `{t}` the line so many lines on.
struct Template {
    sheet: &'static str,
    gnu: &'static str,
    on: isize,
}

const fn line(sheet: &'static str, gnu: &'static str, on: isize) -> Template {
    Template { sheet, gnu, on }
}

/// The value of `moveq` has one to three digits, so that the bytes come out.
const MOVEQ: Template = line("MOVEQ\t{v}\tData\t{r}", "moveq #{v},%d{r}", 0);
const NOP: Template = line("NOP", "nop", 0);
const RTS: Template = line("RTS", "rts", 0);

/// Lines repeated to the end.
const BLOCK: [Template; 32] = [
    MOVEQ,
    line("LEA\tIndirect\t{r}\tAddress\t{s}", "lea (%a{r}),%a{s}", 0),
    line("BSR\t{t}\tWord", "bsr.w {t}", 30),
    line("SWAP\tData\t{r}", "swap %d{r}", 0),
    line("TST\tIndirect\t{r}\tWord", "tst.w (%a{r})", 0),
    line("Bcc\t{t}\tEqual\tShort", "beq.s {t}", 5),
    MOVE_MEMORY,
    line(
        "ADD\tIndirect\t{r}\tRegister\tData\t{s}\tWord",
        "add.w (%a{r}),%d{s}",
        0,
    ),
    line("BRA\t{t}\tWord", "bra.w {t}", 9),
    NOP,
    RTS,
    MOVEQ,
    line(
        "MOVE\tPostIndirect\t{r}\tRegister\tData\t{s}\tWord",
        "move.w (%a{r})+,%d{s}",
        0,
    ),
    line("ADDQ\t1\tIndirect\t{r}\tLong", "addq.l #1,(%a{r})", 0),
    line("DBcc\tData\t{r}\t{t}\tFalse", "dbf %d{r},{t}", -2),
    NOP,
    line("TRAP\t{r}", "trap #{r}", 0),
    line("TRAPV", "trapv", 0),
    line("Bcc\t{t}\tNotEqual\tWord", "bne.w {t}", -12),
    MOVE_MEMORY,
    line("SUBQ\t1\tRegister\tData\t{r}\tWord", "subq.w #1,%d{r}", 0),
    line("Bcc\t{t}\tPlus\tShort", "bpl.s {t}", -2),
    NOP,
    MOVEQ,
    line("SWAP\tData\t{s}", "swap %d{s}", 0),
    NOP,
    line("BRA\t{t}\tShort", "bra.s {t}", 3),
    line("UNLK\tAddress\t{r}", "unlk %a{r}", 0),
    line("RTD\t{r}", "rtd #{r}", 0),
    NOP,
    RTS,
    RTS,
];

const MOVE_MEMORY: Template = line(
    "MOVE\tIndirect\t{r}\tIndirect\t{s}\tWord",
    "move.w (%a{r}),(%a{s})",
    0,
);

/// The sheet.
pub fn sheet() -> String {
    let digits = digits();
    let lines = (0..LINES).map(|at| {
        let template = &BLOCK[at % BLOCK.len()];
        format!("{}\n", filled(template.sheet, "@", at, digits[at]))
    });
    format!("START\t{START}\n{}", lines.collect::<String>())
}

/// The same program for GNU as.
pub fn source() -> String {
    let digits = digits();
    let lines = (0..LINES).map(|at| {
        let template = &BLOCK[at % BLOCK.len()];
        let line = filled(template.gnu, "L", at, digits[at]);
        format!("L{}:\t{line}\n", at + 1)
    });
    lines.collect()
}

/// The bytes of the judge's words.
pub fn image() -> Vec<u8> {
    let listing = judge(&Record::of_program(sheet())).expect("accepted");
    let words = listing.iter().flat_map(|listed| &listed.words);
    words.flat_map(|word| word.to_be_bytes()).collect()
}

/// A template's text at a place, `mark` before the number of a line.
fn filled(text: &str, mark: &str, at: usize, digits: usize) -> String {
    let on = BLOCK[at % BLOCK.len()].on;
    let target = (at as isize + on).rem_euclid(LINES as isize) + 1;
    let value = match digits {
        1 => at % 10,
        2 => 10 + at % 90,
        _ => 100 + at % 28,
    };
    text.replace("{r}", &(at % 7).to_string())
        .replace("{s}", &((at + at / 32) % 6).to_string())
        .replace("{v}", &value.to_string())
        .replace("{t}", &format!("{mark}{target}"))
}

/// The digits of each line's value: three in the first ones, so that the bytes
/// come out.
fn digits() -> Vec<usize> {
    let plain = (0..LINES).map(|at| filled(BLOCK[at % BLOCK.len()].sheet, "@", at, 1).len() + 1);
    let plain = plain.sum::<usize>() + format!("START\t{START}\n").len();
    let mut missing = BYTES.checked_sub(plain).expect("not too many bytes");
    let mut digits = vec![1; LINES];
    for at in (0..LINES).filter(|at| BLOCK[at % BLOCK.len()].sheet == MOVEQ.sheet) {
        let more = missing.min(2);
        digits[at] += more;
        missing -= more;
    }
    assert_eq!(missing, 0, "enough values");
    digits
}

/// The instructions and addresses of the sheet.
fn instructions() -> Vec<(Instruction, u32)> {
    let text = sheet();
    let listing = judge(&Record::of_program(text.as_bytes())).expect("accepted");
    let named = |name: usize| listing[name - 1].address;
    let lines = text.lines().skip(1).zip(&listing);
    lines
        .map(|(line, listed)| {
            let line = Line::of_text(line.as_bytes()).expect("in the form");
            let placed = line.placed(listed.address, named).expect("in the form");
            (placed.instruction, listed.address)
        })
        .collect()
}

/// Encodes the instructions from memory so many times over.
pub fn time(rounds: usize) {
    let instructions = instructions();
    let mut fastest = f64::INFINITY;
    let begun = Instant::now();
    for _ in 0..rounds {
        let round = Instant::now();
        for (instruction, address) in &instructions {
            black_box(encode(black_box(instruction), *address)).expect("accepted");
        }
        fastest = fastest.min(round.elapsed().as_secs_f64());
    }
    let mean = begun.elapsed().as_secs_f64() / rounds as f64;
    let each = |seconds: f64| seconds * 1e9 / instructions.len() as f64;
    println!("{} instructions, {rounds} rounds", instructions.len());
    println!("{:.1} ns an instruction", each(mean));
    println!("{:.1} ns in the fastest round", each(fastest));
}
