//! Which instructions the manual marks for the MC68000: M68000PM/AD, the
//! headings and footnotes of the entries of sections 4 and 6.

use crate::instructions::*;
use crate::operands::with_operands;

pub fn is_of_68000(instruction: &Instruction) -> bool {
    not_marked(instruction).is_none()
}

/// What keeps an instruction in plain form from the MC68000.
pub fn not_marked(instruction: &Instruction) -> Option<&'static str> {
    heading(instruction)
        .or_else(|| footnote(instruction))
        .or_else(|| index_word(instruction))
}

/// Instructions whose heading names later processors alone.
fn heading(instruction: &Instruction) -> Option<&'static str> {
    use Instruction::*;
    Some(match instruction {
        // MC68010, MC68020, MC68030, MC68040, CPU32
        MOVEfromCCR(_) => "MOVE from CCR",
        RTD(_) => "RTD",
        MOVEC { .. } => "MOVEC",
        MOVES { .. } => "MOVES",
        // the same and the MC68EC000, which is not the MC68000
        BKPT(_) => "BKPT",
        // MC68020, MC68030, MC68040, some with the CPU32
        TRAPcc(..) => "TRAPcc",
        PACK(..) => "PACK",
        UNPK(..) => "UNPK",
        CHK2(..) | CMP2(..) => "CHK2 and CMP2",
        CAS { .. } => "CAS",
        CAS2 { .. } => "CAS2",
        // eight entries, BFCHG to BFTST
        BF { .. } => "a bit field",
        _ => return None,
    })
}

/// Sizes and operands that an entry marks for later processors alone.
fn footnote(instruction: &Instruction) -> Option<&'static str> {
    use Instruction::*;
    Some(match instruction {
        // CHK: Size = (Word, Long*)
        CHKL(..) => "CHK.L",
        // LINK: Size = (Word, Long*)
        LINKL(..) => "LINK.L",
        // MULS, MULU: the two forms of Long have the mark
        MULL { .. } => "MULS.L and MULU.L",
        // DIVS, DIVSL, DIVU, DIVUL: the three forms of Long have the mark
        DIVL { .. } => "DIVS.L and DIVU.L",
        // EXT, EXTB: EXTB.L has the mark
        EXT(_, Size::Byte, Size::Long) => "EXTB.L",
        // Bcc, BRA, BSR: Size = (Byte, Word, Long*)
        BRA(_, BranchSize::Long) => "BRA.L",
        BSR(_, BranchSize::Long) => "BSR.L",
        Bcc(_, _, BranchSize::Long) => "Bcc.L",
        // TST: An*, #<data>*, (d16,PC)** and (d8,PC,Xn)**
        TST(Operand::Register(RegisterOperand::Address(_)), _) => "TST of An",
        TST(Operand::Immediate(_), _) => "TST of an immediate",
        TST(operand, _) if is_from_pc(operand) => "TST from the PC",
        // CMPI: (d16,PC)* and (d8,PC,Xn)*
        CMPI(_, operand, _) if is_from_pc(operand) => "CMPI from the PC",
        _ => return None,
    })
}

fn is_from_pc(operand: &Operand) -> bool {
    matches!(
        operand,
        Operand::PcDisplacement { .. } | Operand::PcIndex { .. }
    )
}

/// The modes (bd,An,Xn), ([bd,An,Xn],od) and so on, which every entry marks,
/// and the scale, which section 2 has for the MC68020 and later.
fn index_word(instruction: &Instruction) -> Option<&'static str> {
    match index_words(*instruction) {
        (_, true) => Some("a full word"),
        (true, false) => Some("a scale above 1"),
        (false, false) => None,
    }
}

/// Whether an operand has a brief word with a scale above 1, and whether one
/// has a full word; a brief word of scale 1 is not `Extended` in plain form.
pub fn index_words(instruction: Instruction) -> (bool, bool) {
    let (mut scaled, mut full) = (false, false);
    with_operands(instruction, &mut |operand| {
        if let Operand::Extended { word, .. } = operand {
            scaled |= !word.is_full();
            full |= word.is_full();
        }
        operand
    });
    (scaled, full)
}
