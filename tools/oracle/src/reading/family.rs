//! The mnemonics that objdump may print for a variant of `Instruction`.

use crate::instructions::Condition;

/// Variants whose mnemonics have a condition after this.
const CONDITIONAL: [(&str, &str); 4] = [
    ("Bcc", "b"),
    ("Scc", "s"),
    ("DBcc", "db"),
    ("TRAPcc", "trap"),
];

/// Variants whose mnemonics do not begin with their names.
const FAMILIES: [(&str, &str); 22] = [
    ("DIVx", "div"),
    ("MULx", "mul"),
    ("MULL", "mul"),
    ("DIVL", "div"),
    ("ASd", "as"),
    ("LSd", "ls"),
    ("ROd", "ro"),
    ("ROXd", "rox"),
    ("BF", "bf"),
    ("CHKL", "chk"),
    ("LINKL", "link"),
    ("MOVEUSP", "move"),
    ("MOVEtoCCR", "move"),
    ("MOVEfromCCR", "move"),
    ("MOVEtoSR", "move"),
    ("MOVEfromSR", "move"),
    ("ANDItoCCR", "andi"),
    ("ORItoCCR", "ori"),
    ("EORItoCCR", "eori"),
    ("ANDItoSR", "andi"),
    ("ORItoSR", "ori"),
    ("EORItoSR", "eori"),
];

/// Whether `mnemonic` begins as those of `variant` do.
pub fn is_of(variant: &str, mnemonic: &str) -> bool {
    if let Some(prefix) = named(&CONDITIONAL, variant) {
        let conditions = Condition::ALL.iter();
        let mut begun = conditions.map(|condition| format!("{prefix}{}", condition.suffix()));
        return begun.any(|begun| mnemonic.starts_with(&begun));
    }
    match named(&FAMILIES, variant) {
        Some(prefix) => mnemonic.starts_with(prefix),
        None => mnemonic.starts_with(&variant.to_lowercase()),
    }
}

fn named(table: &[(&str, &'static str)], variant: &str) -> Option<&'static str> {
    let found = table.iter().find(|(name, _)| *name == variant);
    found.map(|(_, prefix)| *prefix)
}
