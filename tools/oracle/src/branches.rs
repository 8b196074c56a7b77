//! Branches of -1 and of the numbers around it: BRA, BSR and Bcc with every
//! condition. They are the same for every seed.

use crate::instructions::{BranchSize, Condition, Instruction};
use crate::values::ADDRESSES;
use crate::written::numbers;

/// What is tried of each: the size and the displacement.
const TRIED: [(BranchSize, i32); 10] = [
    (BranchSize::Short, -1),
    (BranchSize::Short, 0),
    (BranchSize::Short, -2),
    (BranchSize::Short, 1),
    (BranchSize::Short, -3),
    (BranchSize::Short, 2),
    (BranchSize::Word, -1),
    (BranchSize::Word, 0),
    (BranchSize::Long, -1),
    (BranchSize::Long, 0),
];

/// How many addresses a branch has that is not a short one of -1 or 0.
const FEW: usize = 3;
/// From one of these to the next, in the list of addresses.
const APART: usize = 5;

type Operation = fn(u32, Condition, BranchSize) -> Instruction;

/// BRA and BSR have no condition.
const OPERATIONS: [(Operation, &[Condition]); 3] = [
    (
        |target, _, size| Instruction::BRA(target, size),
        &[Condition::True],
    ),
    (
        |target, _, size| Instruction::BSR(target, size),
        &[Condition::False],
    ),
    (Instruction::Bcc, &Condition::ALL),
];

/// A branch by a displacement.
pub struct Branch {
    operation: Operation,
    condition: Condition,
    size: BranchSize,
    displacement: i32,
}

impl Branch {
    pub fn line(&self, address: u32) -> String {
        let target = address
            .wrapping_add(2)
            .wrapping_add_signed(self.displacement);
        let instruction = (self.operation)(target, self.condition, self.size);
        format!("{address}\t{}", numbers(&instruction))
    }

    pub fn bytes(&self) -> u64 {
        match self.size {
            BranchSize::Short => 2,
            BranchSize::Word => 4,
            BranchSize::Long => 6,
        }
    }

    /// Whether it is short and of -1 or 0.
    pub fn is_excluded(&self) -> bool {
        self.size == BranchSize::Short && (-1..=0).contains(&self.displacement)
    }
}

/// All of them, by operation and condition.
pub fn all() -> Vec<Branch> {
    let mut found = Vec::new();
    for (operation, conditions) in OPERATIONS {
        for condition in conditions {
            found.extend(TRIED.map(|(size, displacement)| Branch {
                operation,
                condition: *condition,
                size,
                displacement,
            }));
        }
    }
    found
}

/// The short ones of -1 and 0 at every address, the others at a few in turn.
pub fn lines() -> Vec<String> {
    let branches = all().into_iter().enumerate();
    let lines = branches.flat_map(|(turn, branch)| {
        let addresses = match branch.is_excluded() {
            true => ADDRESSES.to_vec(),
            false => few_addresses(turn),
        };
        let lines = addresses.into_iter().map(move |at| branch.line(at));
        lines.collect::<Vec<String>>()
    });
    lines.collect()
}

fn few_addresses(turn: usize) -> Vec<u32> {
    (0..FEW).map(|k| address(turn + APART * k)).collect()
}

/// The addresses in turn.
pub fn address(turn: usize) -> u32 {
    ADDRESSES[turn % ADDRESSES.len()]
}

#[cfg(test)]
mod tests {
    use std::collections::HashSet;

    use super::*;
    use crate::answer::answer;
    use crate::generate;
    use crate::machine::encode as rust;
    use crate::numeric::{placed, Placed};
    use crate::requests::Requests;
    use crate::short_branch::refuses;

    /// BRA, BSR and the conditions but True and False.
    const BRANCHES: usize = 16;
    const GENERATED: usize = 30_000;

    #[test]
    fn every_branch_of_minus_one_is_refused() {
        let lines = lines();
        let mut requests = Requests::default();
        for line in &lines {
            requests += Requests::of_line(line.as_bytes());
        }
        assert_eq!(requests.n5, BRANCHES * ADDRESSES.len());
        assert_eq!(lines.iter().collect::<HashSet<_>>().len(), lines.len());
    }

    #[test]
    fn the_numbers_around_it_are_held() {
        let held = |branch: &Branch| {
            let placed = placed(branch.line(0).as_bytes()).expect("in the form");
            answer(&placed).words.is_ok()
        };
        let branches = all();
        let count = branches.iter().filter(|branch| held(branch)).count();
        assert_eq!(count, BRANCHES * (TRIED.len() - 2));
    }

    /// The class is where the Rust writes a branch as one word with byte $FF.
    #[test]
    fn the_rust_writes_the_byte_ff() {
        let lines = lines().into_iter();
        for line in lines.chain(generate::lines(1).take(GENERATED)) {
            let Placed {
                instruction,
                address,
                ..
            } = placed(line.as_bytes()).expect("in the form");
            if let Instruction::BRA(..) | Instruction::BSR(..) | Instruction::Bcc(..) = instruction
            {
                let written = rust::encode(&instruction, address);
                let marks = written.is_ok_and(|words| words.len() == 1 && words[0] & 0xFF == 0xFF);
                assert_eq!(refuses(&instruction, address), marks, "{line}");
            }
        }
    }
}
