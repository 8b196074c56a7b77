//! Images with several faults at once.

use super::super::case::{Case, MOST_LENT};
use super::super::judge::MOST_LINES;
use crate::image::Image;

const NOP: u16 = 0x4E71;

/// What is wrong with an image, in the order of the refusals: 9 twice, then 6
/// before 5, 16 and 17. Lines beyond those that a sheet may have, 10, stand
/// between 5 and 16.
const FAULTS: [fn(&mut Faulty); 6] = [
    |faulty| faulty.start |= 1,
    |faulty| faulty.start |= 0xFFFF_FFF0,
    |faulty| faulty.after.push(0x4AFB),
    |faulty| faulty.last.push(0x203C),
    |faulty| faulty.before.push(0x6001),
    |faulty| faulty.lent = 9,
];

struct Faulty {
    start: u32,
    /// The words at the beginning, the NOPs between, and the words behind them.
    before: Vec<u16>,
    between: usize,
    after: Vec<u16>,
    last: Vec<u16>,
    lent: usize,
}

impl Faulty {
    fn case(self) -> Case {
        let between = vec![NOP; self.between];
        let words = [
            self.before,
            between,
            self.after,
            vec![0x7005, NOP],
            self.last,
        ];
        let image = Image {
            start: self.start,
            words: words.concat(),
        };
        Case::new(&image, self.lent)
    }
}

/// Every choice of the faults, and with too many lines none, each and all.
pub fn all() -> Vec<Case> {
    let many = (0..FAULTS.len()).map(|fault| 1 << fault);
    let many = many.chain([0, every() - 1]);
    let few = (0..every()).map(|choice| with(choice, 6));
    few.chain(many.map(|choice| with(choice, MOST_LINES + 1)))
        .collect()
}

/// The number of choices.
pub fn every() -> usize {
    1 << FAULTS.len()
}

/// The case with the faults whose bits are set in `choice`.
pub fn with(choice: usize, between: usize) -> Case {
    let mut faulty = Faulty {
        start: 4096,
        before: vec![0x7004],
        between,
        after: Vec::new(),
        last: Vec::new(),
        lent: MOST_LENT,
    };
    let faults = FAULTS.iter().enumerate();
    for (_, fault) in faults.filter(|(at, _)| choice & 1 << at != 0) {
        fault(&mut faulty);
    }
    faulty.case()
}
