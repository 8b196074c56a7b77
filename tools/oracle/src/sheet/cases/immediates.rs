//! Request N2: each Immediate with all the ends that it holds in one sheet, and
//! those that it does not hold in a sheet each.

use super::super::made::Sheet;
use super::super::record::Record;
use crate::answer::accepts_without_n5;
use crate::draft::Draft;
use crate::immediates::{immediates, ENDS};
use crate::random::Random;

const START: u32 = 4096;

pub fn all(random: &mut Random) -> Vec<Record> {
    let immediates = immediates(random).into_iter();
    immediates
        .flat_map(|immediate| {
            let drafts = ENDS.map(|number| immediate.with(number)).into_iter();
            let (mut held, refused): (Vec<Draft>, Vec<Draft>) =
                drafts.partition(|draft| accepts_without_n5(&draft.line()));
            held.push(immediate.with(1));
            let refused = refused.into_iter();
            let between = refused.map(|draft| [immediate.with(1), draft, immediate.with(1)]);
            let mut found: Vec<Record> = between.map(|lines| sheet(&lines)).collect();
            found.push(sheet(&held));
            found
        })
        .collect()
}

fn sheet(lines: &[Draft]) -> Record {
    let mut sheet = Sheet::new(START);
    for line in lines {
        sheet.push(line.clone());
    }
    Record::of_program(sheet.text())
}
