//! Texts to read with enough lent, just enough, one more and too few.

use super::super::case::{Case, MOST_WORDS};
use super::super::record::{text, Record};
use super::{base, follow, words, START};

pub fn all() -> Vec<Case> {
    texts().iter().flat_map(|records| around(records)).collect()
}

/// Texts of 0, 1, 2, 12, 16, 17, 126 and more words.
fn texts() -> Vec<Vec<Record>> {
    vec![
        follow(&[], START, 7),
        follow(&[(1, 0)], START, 9),
        follow(&[(2, 2)], START, 8),
        follow(&[(3, 2), (3, 0), (1, 2)], START, 9),
        base(0),
        follow(&[(3, 32)], START, 7),
        follow(&[(3, 32), (3, 2)], START, 7),
        follow(&[(1, 252)], START, 9),
        follow(&[(2, 250), (3, 250), (1, 252)], START, 8),
        follow(&[(3, 32); 40], START, 7),
    ]
}

fn around(records: &[Record]) -> Vec<Case> {
    let need = words(records);
    let lent = [0, 1, need.saturating_sub(2), need.saturating_sub(1), need];
    let more = [need + 1, need + 2, MOST_WORDS - 1, MOST_WORDS];
    let lent = lent.into_iter().chain(more);
    lent.map(|lent| Case::to_read(text(records), lent))
        .collect()
}
