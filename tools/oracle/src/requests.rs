//! How many answers are of the requests by which they differ from the Rust's.

use std::fmt;
use std::ops::AddAssign;

use crate::answer::{of_n2, of_n5};
use crate::numeric::{placed, Placed};

#[derive(Debug, Default, Clone, Copy, PartialEq, Eq)]
pub struct Requests {
    pub n2: usize,
    pub n5: usize,
}

impl Requests {
    pub fn of(placed: &Placed) -> Requests {
        Requests {
            n2: of_n2(placed) as usize,
            n5: of_n5(placed) as usize,
        }
    }

    /// Those of a line; none where it is not in the form.
    pub fn of_line(line: &[u8]) -> Requests {
        placed(line).as_ref().map(Requests::of).unwrap_or_default()
    }
}

impl AddAssign for Requests {
    fn add_assign(&mut self, other: Requests) {
        self.n2 += other.n2;
        self.n5 += other.n5;
    }
}

impl fmt::Display for Requests {
    fn fmt(&self, formatter: &mut fmt::Formatter) -> fmt::Result {
        write!(
            formatter,
            "N2: {} whose immediate the Rust alone refuses; N5: {} whose short branch of -1 it alone accepts",
            self.n2, self.n5
        )
    }
}

#[cfg(test)]
mod tests {
    use super::*;
    use crate::answer::{answer_line, rust_answer_line};
    use crate::{branches, generate};

    const LINES: usize = 30_000;

    #[test]
    fn the_answers_differ_on_these_lines_alone() {
        let lines = branches::lines().into_iter();
        for line in lines.chain(generate::lines(1).take(LINES)) {
            let line = line.as_bytes();
            let of_none = Requests::of_line(line) == Requests::default();
            assert_eq!(answer_line(line) == rust_answer_line(line), of_none);
        }
    }
}
