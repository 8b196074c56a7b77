//! What the program `unsheets` prints.

use std::io::{self, Write};

use super::back::check;
use super::case::Case;
use super::judge::{unsheet, Refused};
use crate::image::Image;
use crate::stored;

/// The sheet or the refusal; none where the payload is no image's line.
pub fn answer(case: &Case) -> Option<String> {
    let image = Image::of_line(&case.payload)?;
    Some(match unsheet(&image, case.lent) {
        Ok(text) => {
            check(&image, &text);
            text
        }
        Err(refused) => refused.line(),
    })
}

impl Refused {
    fn line(&self) -> String {
        format!("refused\t{}\t0\t0\t{}\n", self.number, self.place)
    }
}

/// The answers to a stored list, each followed by an empty line.
pub fn answer_list(list: &[u8], output: &mut impl Write) -> io::Result<()> {
    stored::answer_list::<Case>(list, output)
}
