//! What the program `srecords` prints.

use std::io::{self, Write};

use super::case::{Case, Way};
use super::judge::{read, write, Refused};
use crate::image::Image;
use crate::stored;

/// The text, the image's line or the refusal; none for an image that is not
/// in the form.
pub fn answer(case: &Case) -> Option<String> {
    let answer = match case.way {
        Way::Write => write(&Image::of_line(&case.payload)?, case.lent),
        Way::Read => read(&case.payload, case.lent).map(|image| image.line()),
    };
    Some(answer.unwrap_or_else(|refused| refused.line()))
}

impl Refused {
    fn line(&self) -> String {
        format!("refused\t{}\t{}\t0\t0\n", self.number, self.line)
    }
}

/// The answers to a stored list, each followed by an empty line.
pub fn answer_list(list: &[u8], output: &mut impl Write) -> io::Result<()> {
    stored::answer_list::<Case>(list, output)
}
