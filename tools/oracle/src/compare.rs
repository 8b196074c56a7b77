//! Answers compared line by line.

use crate::requests::Requests;

const SHOWN: usize = 20;

#[derive(Default)]
pub struct Comparison {
    pub compared: usize,
    pub different: usize,
    /// How many of those compared are of each.
    pub requests: Requests,
}

/// The answer that is due.
pub struct Expected {
    pub text: String,
    pub requests: Requests,
}

impl Expected {
    pub fn new(text: String, requests: Requests) -> Expected {
        Expected { text, requests }
    }
}

impl Comparison {
    /// Compares what is due with the answer to one case, of one line or several.
    pub fn due(&mut self, asked: &[u8], due: &Expected, found: Option<&[u8]>) {
        self.requests += due.requests;
        self.answer(asked, due.text.as_bytes(), found);
    }

    /// Compares the answers to one line; `asked` is the line, if known.
    pub fn line(&mut self, asked: &[u8], expected: &[u8], found: &[u8]) {
        self.compared += 1;
        if expected == found {
            return;
        }
        self.different += 1;
        if self.different <= SHOWN {
            println!("line {}: {:?}", self.compared, text(asked));
            println!("    first  {:?}", text(expected));
            println!("    second {:?}", text(found));
        }
    }

    /// Compares two lists of answers, a missing line marked as such.
    pub fn lists(&mut self, asked: &[&[u8]], expected: &[&[u8]], found: &[&[u8]]) {
        for at in 0..expected.len().max(found.len()) {
            self.line(
                at_or_none(asked, at),
                at_or_none(expected, at),
                at_or_none(found, at),
            );
        }
    }

    /// Compares two answers of several lines by the first that differ.
    pub fn answer(&mut self, asked: &[u8], expected: &[u8], found: Option<&[u8]>) {
        if found == Some(expected) {
            return self.line(asked, expected, expected);
        }
        let lines = |text| <[u8]>::split(text, |byte| *byte == b'\n').collect();
        let (expected, found): (Vec<_>, Vec<_>) = (lines(expected), found.map_or(vec![], lines));
        let most = expected.len().max(found.len());
        let differs = (0..most).find(|at| expected.get(*at) != found.get(*at));
        let at = differs.unwrap_or_default();
        self.line(asked, at_or_none(&expected, at), at_or_none(&found, at));
    }

    pub fn report(&self) {
        println!("{} compared, {} different", self.compared, self.different);
    }

    pub fn report_requests(&self) {
        println!("{}", self.requests);
    }
}

fn at_or_none<'l>(list: &[&'l [u8]], at: usize) -> &'l [u8] {
    list.get(at).copied().unwrap_or(b"<no line>")
}

fn text(bytes: &[u8]) -> std::borrow::Cow<'_, str> {
    String::from_utf8_lossy(bytes)
}
