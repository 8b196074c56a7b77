//! The text of a Rust source, comments and string literals told apart.

/// A piece of a source.
pub enum Piece<'t> {
    Code(&'t str),
    Comment,
    Literal(&'t str),
}

/// Cuts `text` into pieces, in order.
pub fn pieces(text: &str) -> Vec<Piece<'_>> {
    let mut pieces = Vec::new();
    let mut rest = text;
    while !rest.is_empty() {
        let (piece, length) = next(rest);
        pieces.push(piece);
        rest = &rest[length..];
    }
    pieces
}

fn next(rest: &str) -> (Piece<'_>, usize) {
    if rest.starts_with("//") {
        return (Piece::Comment, rest.find('\n').unwrap_or(rest.len()));
    }
    if rest.starts_with("/*") {
        return (
            Piece::Comment,
            rest.find("*/").map_or(rest.len(), |end| end + 2),
        );
    }
    if let Some(inside) = rest.strip_prefix('"') {
        let end = literal_end(inside);
        return (Piece::Literal(&inside[..end]), end + 2);
    }
    let end = ["//", "/*", "\""]
        .iter()
        .filter_map(|mark| rest.find(mark))
        .min()
        .unwrap_or(rest.len());
    (Piece::Code(&rest[..end]), end)
}

/// Where the closing quote stands.
fn literal_end(inside: &str) -> usize {
    let mut escaped = false;
    for (at, letter) in inside.char_indices() {
        match letter {
            '"' if !escaped => return at,
            '\\' => escaped = !escaped,
            _ => escaped = false,
        }
    }
    panic!("a string literal does not end")
}

/// The code alone, each literal as two quotes.
pub fn without_comments(text: &str) -> String {
    pieces(text)
        .iter()
        .map(|piece| match piece {
            Piece::Code(code) => code,
            Piece::Comment => "",
            Piece::Literal(_) => "\"\"",
        })
        .collect()
}
