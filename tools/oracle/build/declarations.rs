//! The enums and structs that a source declares, with their fields in order.

pub struct Field {
    /// Empty in a tuple.
    pub name: String,
    pub kind: String,
}

pub enum Shape {
    Unit,
    Tuple,
    Named,
}

pub struct Variant {
    pub name: String,
    pub shape: Shape,
    pub fields: Vec<Field>,
}

pub enum Declaration {
    Enum(String, Vec<Variant>),
    Struct(Variant),
}

impl Declaration {
    pub fn name(&self) -> &str {
        match self {
            Declaration::Enum(name, _) => name,
            Declaration::Struct(variant) => &variant.name,
        }
    }
}

/// Every `pub enum` and `pub struct` of `code`, which has no comments.
pub fn all(code: &str) -> Vec<Declaration> {
    let code = without_attributes(code);
    let mut found = Vec::new();
    for (at, _) in code.match_indices("pub enum ") {
        let (name, body) = named_body(&code[at + "pub enum ".len()..]);
        let variants = parts(body).iter().map(|part| variant(part)).collect();
        found.push(Declaration::Enum(name.to_string(), variants));
    }
    for (at, _) in code.match_indices("pub struct ") {
        let rest = &code[at + "pub struct ".len()..];
        let end = match rest.find(['{', '(']) {
            Some(open) if rest[open..].starts_with('(') => rest.find(';').expect("a `;`"),
            Some(open) => open + closing(&rest[open..]) + 1,
            None => panic!("a struct has a body"),
        };
        found.push(Declaration::Struct(variant(&rest[..end])));
    }
    found
}

fn without_attributes(code: &str) -> String {
    let mut kept = String::new();
    let mut rest = code;
    while let Some(at) = rest.find("#[") {
        kept.push_str(&rest[..at]);
        rest = &rest[at + 1..];
        rest = &rest[closing(rest) + 1..];
    }
    kept + rest
}

/// `Name { body }` as the name and the body.
fn named_body(rest: &str) -> (&str, &str) {
    let open = rest.find('{').expect("an enum has a body");
    let body = &rest[open..];
    (rest[..open].trim(), &body[1..closing(body)])
}

/// Where the bracket that `text` begins with is closed.
fn closing(text: &str) -> usize {
    let mut depth = 0;
    for (at, letter) in text.char_indices() {
        match letter {
            '(' | '[' | '{' | '<' => depth += 1,
            ')' | ']' | '}' | '>' => depth -= 1,
            _ => {}
        }
        if depth == 0 {
            return at;
        }
    }
    panic!("a bracket is not closed")
}

/// The parts that commas outside brackets part.
pub fn parts(body: &str) -> Vec<String> {
    let mut parts = vec![String::new()];
    let mut depth = 0;
    for letter in body.chars() {
        match letter {
            '(' | '[' | '{' | '<' => depth += 1,
            ')' | ']' | '}' | '>' => depth -= 1,
            _ => {}
        }
        match letter == ',' && depth == 0 {
            true => parts.push(String::new()),
            false => parts.last_mut().expect("one part").push(letter),
        }
    }
    let trimmed = parts.iter().map(|part| part.trim().to_string());
    trimmed.filter(|part| !part.is_empty()).collect()
}

fn variant(text: &str) -> Variant {
    let open = text.find(['(', '{', '=']).unwrap_or(text.len());
    let name = text[..open].trim().to_string();
    let body = &text[open..];
    let inside = || parts(&body[1..closing(body)]);
    let (shape, fields) = match body.chars().next() {
        Some('(') => (
            Shape::Tuple,
            inside().iter().map(|part| unnamed(part)).collect(),
        ),
        Some('{') => (
            Shape::Named,
            inside().iter().map(|part| named(part)).collect(),
        ),
        _ => (Shape::Unit, Vec::new()),
    };
    Variant {
        name,
        shape,
        fields,
    }
}

fn unnamed(part: &str) -> Field {
    let kind = part.trim_start_matches("pub ").to_string();
    Field {
        name: String::new(),
        kind,
    }
}

fn named(part: &str) -> Field {
    let (name, kind) = part.split_once(':').expect("a named field has a type");
    Field {
        name: name.trim().trim_start_matches("pub ").to_string(),
        kind: kind.trim().to_string(),
    }
}
