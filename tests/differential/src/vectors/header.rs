//! crr.h: its functions, their parameters, and the refusals that each one's comment lists.

#[derive(Clone, Copy, PartialEq)]
pub enum Cell {
    Byte,
    Unsigned,
    Signed,
}

#[derive(Clone, Copy, PartialEq)]
pub enum Form {
    Number,
    Buffer,
    Figure,
}

pub struct Parameter {
    pub name: String,
    pub cell: Cell,
    pub form: Form,
    pub written: bool,
}

pub struct Function {
    pub name: String,
    pub parameters: Vec<Parameter>,
    /// Those listed; none of a function that refuses nothing, whose answer is its figure.
    pub refusals: Option<Vec<u64>>,
}

/// `const uint64_t *limits` and the like.
fn parameter(text: &str, followed: bool) -> Parameter {
    let (kind, name) = text.trim_start_matches("const ").split_once(' ').expect("a type and a name");
    let cell = match kind {
        "uint8_t" => Cell::Byte,
        "int64_t" => Cell::Signed,
        "uint64_t" | "size_t" => Cell::Unsigned,
        _ => panic!("crr.h: the type {kind}"),
    };
    let pointer = name.starts_with('*');
    let form = if !pointer {
        Form::Number
    } else if followed {
        Form::Buffer
    } else {
        Form::Figure
    };
    Parameter { name: name.trim_start_matches('*').to_string(), cell, form, written: pointer && !text.starts_with("const") }
}

fn parameters(text: &str) -> Vec<Parameter> {
    let parts: Vec<String> =
        text.split(',').filter(|part| part.trim() != "void").map(|part| part.split_whitespace().collect::<Vec<_>>().join(" ")).collect();
    let length = |at: usize| parts.get(at).is_some_and(|part| part.ends_with("_len"));
    (0..parts.len()).filter(|&at| !length(at)).map(|at| parameter(&parts[at], length(at + 1))).collect()
}

/// The numbers of the sentence that starts with `Refusals`, outside parentheses.
fn refusals(comment: &str) -> Option<Vec<u64>> {
    if comment.contains("refuses nothing") {
        return None;
    }
    let (_, sentence) = comment.rsplit_once("Refusals").expect("a list of refusals");
    let (mut depth, mut digits, mut all) = (0, String::new(), Vec::new());
    for c in sentence.chars() {
        if c.is_ascii_digit() && depth == 0 {
            digits.push(c);
            continue;
        }
        all.extend(std::mem::take(&mut digits).parse::<u64>());
        match c {
            '(' => depth += 1,
            ')' => depth -= 1,
            '.' if depth == 0 => break,
            _ => (),
        }
    }
    Some(all)
}

pub fn functions(header: &str) -> Vec<Function> {
    let mut all = Vec::new();
    let mut parts = header.split("\nuint64_t crr_");
    let mut before = parts.next().expect("a header");
    for part in parts {
        let (name, rest) = part.split_once('(').expect("parameters");
        let (list, behind) = rest.split_once(");").expect("an end");
        let comment = before.rsplit_once("/*").expect("a comment").1;
        all.push(Function { name: name.to_string(), parameters: parameters(list), refusals: refusals(comment) });
        before = behind;
    }
    all
}
