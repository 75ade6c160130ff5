//! The binding against include/crr.h: sizes, refusals and declarations, in both directions.

use crr::{sizes, Refused};
use std::collections::BTreeMap;
use std::fs;
use std::path::Path;

fn text(path: &str) -> String {
    let path = Path::new(env!("CARGO_MANIFEST_DIR")).join(path);
    fs::read_to_string(&path).unwrap_or_else(|why| panic!("{}: {why}", path.display()))
}

/// The header without its comments.
fn code() -> String {
    let header = text("../../include/crr.h");
    let parts = header.split("/*").enumerate();
    parts.map(|(i, part)| if i == 0 { part } else { part.split_once("*/").expect("a comment ends").1 }).collect()
}

/// Each name that the header gives a number.
fn defined() -> BTreeMap<String, u64> {
    let header = code();
    let words = header.lines().map(|line| line.split_whitespace().collect::<Vec<_>>());
    let named = words.filter(|words| words.len() == 3 && words[0] == "#define" && words[1].starts_with("CRR_"));
    named.filter_map(|words| Some((words[1][4..].to_string(), words[2].parse().ok()?))).collect()
}

#[test]
fn sizes_and_refusals() {
    let mut ours: BTreeMap<String, u64> = sizes::ALL.iter().map(|&(name, size)| (name.to_string(), size as u64)).collect();
    ours.extend(Refused::ALL.iter().map(|(name, refused)| (name.to_string(), refused.number())));
    // What the crate has as the variants of its enums.
    let terms = [
        ("NARROW", 0),
        ("WIDE", 1),
        ("OFF_PEAK", 0),
        ("ON_PEAK", 1),
        ("ANNUAL", 0),
        ("TIER_LT", 1),
        ("MONTHLY", 2),
        ("MARK_LT", 4),
        ("OK", 0),
    ];
    ours.insert("INTERFACE".to_string(), crr::INTERFACE);
    ours.extend(terms.map(|(name, number)| (name.to_string(), number)));
    assert_eq!(ours, defined());
}

/// Each function's parameters, name and type, as Rust writes them.
type Declarations = BTreeMap<String, Vec<(String, String)>>;

fn rust_type(words: &str) -> String {
    let cell = |name: &str| match name {
        "uint8_t" => "u8",
        "uint64_t" => "u64",
        "int64_t" => "i64",
        "size_t" => "usize",
        other => panic!("the header has {other}"),
    };
    match words.strip_suffix('*').map(str::trim) {
        None => cell(words).to_string(),
        Some(lent) => match lent.strip_prefix("const ") {
            Some(read) => format!("*const {}", cell(read)),
            None => format!("*mut {}", cell(lent)),
        },
    }
}

fn in_header() -> Declarations {
    let header = code().split_whitespace().collect::<Vec<_>>().join(" ");
    let functions = header.split("uint64_t crr_").skip(1).filter_map(|rest| rest.split_once(");")?.0.split_once('('));
    let parameter = |words: &str| {
        let name = words.rsplit([' ', '*']).next().expect("a name");
        (name.to_string(), rust_type(words[..words.len() - name.len()].trim()))
    };
    let parameters = |list: &str| if list == "void" { vec![] } else { list.split(", ").map(parameter).collect() };
    functions.filter(|(name, _)| !name.contains(' ')).map(|(name, list)| (format!("crr_{name}"), parameters(list))).collect()
}

fn in_binding() -> Declarations {
    let files =
        ["lent", "lent/exposure", "lent/hubs", "lent/migration", "lent/running", "lent/totals"].map(|file| format!("src/{file}.rs"));
    let code = files.map(|file| text(&file)).join(" ").split_whitespace().collect::<Vec<_>>().join(" ");
    let functions = code.split("pub fn crr_").skip(1).filter_map(|rest| rest.split_once(") -> u64;")?.0.split_once('('));
    let parameter = |words: &str| words.split_once(": ").map(|(name, of)| (name.to_string(), of.to_string()));
    let parameters = |list: &str| list.split(',').map(str::trim).filter_map(parameter).collect();
    functions.map(|(name, list)| (format!("crr_{name}"), parameters(list))).collect()
}

#[test]
fn declarations() {
    let header = in_header();
    assert!(header.len() > 25, "the header's functions are found");
    assert_eq!(in_binding(), header);
}
