//! The archive's functions are declared three times over: in crates/export_c, which is what they are, in the C header and in
//! src/ffi.rs. A declaration that differs would be called wrongly, and no compiler sees it; here all three are compared.

use std::collections::BTreeMap;

const LIBRARY: &str = include_str!("../../crates/export_c/src/lib.rt");
const C_HEADER: &str = include_str!("../../include/rasuvelk.h");
const PACKAGE: &str = include_str!("../src/ffi.rs");

/// The functions of a text: by name, the type of each argument and last of what is given, in one way of writing.
type Declared = BTreeMap<String, Vec<String>>;

/// What stands between a piece of text and another, and what follows.
fn cut<'a>(text: &'a str, before: &str, after: &str) -> Option<(&'a str, &'a str)> {
    text.split_once(before)?.1.split_once(after)
}

/// Text on one line, with single blanks.
fn joined(text: &str) -> String {
    text.split_whitespace().collect::<Vec<_>>().join(" ")
}

/// A pointer, or a pointer and a length, in the one way of writing.
fn pointer(constant: bool, to: &str) -> String {
    format!("{} {to}", if constant { "const" } else { "mut" })
}

/// A parameter of Rattle: a slice is a pointer and a length, an array behind a reference a pointer.
fn of_rattle(parameter: &str) -> Vec<String> {
    let (_, kind) = parameter.split_once(": ").unwrap();
    let (constant, rest) = match (kind.strip_prefix("&mut "), kind.strip_prefix('&')) {
        (Some(rest), _) => (false, rest),
        (None, Some(rest)) => (true, rest),
        (None, None) => return vec![kind.to_string()],
    };
    match rest.strip_prefix('[').and_then(|inner| inner.strip_suffix(']')) {
        Some(inner) if !inner.contains(';') => vec![pointer(constant, inner), "usize".to_string()],
        _ => vec![pointer(constant, rest)],
    }
}

/// A parameter or a result of C, without its name.
fn of_c(kind: &str) -> String {
    let (constant, plain) = match kind.strip_prefix("const ") {
        Some(rest) => (true, rest),
        None => (false, kind),
    };
    let (base, points) = match plain.split_once('*') {
        Some((base, _)) => (base.trim(), true),
        None => (plain.split(' ').next().unwrap(), false),
    };
    let named = match base {
        "uint8_t" => "u8",
        "uint32_t" => "u32",
        "uint64_t" => "u64",
        "size_t" => "usize",
        "rasuvelk_header" => "[u32; 117]",
        "rasuvelk_state" => "[u64; 121]",
        "rasuvelk_answer" | "rasuvelk_item" => "[u64; 3]",
        "rasuvelk_text" => "[u8; 32]",
        other => panic!("a type that is not known: {other}"),
    };
    if points {
        pointer(constant, named)
    } else {
        named.to_string()
    }
}

/// A parameter or a result of src/ffi.rs, without its name.
fn of_package(kind: &str) -> String {
    let kind =
        kind.replace("HeaderWords", "[u32; 117]").replace("StateWords", "[u64; 121]").replace("Answer", "[u64; 3]");
    kind.strip_prefix('*').unwrap_or(&kind).to_string()
}

fn library() -> Declared {
    let mut found = Declared::new();
    let mut text = LIBRARY;
    while let Some((name, rest)) = cut(text, "pub extern \"C\" fn ", "(") {
        let (parameters, rest) = rest.split_once(") -> ").unwrap();
        let parameters = joined(parameters);
        let mut kinds: Vec<String> = parameters
            .split(", ")
            .filter(|part| !part.is_empty())
            .flat_map(|part| of_rattle(part.trim_end_matches(',')))
            .collect();
        kinds.push(rest.split_whitespace().next().unwrap().to_string());
        found.insert(name.to_string(), kinds);
        text = rest;
    }
    found
}

fn c_header() -> Declared {
    let mut found = Declared::new();
    for line in joined(C_HEADER).split(';') {
        // A declaration is the last thing before its semicolon; a function with a body is `static`.
        let declared = line.rsplit("*/").next().unwrap().trim();
        let begins = |result: &&str| declared.starts_with(&format!("{result}rasuvelk_"));
        let result = ["uint32_t ", "size_t "].into_iter().find(begins);
        let (Some(result), Some((name, rest))) = (result, declared.split_once('(')) else {
            continue;
        };
        let mut kinds: Vec<String> = rest.trim_end_matches(')').split(", ").map(of_c).collect();
        kinds.push(of_c(result));
        found.insert(name[result.len()..].to_string(), kinds);
    }
    found
}

fn package() -> Declared {
    let mut found = Declared::new();
    let mut text = PACKAGE;
    while let Some((name, rest)) = cut(text, "pub fn rasuvelk_", "(") {
        let (parameters, rest) = rest.split_once(") -> ").unwrap();
        let parameters = joined(parameters);
        let plain = parameters.trim_end_matches(',');
        let mut kinds: Vec<String> = Vec::new();
        for parameter in plain.split(", ") {
            kinds.push(of_package(parameter.split_once(": ").unwrap().1));
        }
        kinds.push(rest.split_once(';').unwrap().0.to_string());
        found.insert(format!("rasuvelk_{name}"), kinds);
        text = rest;
    }
    found
}

#[test]
fn all_three_say_the_same() {
    let library = library();
    assert_eq!(library.len(), 11);
    assert_eq!(library["rasuvelk_open"].len(), 16);
    assert_eq!(library["rasuvelk_kind_of"], ["u32", "u32"]);
    assert_eq!(library["rasuvelk_read_header"], ["const u8", "usize", "u32", "mut [u32; 117]", "u32"]);
    assert_eq!(c_header(), library);
    assert_eq!(package(), library);
}
