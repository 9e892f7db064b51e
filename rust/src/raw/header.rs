//! `include/lunozhar.h` and this crate say the same: constants, structs with their layout, the functions of the library, and those that are
//! defined over them on either side.

use super::*;
use crate::Refusal;

const HEADER: &str = include_str!("../../../include/lunozhar.h");
const RAW: &str = include_str!("../raw.rs");
const BOUNDARY: &str = include_str!("../boundary.rs");

/// The header without comments and preprocessor lines.
fn code() -> String {
    let mut code = String::new();
    for part in HEADER.split("*/") {
        code.push_str(part.split("/*").next().unwrap());
    }
    code.lines().filter(|line| !line.starts_with('#')).collect::<Vec<_>>().join("\n")
}

/// The same, cut into what is declared, and the heads of the functions that are defined.
fn declared_and_defined() -> (String, Vec<String>) {
    let code = code();
    let (declared, rest) = code.split_once("static inline ").unwrap();
    let (mut declared, mut defined) = (declared.to_string(), Vec::new());
    for function in rest.split("static inline ") {
        let (head, body) = function.split_once(" {\n").unwrap();
        defined.push(on_one_line(head));
        declared.push_str(body.split_once("\n}\n").unwrap().1);
    }
    (declared, defined)
}

/// A type of C, without `const` and stars, in Rust: `uint8_t` is `u8`, and `lunozhar_line_change` is `LineChange`.
fn rust_type(c: &str) -> String {
    if let Some(name) = c.strip_prefix("lunozhar_") {
        return name.split('_').map(|word| word[..1].to_uppercase() + &word[1..]).collect();
    }
    match c {
        "bool" => "bool".to_string(),
        "size_t" => "usize".to_string(),
        _ => c.replace("uint", "u").replace("_t", ""),
    }
}

/// A field, parameter or function of C with its type, as Rust has it: `const uint8_t *out` is `out: *const u8`.
fn rust_declaration(c: &str) -> String {
    let (c, array) = c.split_once('[').map_or((c, None), |(c, size)| (c, Some(size.trim_end_matches(']').replace("LUNOZHAR_", ""))));
    let (kind, name) = c.split_at(c.rfind([' ', '*']).unwrap() + 1);
    let plain = rust_type(kind.trim_start_matches("const ").trim_end_matches([' ', '*']));
    let kind = match (kind.contains('*'), kind.contains("const")) {
        (true, true) => format!("*const {plain}"),
        (true, false) => format!("*mut {plain}"),
        _ => plain,
    };
    array.map_or(format!("{name}: {kind}"), |size| format!("{name}: [{kind}; {size}]"))
}

/// One line, with a space between words.
fn on_one_line(text: &str) -> String {
    text.split_whitespace().collect::<Vec<_>>().join(" ").replace("( ", "(").replace(", )", ")")
}

fn structs_of_c() -> Vec<String> {
    let code = code();
    let structs = code.split("typedef struct lunozhar_").skip(1).map(|text| text.split_once('}').unwrap().0);
    structs
        .map(|text| {
            let (name, fields) = text.split_once(" {").unwrap();
            let fields: Vec<String> = fields.split_terminator(';').map(on_one_line).filter(|field| !field.is_empty()).collect();
            let fields: Vec<String> = fields.iter().map(|field| rust_declaration(field)).collect();
            format!("{} {{ {} }}", rust_type(&format!("lunozhar_{name}")), fields.join(", "))
        })
        .collect()
}

fn structs_of_rust() -> Vec<String> {
    let structs = RAW.split("#[repr(C)]").skip(1).map(|text| text.split_once("pub struct ").unwrap().1.split_once("\n}").unwrap().0);
    structs
        .map(|text| {
            let (name, fields) = text.split_once(" {").unwrap();
            let fields = fields.lines().filter_map(|line| line.trim().strip_prefix("pub ")).map(|field| field.trim_end_matches(','));
            format!("{name} {{ {} }}", fields.collect::<Vec<_>>().join(", "))
        })
        .collect()
}

/// A function of C, as Rust has it.
fn rust_function(c: &str) -> String {
    let (function, parameters) = c.trim_end_matches(')').split_once('(').unwrap();
    let parameters: Vec<String> = parameters.split(", ").map(rust_declaration).collect();
    let function = rust_declaration(function);
    let (name, result) = function.split_once(": ").unwrap();
    format!("{name}({}) -> {result}", parameters.join(", ")).replace(" -> void", "")
}

/// The functions of the library.
fn functions_of_c() -> Vec<String> {
    let calls = declared_and_defined().0;
    let calls = calls.split(';').map(on_one_line).filter(|text| text.contains('(') && !text.starts_with("LUNOZHAR_"));
    calls.map(|text| rust_function(&text)).collect()
}

fn functions_of_rust() -> Vec<String> {
    let block = RAW.split_once("extern \"C\" {").unwrap().1.split_once("\n}").unwrap().0;
    let code: Vec<&str> = block.lines().filter(|line| !line.trim().starts_with("///")).collect();
    let functions = code.join("\n");
    functions.split_terminator(';').map(|text| on_one_line(text).replacen("pub fn ", "", 1)).filter(|text| !text.is_empty()).collect()
}

/// The functions over those of the library that take a station, but for the one that Rust has no use for.
fn wrappers_of_c() -> Vec<String> {
    let functions = declared_and_defined().1;
    functions.iter().map(|text| rust_function(text)).filter(|text| !text.starts_with("lunozhar_lines_of(")).collect()
}

fn wrappers_of_rust() -> Vec<String> {
    let functions = BOUNDARY.split("pub unsafe fn ").skip(1).map(|text| text.split_once(" {\n").unwrap().0);
    functions.map(on_one_line).collect()
}

#[test]
fn the_structs_are_the_same() {
    assert_eq!(structs_of_c(), structs_of_rust());
    assert_eq!(structs_of_rust().len(), LAYOUT.len());
}

#[test]
fn the_functions_are_the_same() {
    assert_eq!(functions_of_c(), functions_of_rust());
    assert_eq!(functions_of_rust().len(), 23);
    assert_eq!(wrappers_of_c(), wrappers_of_rust());
    assert_eq!(wrappers_of_rust().len(), 9);
}

#[test]
fn the_layout_that_is_asserted_is_the_same() {
    let asserted: Vec<String> = HEADER
        .lines()
        .filter_map(|line| line.strip_prefix("LUNOZHAR_")?.strip_suffix(");"))
        .map(|line| line.replacen("(lunozhar_", " ", 1).replace(',', ""))
        .collect();
    let mut listed = Vec::new();
    for (name, size, fields) in LAYOUT {
        let name = in_capitals(name).to_lowercase();
        listed.push(format!("SIZE {name} {size}"));
        listed.extend(fields.iter().map(|(field, at)| format!("AT {name} {field} {at}")));
    }
    assert_eq!(asserted, listed);
}

/// `NotInOrder` as `NOT_IN_ORDER`.
fn in_capitals(name: &str) -> String {
    let mut capitals = String::new();
    for letter in name.chars() {
        if letter.is_uppercase() && !capitals.is_empty() {
            capitals.push('_');
        }
        capitals.push(letter.to_ascii_uppercase());
    }
    capitals
}

/// The numbers that the header names, by `#define` or in an enum.
fn constants_of_c() -> Vec<String> {
    let lines = HEADER.lines().filter_map(|line| line.trim_start().trim_start_matches("#define ").strip_prefix("LUNOZHAR_"));
    let words = lines.filter_map(|line| line.split_once("/*").map_or(line, |(line, _)| line).split_once(' '));
    let values = words.map(|(name, value)| (name, value.trim_matches(['=', ',', ' '])));
    values.filter(|(_, value)| value.parse::<u32>().is_ok()).map(|(name, value)| format!("{name} {value}")).collect()
}

/// The constants of this module, with the refusals where the header has its answers.
fn constants_of_rust() -> Vec<String> {
    let mut constants = Vec::new();
    for line in RAW.lines().filter_map(|line| line.strip_prefix("pub const ")) {
        let (name, value) = line.split_once(": ").unwrap();
        let value = value.split_once("= ").unwrap().1.trim_end_matches(';').replace('_', "");
        constants.push(format!("{name} {value}"));
        if name == "NAMES" {
            constants.push("DONE 0".to_string());
            constants.extend(Refusal::ALL.map(|refusal| format!("{} {}", in_capitals(&format!("{refusal:?}")), refusal.number())));
        }
    }
    constants
}

#[test]
fn the_constants_are_the_same() {
    assert_eq!(constants_of_c(), constants_of_rust());
}
