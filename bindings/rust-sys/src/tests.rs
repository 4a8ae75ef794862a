//! The declarations are the header's, by the text of both.

use std::collections::BTreeSet;
use std::prelude::v1::*;
use std::{format, vec};

const HEADER: &str = include_str!("../../../include/vcube.h");
const DECLARED: &str = include_str!("lib.rs");

/// The header's code, one space between words, no comments.
fn header() -> String {
    let (mut code, mut rest) = (String::new(), HEADER);
    while let Some((before, behind)) = rest.split_once("/*") {
        code += before;
        rest = behind.split_once("*/").expect("a comment ends").1;
    }
    code += rest;
    let lines = code.lines().filter(|line| !line.starts_with('#'));
    spaced(&lines.collect::<Vec<_>>().join(" "))
}

/// The same of the declarations, where a list has no comma at its end.
fn declared() -> String {
    let lines = DECLARED.lines().filter(|line| !line.trim_start().starts_with("//"));
    let code = spaced(&lines.collect::<Vec<_>>().join(" "));
    code.replace("( ", "(").replace(", )", ")").replace(", }", " }")
}

fn spaced(code: &str) -> String {
    code.split_whitespace().collect::<Vec<_>>().join(" ")
}

/// The pieces between each `begin` and the next `end`.
fn pieces<'a>(code: &'a str, begin: &'a str, end: &'a str) -> impl Iterator<Item = &'a str> {
    let behind = code.split(begin).skip(1);
    behind.map(move |piece| piece.split_once(end).expect("it ends").0)
}

/// `const uint8_t *table` is `table: *const u8`.
fn in_rust(argument: &str) -> String {
    let place = argument.rfind([' ', '*']).expect("a type before the name") + 1;
    let (of_c, name) = (argument[..place].trim(), &argument[place..]);
    let pointed = of_c.strip_suffix('*');
    let of_c = pointed.unwrap_or(of_c).trim();
    let constant = of_c.strip_prefix("const ");
    let of_rust = match constant.unwrap_or(of_c) {
        "uint8_t" => "u8",
        "uint16_t" => "u16",
        "uint32_t" => "u32",
        "uint64_t" => "u64",
        "size_t" => "usize",
        other => other.strip_prefix("struct ").expect("a struct"),
    };
    let pointer = match (pointed, constant) {
        (None, _) => "",
        (_, None) => "*mut ",
        _ => "*const ",
    };
    format!("{name}: {pointer}{of_rust}")
}

/// That both have the same, in any order.
fn assert_same(of_crate: impl Iterator<Item = String>, of_header: impl Iterator<Item = String>) {
    let (of_crate, of_header): (BTreeSet<_>, BTreeSet<_>) =
        (of_crate.collect(), of_header.collect());
    let differences: Vec<_> = of_crate.symmetric_difference(&of_header).collect();
    assert!(differences.is_empty(), "{differences:#?}");
    assert!(!of_crate.is_empty());
}

#[test]
fn calls_are_declared_as_in_the_header() {
    let (header, declared) = (header(), declared());
    let of_header = header.split([';', '{', '}']).filter_map(call_in_rust);
    assert_same(pieces(&declared, "fn ", ";").map(String::from), of_header);
}

/// The call that this piece of the header declares, if it does. What the header defines itself
/// is static.
fn call_in_rust(piece: &str) -> Option<String> {
    let (before, arguments) = piece.strip_suffix(')')?.split_once('(')?;
    let (number, name) = before.rsplit_once(' ')?;
    if number.contains("static") || !name.starts_with("vcube_") {
        return None;
    }
    let arguments: Vec<String> = match arguments {
        "void" => vec![],
        _ => arguments.split(", ").map(in_rust).collect(),
    };
    let number = match number.rsplit_once(' ').map_or(number, |(_, number)| number) {
        "uint8_t" => "u8",
        "uint32_t" => "u32",
        _ => return None,
    };
    Some(format!("{name}({}) -> {number}", arguments.join(", ")))
}

#[test]
fn structs_have_the_members_of_the_header() {
    let (header, declared) = (header(), declared());
    let of_crate = pieces(&declared, "pub struct ", " }").map(|piece| piece.replace("pub ", ""));
    assert_same(of_crate, header.split("};").filter_map(struct_in_rust));
}

/// The struct at the end of this piece of the header, if there is one.
fn struct_in_rust(piece: &str) -> Option<String> {
    let (before, members) = piece.rsplit_once('{')?;
    let (_, name) = before.trim().rsplit_once("struct ")?;
    if name.contains(' ') {
        return None;
    }
    let mut in_order = Vec::new();
    for member in members.split(';').map(str::trim).filter(|member| !member.is_empty()) {
        // `uint64_t upper, lower` is two.
        let mut names = member.split(", ");
        let first = names.next().expect("a member");
        let (of_c, _) = first.rsplit_once(' ').expect("a type before the name");
        in_order.push(in_rust(first));
        in_order.extend(names.map(|name| in_rust(&format!("{of_c} {name}"))));
    }
    Some(format!("{name} {{ {}", in_order.join(", ")))
}

#[test]
fn constants_are_those_of_the_header() {
    let defined = HEADER.lines().filter_map(|line| {
        let mut words = line.strip_prefix("#define ")?.split_whitespace();
        let (name, number) = (words.next()?, words.next()?);
        let is_number = number.bytes().all(|byte| byte.is_ascii_digit());
        (is_number && !name.starts_with("VCUBE_VERSION")).then(|| format!("{name} {number}"))
    });
    let (header, declared) = (header(), declared());
    let constants = pieces(&declared, "pub const ", ";").map(|piece| {
        let (name, number) = piece.split_once(": ").expect("a type");
        format!("{name} {}", number.split_once(" = ").expect("a number").1)
    });
    assert_same(constants, defined.chain(header.split([',', '{', '}']).filter_map(case_of_enum)));
}

/// `VCUBE_KIND_TURN = 1` is `VCUBE_KIND_TURN 1`.
fn case_of_enum(piece: &str) -> Option<String> {
    let (name, number) = piece.trim().split_once(" = ")?;
    let is_number = number.bytes().all(|byte| byte.is_ascii_digit());
    is_number.then(|| format!("{name} {number}"))
}
