//! Names, numbers and version are those of include/zintukor.h and of the engine's source.

use zintukor::{Refusal, NODES, PAGE_LINE, REFLECTED, ROWS, SMALL_REQUESTS, VERSION};

const HEADER: &str = include_str!("../../../include/zintukor.h");
const ENGINE: &str = include_str!("../../../crates/rules/src/lib.rt");
const BOARD: &str = include_str!("../../../crates/board/src/lib.rt");
const SMALL: &str = include_str!("../../../crates/small_requests/src/lib.rt");
const NODES_READ: &str = include_str!("../../../crates/reflected/src/nodes.rt");
const CALLS: &str = include_str!("../../../crates/zintukor_c/src/lib.rt");
const DECLARED: &str = include_str!("../src/ffi.rs");

/// The header's macros without parameters: name and value.
fn macros() -> impl Iterator<Item = (&'static str, &'static str)> {
    HEADER.lines().filter_map(|line| {
        let (name, value) = line.strip_prefix("#define ZINTUKOR_")?.split_once(' ')?;
        Some((name, value.split(" /*").next()?.trim()))
    })
}

fn value(name: &str) -> &'static str {
    macros().find(|found| found.0 == name).expect(name).1
}

/// A name as the header writes it: NumberCut is NUMBER_CUT.
fn in_capitals(name: &str) -> String {
    let mut capitals = String::new();
    for letter in name.chars() {
        if letter.is_uppercase() && !capitals.is_empty() {
            capitals.push('_');
        }
        capitals.push(letter.to_ascii_uppercase());
    }
    capitals
}

#[test]
fn one_version() {
    assert_eq!(value("VERSION"), format!("\"{VERSION}\""));
    let parts = ["VERSION_MAJOR", "VERSION_MINOR", "VERSION_PATCH"].map(value);
    assert_eq!(parts.join("."), VERSION);
}

#[test]
fn one_name_for_each_refusal() {
    let header: Vec<(String, u32)> = macros()
        .filter_map(|(name, value)| Some((name.strip_prefix("NO_")?.to_string(), value.parse().unwrap())))
        .collect();
    let rust: Vec<(String, u32)> =
        Refusal::ALL.iter().map(|refusal| (in_capitals(&format!("{refusal:?}")), refusal.number())).collect();
    assert_eq!(rust, header);
    let engine: Vec<(String, u32)> = ENGINE
        .lines()
        .filter_map(|line| {
            let (name, number) = line.trim().strip_prefix("Refusal::")?.split_once(" => ")?;
            Some((in_capitals(name), number.strip_suffix(',')?.parse().ok()?))
        })
        .collect();
    assert_eq!(rust, engine);
}

/// The names of calls, in their order: what stands between `before` at a line's start and its bracket.
fn calls(source: &str, before: &str) -> Vec<String> {
    let named = source.lines().filter_map(|line| line.trim().strip_prefix(before)?.split_once('('));
    named.map(|(name, _)| name.to_string()).collect()
}

#[test]
fn one_declaration_for_each_call() {
    let engine = calls(CALLS, "pub extern \"C\" fn ");
    assert_eq!(engine.len(), 9);
    assert_eq!(calls(HEADER, "uint64_t "), engine);
    assert_eq!(calls(DECLARED, "pub(crate) fn "), engine);
}

#[test]
fn one_limit() {
    assert_eq!(value("MOST_ROWS"), ROWS.to_string());
    assert_eq!(value("MOST_STORED"), (2 + 20 * ROWS).to_string());
    assert_eq!(value("PAGE_LINE"), PAGE_LINE.to_string());
    assert!(BOARD.contains(&format!("const LINE: usize = {PAGE_LINE};")));
    assert_eq!(value("MOST_SMALL_REQUESTS"), SMALL_REQUESTS.to_string());
    // 264 requests of the greatest size, 22 bytes each.
    assert_eq!(SMALL_REQUESTS, 264 * 22);
    for line in ["const GREATEST_SIZE: u32 = 6;", "const ROW: usize = 22;", "6 => 264,"] {
        assert!(SMALL.contains(line), "{line}");
    }
    assert_eq!(value("MOST_NODES"), NODES.to_string());
    assert!(NODES_READ.contains(&format!("const MOST_NODES: usize = {NODES};")));
    // That no list is longer is told by tests/reflected.rs.
    assert_eq!(value("MOST_REFLECTED"), REFLECTED.to_string());
}
