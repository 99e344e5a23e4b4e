//! One vocabulary: refusals have the same names, numbers and words in this crate, in the header and in
//! Rattle, and the same names and numbers in the definitions and in the second program; kinds of values
//! have the same in this crate, in the header and in the definitions. The header has this crate's
//! version, arrays of the same sizes, and the same limits.

use crate::ffi::{self, Sampled};
use crate::file::File;
use crate::refusal::REFUSALS;
use crate::value::{Sample, Value};

const HEADER: &str = include_str!("../../../include/mfer.h");
const DEFINITIONS: &str = include_str!("../../../crates/heads/specs/Faults.antt");
const RATTLE: &str = include_str!("../../../crates/heads/src/lib.rt");
const VALUES: &str = include_str!("../../../crates/values/specs/Sample.antt");
const SECOND: &str = include_str!("../../second/src/reader.rs");

/// A name, its number and its words.
type Entry = (String, u32, String);

fn entry(name: &str, number: &str, words: &str) -> Entry {
    (name.into(), number.parse().expect(name), words.into())
}

/// The entries of a table of the header, each a line `X(MFER_NO_FRAME, 20, "no such frame")`.
fn table(name: &str) -> Vec<Entry> {
    let (_, rest) = HEADER
        .split_once(&format!("#define {name}(X)"))
        .expect(name);
    let (table, _) = rest.split_once("/* end */").expect("an end");
    let line = |line: &str| {
        let (name, rest) = line.split_once(", ").expect("a number");
        let (number, rest) = rest.split_once(", \"").expect("words");
        let (words, _) = rest.split_once("\")").expect("an end of words");
        entry(name, number, words)
    };
    table.split("X(MFER_").skip(1).map(line).collect()
}

/// The constants of a `Refusal` in Rust, with no words.
fn constants(source: &str) -> Vec<Entry> {
    let constant = |line: &str| {
        let line = line.trim().strip_prefix("pub const ")?.strip_suffix(';')?;
        let (name, number) = line.split_once(": u8 = ")?;
        Some(entry(name, number, ""))
    };
    source.lines().filter_map(constant).collect()
}

/// The variants of `Fault` in Rattle, each with the comment above it, `// 20: no such frame`.
fn variants() -> Vec<Entry> {
    let (_, rest) = RATTLE.split_once("pub enum Fault {\n").expect("an enum");
    let (variants, _) = rest.split_once("\n}\n").expect("an end");
    let variant = |lines: &[&str]| {
        let comment = lines[0].trim().strip_prefix("// ").expect("a comment");
        let (number, words) = comment.split_once(": ").expect("words");
        let name = lines[1].trim().strip_suffix(',').expect("a variant");
        entry(&upper(name), number, words)
    };
    let lines: Vec<&str> = variants.lines().collect();
    lines.chunks(2).map(variant).collect()
}

/// The lines of a source that give a fault its number, `number_of Fault.NoFrame = 20` or `Fault::NoFrame => 20,`.
fn numbers(source: &str, begins: &str, between: &str) -> Vec<Entry> {
    let numbered = |line: &str| {
        let line = line.trim().strip_prefix(begins)?;
        let (name, number) = line.trim_end_matches(',').split_once(between)?;
        Some(entry(&upper(name), number, ""))
    };
    source.lines().filter_map(numbered).collect()
}

/// `NoFrame` as `NO_FRAME`.
fn upper(name: &str) -> String {
    let mut upper = String::new();
    for letter in name.chars() {
        if letter.is_uppercase() && !upper.is_empty() {
            upper.push('_');
        }
        upper.extend(letter.to_uppercase());
    }
    upper
}

#[test]
fn refusals_have_one_vocabulary() {
    let here = REFUSALS
        .iter()
        .map(|(name, number, words)| entry(name, &number.to_string(), words));
    let here: Vec<Entry> = here.collect();
    assert_eq!(table("MFER_REFUSALS"), here);
    assert_eq!(variants(), here);
    let wordless = |(name, number, _)| (name, number, String::new());
    let here: Vec<Entry> = here.into_iter().map(wordless).collect();
    assert_eq!(numbers(DEFINITIONS, "number_of Fault.", " = "), here);
    assert_eq!(numbers(RATTLE, "Fault::", " => "), here);
    assert_eq!(constants(SECOND), here);
}

/// The value of a sample of a kind whose bits are all zero.
fn of_kind(kind: u32) -> Value {
    let sampled = Sampled {
        number: 0,
        place: 0,
        kind,
        whole: 0,
        bits: 0,
    };
    Sample::of(&sampled).value
}

/// The definition of a value that begins so, parentheses aside: what stands on both sides of its `=`.
fn defined_as(begins: &str) -> (&'static str, &'static str) {
    let begins = |line: &&str| {
        let line = line.replace(['(', ')'], "");
        line.strip_prefix(begins)
            .is_some_and(|rest| rest.starts_with(' ') && !rest.starts_with(" :"))
    };
    let line = VALUES.lines().find(begins).expect("a definition");
    line.split_once(" = ").expect("a definition")
}

#[test]
fn kinds_have_one_vocabulary() {
    let kind = |(name, number, words): Entry| {
        let value = of_kind(number);
        let variant = format!("{value:?}");
        let variant = variant.split('(').next().expect("a name");
        assert_eq!(name, upper(variant));
        assert_eq!(words, value.kind());
        let (_, said) = defined_as(&format!("value_says {variant}"));
        let (_, record) = defined_as(said.split(' ').next().expect("a name"));
        assert!(record.contains(&format!("kind = {number};")), "{record}");
        value.kind()
    };
    let kinds = table("MFER_KINDS").into_iter().map(kind);
    let words = kinds.collect::<Vec<_>>().join(", ");
    assert_eq!(
        words,
        "whole, status, single, double, not-a-number, null, no data"
    );
    assert!(VALUES.contains(&format!("in the order {words}.")));
}

#[test]
fn the_header_has_this_version() {
    let parts = [
        ("", concat!('"', env!("CARGO_PKG_VERSION"), '"')),
        ("_MAJOR", env!("CARGO_PKG_VERSION_MAJOR")),
        ("_MINOR", env!("CARGO_PKG_VERSION_MINOR")),
        ("_PATCH", env!("CARGO_PKG_VERSION_PATCH")),
    ];
    for (part, version) in parts {
        let line = format!("#define MFER_VERSION{part} {version}\n");
        assert!(HEADER.contains(&line), "{line}");
    }
}

#[test]
fn the_header_has_these_sizes() {
    let sizes = [
        ("MFER_NUMBERS", ffi::NUMBERS),
        ("MFER_WALK", ffi::WALK),
        ("MFER_FRAME_NUMBERS", ffi::FRAME_NUMBERS),
        ("MFER_MAX_OCTETS", File::LIMIT as usize),
        ("MFER_MAX_FRAMES", File::MAX_FRAMES as usize),
        ("MFER_HEAD_OCTETS", File::HEAD.len()),
    ];
    for (name, size) in sizes {
        let begins = format!("#define {name} ");
        let line = HEADER.lines().find_map(|line| line.strip_prefix(&begins));
        let number = line.and_then(|line| line.split([' ', 'u']).next());
        assert_eq!(number, Some(size.to_string().as_str()), "{name}");
    }
}
