//! The crate says what `include/esa.h` says: the same calls with the same types, numbers, sentences, kinds and bounds.

mod common;

use esa::{Kind, Numbers, Receiving, Rule, Sheet};
use std::collections::BTreeMap;

/// The header without its comments, each run of blanks as one.
fn header() -> String {
    let text = common::words("include/esa.h");
    let mut kept = String::new();
    let mut rest = text.as_str();
    while let Some((before, after)) = rest.split_once("/*") {
        kept.push_str(before);
        rest = after.split_once("*/").expect("an end to every comment").1;
    }
    kept.push_str(rest);
    kept.split_whitespace().collect::<Vec<_>>().join(" ")
}

/// The declarations of calls in a text: the name, and the types of its parameters and of what it gives, as Rust has them.
type Calls = BTreeMap<String, Vec<String>>;

/// A parameter of C as a type of Rust: `const uint8_t *table` and `const uint8_t table[32]` are `*const u8`.
fn of_c(parameter: &str) -> String {
    let lent = parameter.contains('*') || parameter.contains('[');
    let constant = parameter.starts_with("const ");
    let kind = match parameter.trim_start_matches("const ").split([' ', '*']).next().unwrap() {
        "uint8_t" => "u8",
        "uint16_t" => "u16",
        "uint32_t" => "u32",
        "uint64_t" => "u64",
        "size_t" => "usize",
        "bool" => "bool",
        other => panic!("a type of C that is not known here: {other}"),
    };
    match (lent, constant) {
        (false, _) => kind.to_string(),
        (true, true) => format!("*const {kind}"),
        (true, false) => format!("*mut {kind}"),
    }
}

/// Each `uint64_t esa_name(..);` or `size_t esa_name(..);` that is no inline function.
fn calls_of_c(text: &str) -> Calls {
    let mut found = Calls::new();
    for given in ["uint64_t ", "size_t "] {
        for (at, _) in text.match_indices(&format!("{given}esa_")) {
            let rest = &text[at + given.len()..];
            let (name, rest) = rest.split_once('(').unwrap();
            let (parameters, rest) = rest.split_once(')').unwrap();
            if rest.starts_with(';') && !text[..at].ends_with("static inline ") {
                let types = parameters.split(", ").chain([given]).map(|word| of_c(word.trim()));
                found.insert(name.to_string(), types.collect());
            }
        }
    }
    found
}

/// Each `pub fn esa_name(..) -> type;`.
fn calls_of_rust(text: &str) -> Calls {
    let declared = text.split("pub fn ").skip(1).map(|rest| {
        let (name, rest) = rest.split_once('(').unwrap();
        let (parameters, rest) = rest.split_once(") -> ").unwrap();
        let given = rest.split(';').next().unwrap();
        let types = parameters.split(',').map(str::trim).filter(|word| !word.is_empty());
        let types = types.map(|word| word.split_once(": ").unwrap().1).chain([given]);
        (name.to_string(), types.map(str::to_string).collect())
    });
    declared.collect()
}

/// The number of a name of an enumeration.
fn number(header: &str, name: &str) -> usize {
    let (_, rest) = header.split_once(&format!("{name} = ")).unwrap_or_else(|| panic!("no {name} in the header"));
    let word: String = rest.chars().take_while(char::is_ascii_alphanumeric).collect();
    match word.strip_prefix("0x") {
        Some(digits) => usize::from_str_radix(digits, 16),
        None => word.parse(),
    }
    .unwrap_or_else(|error| panic!("{name} is {word}: {error}"))
}

/// The cases `case NAME: return "..";` of an inline function: the number of the name, and the words.
fn cases(header: &str, function: &str) -> BTreeMap<usize, String> {
    let (_, rest) = header.split_once(&format!("*{function}(unsigned")).expect("the function");
    let (body, _) = rest.split_once("default:").expect("a default");
    let said = body.split("case ").skip(1).map(|case| {
        let (name, rest) = case.split_once(": return \"").expect("a case");
        let (words, _) = rest.split_once('"').expect("its words");
        (number(header, name), words.to_string())
    });
    said.collect()
}

#[test]
fn every_call_is_declared() {
    let of_c = calls_of_c(&header());
    let raw = common::words("bindings/rust/src/raw.rs");
    assert!(of_c.len() >= 29, "only {} calls in the header", of_c.len());
    assert_eq!(of_c, calls_of_rust(&raw));
}

#[test]
fn every_sentence_is_the_same() {
    let cases = cases(&header(), "esa_words");
    assert!(cases.len() >= 23);
    for (number, words) in cases.into_iter().filter(|(number, _)| *number > 0) {
        let rule = Rule::of(number as u8).unwrap_or_else(|| panic!("no rule {number}"));
        assert_eq!(rule.sentence(), words, "of {number}");
    }
}

#[test]
fn every_kind_is_the_same() {
    let cases = cases(&header(), "esa_kind");
    assert_eq!(cases.len(), Kind::ALL.len());
    for (id, name) in cases {
        assert_eq!(Kind::of(id as u8).map(Kind::name), Some(name.as_str()), "of {id}");
    }
}

#[test]
fn the_rules_are_numbered_from_1_to_25() {
    let numbers: Vec<u8> = Rule::ALL.iter().map(|rule| rule.number()).collect();
    assert_eq!(numbers, (1..=25).collect::<Vec<u8>>());
}

#[test]
fn the_bounds_are_the_same() {
    let header = header();
    assert_eq!(number(&header, "ESA_SHORTEST"), esa::SHORTEST);
    assert_eq!(number(&header, "ESA_LONGEST"), esa::LONGEST);
    assert_eq!(number(&header, "ESA_LONGEST_TEXT"), esa::LONGEST_TEXT);
    assert_eq!(number(&header, "ESA_NUMBERS"), Numbers::LENGTH);
    assert_eq!(number(&header, "ESA_UNUSED_PIN"), usize::from(esa::UNUSED_PIN));
    assert_eq!(number(&header, "ESA_SHEET"), Sheet::PINS);
    assert_eq!(number(&header, "ESA_SHEET_LED"), usize::from(Sheet::LED));
    assert_eq!(number(&header, "ESA_SHEET_FREE"), usize::from(Sheet::FREE));
    assert_eq!(number(&header, "ESA_RECEIVING"), std::mem::size_of::<Receiving>());
    assert_eq!(number(&header, "ESA_LISTING"), 4096);
    assert_eq!(number(&header, "ESA_SHEET_TEXT"), 275);
    assert_eq!(number(&header, "ESA_DIFF"), 65536);
    assert_eq!(number(&header, "ESA_TRACE_PIECE"), 2048);
    assert_eq!(number(&header, "ESA_TRACE_TEXT"), 65536);
    assert_eq!(number(&header, "ESA_SALVAGE_LINES"), 32768);
}
