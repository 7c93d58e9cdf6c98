//! The numbers here are those of include/borrows.h, read as text.

use std::collections::BTreeMap;

/// Each `BORROWS_NAME = VALUE` and `#define BORROWS_NAME VALUE` of the header; a product of names is worked out.
fn constants() -> BTreeMap<String, usize> {
    let header = include_str!("../../include/borrows.h");
    let mut found = BTreeMap::new();
    for line in header.lines() {
        let line = line.split("/*").next().unwrap().trim();
        let (name, value) = match line.strip_prefix("#define ") {
            Some(defined) => match defined.split_once(' ') {
                Some(pair) => pair,
                None => continue, // the header's own guard
            },
            None => match line.trim_end_matches(',').split_once(" = ") {
                Some(pair) if pair.0.starts_with("BORROWS_") => pair,
                _ => continue,
            },
        };
        let product = value
            .trim()
            .split(" * ")
            .map(|factor: &str| match factor.parse() {
                Ok(number) => number,
                Err(_) => found[factor],
            });
        let value = product.product();
        found.insert(name.to_string(), value);
    }
    found
}

#[test]
fn sizes_and_version_are_those_of_the_header() {
    let header = constants();
    for (name, value) in [
        ("VERSION", dovrelka::VERSION),
        ("LISTING_BYTES", dovrelka::LISTING_BYTES),
        ("LISTING_WORDS", dovrelka::LISTING_WORDS),
        ("USED", dovrelka::USED),
        ("ANSWERS", dovrelka::ANSWERS),
        ("EDGES", dovrelka::EDGES),
        ("WORDS_PER_EDGE", dovrelka::WORDS_PER_EDGE),
        ("EDGE_WORDS", dovrelka::EDGE_WORDS),
        ("COUNTS", dovrelka::COUNTS),
        ("RECORDS", dovrelka::RECORDS),
        ("WRITTEN_BYTES", dovrelka::WRITTEN_BYTES),
        ("WRITTEN_WORDS", dovrelka::WRITTEN_WORDS),
        ("STACK", dovrelka::STACK),
    ] {
        assert_eq!(header[&format!("BORROWS_{name}")], value, "{name}");
    }
    assert_eq!(header["BORROWS_EDGE_WORDS"], 43_520);
}

/// The header numbers the records as the first line of a sheet names them.
#[test]
fn records_are_those_of_a_sheet() {
    let header = constants();
    let text = dovrelka::Sheet::new().write().unwrap();
    let text = String::from_utf8(text).unwrap();
    let names: Vec<&str> = text.lines().next().unwrap().split(' ').collect();
    assert_eq!(names.len(), dovrelka::RECORDS);
    for (number, name) in names.iter().enumerate() {
        let name = format!("BORROWS_RECORD_{}", name.to_uppercase());
        assert_eq!(header[&name], number, "{name}");
    }
}

#[test]
fn refusals_are_those_of_the_header() {
    use dovrelka::Refusal::*;
    let header = constants();
    for (name, refusal) in [
        ("MALFORMED", Malformed),
        ("DUPLICATE", Duplicate),
        ("UNDECLARED", Undeclared),
        ("FULL", Full),
        ("NO_SOURCE", NoSource),
        ("AMBIGUOUS", Ambiguous),
        ("MISMATCH", Mismatch),
        ("OUT_OF_RANGE", OutOfRange),
        ("NO_ROOM", NoRoom),
        ("UNREADABLE", Unreadable),
        ("RETIRED", Retired),
    ] {
        assert_eq!(
            header[&format!("BORROWS_{name}")],
            refusal.number(),
            "{name}"
        );
    }
}
