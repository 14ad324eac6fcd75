//! What this crate says again of include/pine.h, held to the header's text.
extern crate std;

use crate::ffi::LAYOUTS;
use crate::{
    Error, Rule, CUT_SEEDS_LEN, FIELD128_MODULUS, FIELD_MODULUS, FILE_ENTRY_LEN, FILE_HEADER_LEN,
    FILE_KEY_LEN, JOINT_RAND_LEN, JOINT_RAND_SEEDS_LEN, MAX_FILE_ENTRIES, MORE_DRAWS, NONCE_LEN,
    SEED_LEN,
};
use std::format;
use std::string::{String, ToString};
use std::vec::Vec;

/// The header without its comments.
fn header() -> String {
    let mut rest = include_str!(concat!(env!("CARGO_MANIFEST_DIR"), "/../../include/pine.h"));
    let mut text = String::new();
    while let Some((before, after)) = rest.split_once("/*") {
        text += before;
        rest = after.split_once("*/").expect("a comment ends").1;
    }
    text + rest
}

/// The name here, the size and the alignment of a type of the header.
fn type_of(name: &str) -> (&str, usize, usize) {
    match name {
        "uint64_t" => ("u64", 8, 8),
        "uint16_t" => ("u16", 2, 2),
        "uint8_t" => ("u8", 1, 1),
        "double" => ("f64", 8, 8),
        _ => {
            let (_, size, _) = LAYOUTS.iter().find(|l| l.0 == name).expect(name);
            (&name["Pine".len()..], *size, 8)
        }
    }
}

#[test]
fn structs_are_laid_out_as_in_the_header() {
    let text = header();
    for (name, size, fields) in LAYOUTS {
        let (_, body) = text
            .split_once(&format!("typedef struct {name} {{"))
            .expect(name);
        let (body, _) = body.split_once(&format!("}} {name};")).expect(name);
        let mut end = 0usize;
        let mut found = Vec::new();
        for line in body.split(';').map(str::trim).filter(|l| !l.is_empty()) {
            let (of_type, field) = line.split_once(' ').expect(line);
            let (of_type, size, align) = type_of(of_type);
            let offset = end.next_multiple_of(align);
            found.push((field, of_type, offset));
            end = offset + size;
        }
        assert_eq!(found, *fields, "{name}");
        assert_eq!(end.next_multiple_of(8), *size, "{name}");
    }
}

#[test]
fn every_rule_has_the_headers_number() {
    let text = header();
    let (_, body) = text.split_once("enum PineRule {").expect("the rules");
    let (body, _) = body.split_once('}').expect("their end");
    let mut rules = 0;
    for entry in body.split(',').map(str::trim).filter(|e| !e.is_empty()) {
        let (name, number) = entry.split_once(" = ").expect(entry);
        let number = number.parse().expect(entry);
        if name == "PINE_ACCEPTED" {
            assert_eq!(Error::of(number, 0), Ok(()));
            continue;
        }
        let rule = Rule::of(number);
        assert_eq!(rule.number(), number);
        let plain = name["PINE_".len()..].replace('_', "").to_lowercase();
        assert_eq!(format!("{rule:?}").to_lowercase(), plain);
        rules += 1;
    }
    let known = (1..1000).filter(|&n| Rule::of(n) != Rule::Other(n)).count();
    assert_eq!(known, rules);
}

#[test]
fn an_unknown_number_is_kept() {
    for number in [24, 25, u64::MAX] {
        let refusal = Error::of(number, 5).unwrap_err();
        assert_eq!(refusal.rule, Rule::Other(number));
        assert_eq!(refusal.rule.number(), number);
        assert_eq!(refusal.place, 5);
        assert_eq!(
            refusal.to_string(),
            format!("a rule is broken that this crate does not know (rule {number}, place 5)")
        );
    }
}

#[test]
fn the_constants_are_the_headers() {
    let text = header();
    assert!(text.contains(&format!(
        "#define PINE_FIELD_MODULUS UINT64_C({FIELD_MODULUS:#x})"
    )));
    for (word, number) in [
        ("LOW", FIELD128_MODULUS as u64),
        ("HIGH", (FIELD128_MODULUS >> 64) as u64),
    ] {
        assert!(text.contains(&format!(
            "#define PINE128_FIELD_MODULUS_{word} UINT64_C({number:#x})"
        )));
    }
    assert!(text.contains(&format!("#define PINE_JOINT_RAND_LEN {JOINT_RAND_LEN}")));
    for (name, number) in [
        ("SEED_LEN", SEED_LEN),
        ("NONCE_LEN", NONCE_LEN),
        ("CUT_SEEDS_LEN", CUT_SEEDS_LEN),
        ("JOINT_RAND_SEEDS_LEN", JOINT_RAND_SEEDS_LEN),
        ("MORE_DRAWS", MORE_DRAWS),
        ("MAX_FILE_ENTRIES", MAX_FILE_ENTRIES),
        ("FILE_HEADER_LEN", FILE_HEADER_LEN),
        ("FILE_ENTRY_LEN", FILE_ENTRY_LEN),
        ("FILE_KEY_LEN", FILE_KEY_LEN),
    ] {
        assert!(
            text.contains(&format!("#define PINE_{name} {number}\n")),
            "{name}"
        );
    }
}
