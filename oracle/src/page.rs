//! docs/DIFFERENCES.md held to the oracle: each entry has a test, and its lines of bits are those of the requests that
//! keep it, with their places in the stored list and what the list answers.

use crate::answers::{line_of, request};
use crate::kept::{Kept, KEPT, LEFT_OUT, W10};
use crate::stored;
use crate::whose::Whose;
use std::collections::BTreeMap;

const PAGE: &str = include_str!("../../docs/DIFFERENCES.md");
const TESTS: [&str; 2] = [include_str!("differences.rs"), include_str!("differences/cube.rs")];

/// Bits have their most significant digit first and no leading zeros.
fn bits(words: &[u64]) -> String {
    words.iter().map(|word| format!("{word:x}")).collect::<Vec<_>>().join(" ")
}

/// The requests that keep entries, with their places in the stored list.
fn placed() -> impl Iterator<Item = (&'static Kept, usize)> {
    KEPT.iter().zip(1..).chain(W10.iter().zip(stored::until_w10() + 1..))
}

/// The lines of bits that the page has to have, under the name of each entry.
fn expected() -> BTreeMap<&'static str, Vec<String>> {
    let mut lines: BTreeMap<&str, Vec<String>> = BTreeMap::new();
    for (name, words) in LEFT_OUT {
        lines.entry(name).or_default().push(format!("  - no operation of ours: `{}`", bits(words)));
    }
    for ((name, operation, words), place) in placed() {
        let line = line_of(&request(*operation, words), Whose::Ours);
        let answer = line.split_whitespace().map(shown).collect::<Vec<_>>().join(" ");
        let text = format!("  - stored request {place}: `{operation}: {}` gives `{answer}`", bits(words));
        lines.entry(name).or_default().push(text);
    }
    lines
}

/// A word of a line as bits; its number and the bytes of a buffer as they are.
fn shown(group: &str) -> String {
    match u64::from_str_radix(group, 16) {
        Ok(word) if group.len() == 16 => bits(&[word]),
        _ => group.to_string(),
    }
}

/// The lines of bits that the page has. An entry begins with its name in bold; nothing else on the page is a list.
fn found() -> BTreeMap<&'static str, Vec<String>> {
    let mut lines: BTreeMap<&str, Vec<String>> = BTreeMap::new();
    let mut entry = "";
    for line in PAGE.lines() {
        if let Some(rest) = line.strip_prefix("- ") {
            let name = rest.strip_prefix("**").and_then(|rest| rest.split_once(", "));
            entry = name.unwrap_or_else(|| panic!("an entry without a name: {line}")).0;
            assert!(lines.insert(entry, Vec::new()).is_none(), "{entry} stands twice");
        } else if line.starts_with("  - ") {
            lines.get_mut(entry).expect("an entry above the bits").push(line.to_string());
        }
    }
    lines
}

#[test]
fn every_entry_has_its_requests() {
    let (found, expected) = (found(), expected());
    for (name, lines) in &expected {
        let found = found.get(name).unwrap_or_else(|| panic!("{name} is not on the page"));
        assert_eq!(found, lines, "{name} has other lines of bits; they have to be\n{}", lines.join("\n"));
    }
    for name in found.keys() {
        assert!(expected.contains_key(name), "{name}: no request keeps it, and it is not among those left out");
    }
}

#[test]
fn every_entry_has_a_test() {
    for name in found().keys() {
        let test = format!("#[test]\nfn {}_", name.to_lowercase());
        let count: usize = TESTS.iter().map(|tests| tests.matches(&test).count()).sum();
        assert_eq!(count, 1, "{name} needs one test, in differences.rs or below it");
    }
}
