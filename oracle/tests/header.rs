//! The header's numbers for tables and limits are the oracle's, which the library is compared with.

use oracle::tables::{case, chain, limit, step, switch, tag};

const HEADER: &str = include_str!("../../include/grain.h");

/// The number that the header gives a name, in an enum or in a line of its own.
fn number(name: &str) -> Option<u64> {
    let words = HEADER.split(|c: char| c.is_whitespace() || c == ',');
    let words: Vec<&str> = words.filter(|word| !word.is_empty()).collect();
    let told = words.windows(3).find_map(|three| match three {
        ["#define", this, number] | [this, "=", number] if *this == name => Some(*number),
        _ => None,
    })?;
    match told.strip_prefix("0x") {
        Some(digits) => u64::from_str_radix(digits, 16).ok(),
        None => told.parse().ok(),
    }
}

const WORDS: [(&str, usize); 5] = [
    ("CHAIN_WORDS", chain::WORDS),
    ("STEP_WORDS", step::WORDS),
    ("SWITCH_WORDS", switch::WORDS),
    ("CASE_WORDS", case::WORDS),
    ("RANGE_WORDS", 1),
];

const VALUES: [(&str, u32); 10] = [
    ("ROOT_LOCAL", chain::ROOT_LOCAL),
    ("ROOT_NAMED", chain::ROOT_NAMED),
    ("ROOT_THIS", chain::ROOT_THIS),
    ("ROOT_TEMPORARY", chain::ROOT_TEMPORARY),
    ("TAIL_READ", chain::TAIL_READ),
    ("TAIL_ASSIGN", chain::TAIL_ASSIGN),
    ("TAIL_ASSIGN_OP", chain::TAIL_ASSIGN_OP),
    ("STEP_INDEX", step::INDEX),
    ("STEP_PROPERTY", step::PROPERTY),
    ("STEP_METHOD", step::METHOD),
];

const LIMITS: [(&str, u64); 11] = [
    ("MAX_CODE", limit::CODE),
    ("MAX_CONSTANTS", limit::CONSTANTS),
    ("MAX_NAMES", limit::NAMES),
    ("MAX_TOKENS", limit::TOKENS),
    ("MAX_OP_ASSIGNMENTS", limit::OP_ASSIGNMENTS),
    ("MAX_STEPS", limit::STEPS),
    ("MAX_CASES", limit::CASES),
    ("MAX_RANGES", limit::RANGES),
    ("MAX_CHAINS", limit::CHAINS),
    ("MAX_SWITCHES", limit::SWITCHES),
    ("MAX_CHUNKS", limit::CHUNKS),
];

#[test]
fn tables_and_limits_have_the_oracles_numbers() {
    let words = WORDS.map(|(name, number)| (name, number as u64));
    let values = VALUES.map(|(name, number)| (name, u64::from(number)));
    let switch = [("SWITCH_TAG", u64::from(tag::SWITCH))];
    let all = [&words[..], &values, &LIMITS, &switch].concat();
    for (name, expected) in all {
        assert_eq!(number(&format!("GRAIN_{name}")), Some(expected), "{name}");
    }
    assert_eq!(number("GRAIN_NO_SUCH_NAME"), None);
}

/// A group of names in the header has no name that is not compared above.
#[test]
fn no_name_of_a_group_is_left_out() {
    for (group, count) in [("ROOT_", 4), ("TAIL_", 3), ("MAX_", 11)] {
        let names = HEADER.split(|c: char| !c.is_alphanumeric() && c != '_');
        let prefix = format!("GRAIN_{group}");
        let mut names: Vec<&str> = names
            .filter(|name| name.starts_with(&prefix) && **name != prefix)
            .collect();
        names.sort_unstable();
        names.dedup();
        assert_eq!(names.len(), count, "{names:?}");
    }
}
