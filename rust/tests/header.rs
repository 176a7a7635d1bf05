//! The names of the header have the numbers that the Rust of this package gives them.

use grain::{right, Kind, Verdict, NO_CHUNK};

const HEADER: &str = include_str!("../../include/grain.h");

/// Whether the header gives a name this number.
fn defines(name: &str, number: u64) -> bool {
    let words = HEADER.split(|c: char| c.is_whitespace() || c == ',');
    let words: Vec<&str> = words.filter(|word| !word.is_empty()).collect();
    let number = number.to_string();
    words.windows(3).any(|three| three == [name, "=", &number])
}

/// The words in which Rust writes the answer of these numbers.
fn words(kind: u32, p: u64, q: u64) -> Option<Vec<String>> {
    let verdict = Verdict {
        kind,
        chunk: NO_CHUNK,
        at: 0,
        p,
        q,
        instructions: 0,
        reached: 0,
        taken: 0,
    };
    let text = format!("{:?}", Kind::of(&verdict)?);
    let words = text.split(|c: char| !c.is_alphanumeric());
    let words = words.filter(|word| !word.is_empty());
    Some(words.map(str::to_string).collect())
}

/// `TooLarge` as `TOO_LARGE`.
fn capitals(name: &str) -> String {
    let mut out = String::new();
    for (place, letter) in name.char_indices() {
        if place > 0 && letter.is_uppercase() {
            out.push('_');
        }
        out.push(letter.to_ascii_uppercase());
    }
    out
}

#[test]
fn every_kind_has_one_number() {
    for number in 0..17 {
        let name = &words(number, 1, 1).expect("a kind of the library")[0];
        let name = format!("GRAIN_{}", capitals(name));
        assert!(defines(&name, number.into()), "{name} is not {number}");
    }
    assert_eq!(words(17, 1, 1), None);
}

/// Each group of names for a value, the kind that has it, and how many there are. The value is p
/// for kinds 1 and 2, and q for the others.
const GROUPS: [(&str, u32, u64); 4] = [
    ("LIMIT", 1, 11),
    ("TABLE", 2, 4),
    ("BUFFER", 3, 4),
    ("POOL", 6, 7),
];

#[test]
fn every_value_with_a_name_has_one_number() {
    for (group, kind, count) in GROUPS {
        let all = |number| words(kind, number, number);
        for number in 1..=count {
            let words = all(number).expect("a value of the library");
            let named = |word: &String| {
                let name = format!("GRAIN_{group}_{}", capitals(word));
                defines(&name, number)
            };
            assert!(words.iter().any(named), "{group} {number}: {words:?}");
        }
        assert_eq!((all(0), all(count + 1)), (None, None), "{group}");
    }
}

#[test]
fn every_item_has_one_number() {
    for (number, name) in ["INSTRUCTION", "END", "NO_WIDTH"].iter().enumerate() {
        let name = format!("GRAIN_ITEM_{name}");
        assert!(defines(&name, number as u64), "{name} is not {number}");
    }
}

#[test]
fn every_right_has_one_bit() {
    for (name, word) in right::ALL {
        let bit = word.trailing_zeros();
        let line = format!("#define GRAIN_RIGHT_{name} (UINT32_C(1) << {bit})\n");
        assert!(HEADER.contains(&line), "{line}");
    }
    assert_eq!(
        HEADER.matches("#define GRAIN_RIGHT_").count(),
        right::ALL.len()
    );
}
