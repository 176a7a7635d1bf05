//! The listing's export, `grain_item_at`, against the oracle: every number of its answer, at every offset of a code and
//! at offsets past its end.

use oracle::generator::{self, Rng, ShortCodes};
use oracle::oracle as rules;
use oracle::oracle::{Ending, WidthAt};

#[repr(C)]
#[derive(Debug, Default, PartialEq, Eq)]
struct Item {
    kind: u32,
    tag: u32,
    at: u64,
    width: u64,
    next: u64,
}

#[link(name = "grain", kind = "static")]
extern "C" {
    fn grain_item_at(code: *const u8, code_len: usize, at: usize) -> Item;
}

/// A slice is handed over as its pointer and its length, which is all that the export asks.
fn item_at(code: &[u8], at: usize) -> Item {
    unsafe { grain_item_at(code.as_ptr(), code.len(), at) }
}

fn expected(code: &[u8], at: usize) -> Item {
    match rules::width_at(code, at) {
        WidthAt::Width(width) => Item {
            kind: 0,
            tag: u32::from(code[at]),
            at: at as u64,
            width: width as u64,
            next: (at + width) as u64,
        },
        WidthAt::NoByte => Item {
            kind: 1,
            ..Item::default()
        },
        WidthAt::UnknownTag | WidthAt::CutOff => Item {
            kind: 2,
            at: at as u64,
            ..Item::default()
        },
    }
}

/// Every offset of a code, some behind its end, and the greatest.
fn offsets(code: &[u8]) -> impl Iterator<Item = usize> {
    let far = [1 << 32, usize::MAX / 2, 1 << 63];
    let greatest = (0..8).map(|k| usize::MAX - k);
    (0..code.len() + 9).chain(far).chain(greatest)
}

fn compare(code: &[u8]) {
    for at in offsets(code) {
        assert_eq!(item_at(code, at), expected(code, at), "{code:x?} at {at}");
    }
}

/// The whole listing through the export, from each item's next offset to the next item.
fn listed(code: &[u8]) -> (Vec<(usize, u8, usize)>, Ending) {
    let (mut items, mut at) = (Vec::new(), 0);
    loop {
        let item = item_at(code, at);
        match item.kind {
            0 => items.push((item.at as usize, item.tag as u8, item.width as usize)),
            1 => return (items, Ending::End),
            _ => return (items, Ending::NoWidth(item.at as usize)),
        }
        at = item.next as usize;
    }
}

#[test]
fn every_tag_at_every_cut() {
    for tag in 0..=255u8 {
        for before in [0usize, 1, 7] {
            for after in 0..9 {
                let mut code = vec![0x01; before];
                code.push(tag);
                code.extend(std::iter::repeat_n(0xff, after));
                compare(&code);
            }
        }
    }
}

#[test]
fn all_short_codes() {
    // A tag of each width, two bytes that are none, and IMPORT.
    let alphabet = [0x00, 0x01, 0x15, 0x24, 0x34, 0x38, 0x42, 0x45, 0x48, 0x4f];
    let mut codes = 0;
    for case in ShortCodes::of_bytes(&alphabet, 5) {
        let code = case.input.code;
        compare(&code);
        assert_eq!(listed(&code), rules::listing(&code), "{code:x?}");
        codes += 1;
    }
    assert_eq!(codes, 111_111);
}

#[test]
fn generated_codes() {
    let (mut ends, mut bytes) = (0, 0);
    for seed in 0..20_000 {
        let code = generator::case(seed).input.code;
        let listing = listed(&code);
        match listing.1 {
            Ending::End => ends += 1,
            Ending::NoWidth(_) => bytes += 1,
        }
        assert_eq!(listing, rules::listing(&code), "seed {seed}");
    }
    // Both endings are met often.
    assert!(ends > 500 && bytes > 500, "{ends} and {bytes}");
}

#[test]
fn random_bytes_at_every_offset() {
    let mut rng = Rng::new(11);
    for len in 0..400 {
        let code: Vec<u8> = (0..len).map(|_| rng.byte() % 0x52).collect();
        compare(&code);
    }
}

/// The limit of the code is the verifier's, and not the listing's.
#[test]
fn code_beyond_the_limit_is_listed() {
    let code = vec![0x01; 70_000];
    assert_eq!(listed(&code), rules::listing(&code));
}
