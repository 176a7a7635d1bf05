//! The proved leaves, called through their C exports, against the oracle and the original.

use oracle::generator::{self, Rng};
use oracle::oracle as rules;
use oracle::oracle::{Ending, WidthAt};

#[repr(C)]
#[derive(Debug, PartialEq, Eq)]
struct Told {
    number: u64,
    value: u64,
}

#[repr(C)]
#[derive(Debug, PartialEq, Eq)]
struct ListedTold {
    number: u64,
    at: u64,
    tag: u64,
    width: u64,
    next: u64,
}

#[link(name = "probe", kind = "static")]
extern "C" {
    fn probe_width(code: *const u8, len: usize, at: usize) -> Told;
    fn probe_u16(code: *const u8, len: usize, at: usize) -> Told;
    fn probe_u32(code: *const u8, len: usize, at: usize) -> Told;
    fn probe_item(code: *const u8, len: usize, at: usize) -> ListedTold;
    fn probe_clear(marks: *mut u64, len: usize);
    fn probe_set_start(marks: *mut u64, len: usize, at: usize) -> u32;
    fn probe_starts_at(marks: *const u64, len: usize, at: usize) -> u32;
    fn probe_count(marks: *const u64, len: usize) -> u64;
}

// Each wrapper hands over a slice as its pointer and its length, which is all that the exports ask.

fn width(code: &[u8], at: usize) -> Told {
    unsafe { probe_width(code.as_ptr(), code.len(), at) }
}

fn u16_at(code: &[u8], at: usize) -> Told {
    unsafe { probe_u16(code.as_ptr(), code.len(), at) }
}

fn u32_at(code: &[u8], at: usize) -> Told {
    unsafe { probe_u32(code.as_ptr(), code.len(), at) }
}

fn item(code: &[u8], at: usize) -> ListedTold {
    unsafe { probe_item(code.as_ptr(), code.len(), at) }
}

fn clear(marks: &mut [u64]) {
    unsafe { probe_clear(marks.as_mut_ptr(), marks.len()) }
}

fn set_start(marks: &mut [u64], at: usize) -> bool {
    unsafe { probe_set_start(marks.as_mut_ptr(), marks.len(), at) == 1 }
}

fn starts_at(marks: &[u64], at: usize) -> bool {
    unsafe { probe_starts_at(marks.as_ptr(), marks.len(), at) == 1 }
}

fn count(marks: &[u64]) -> u64 {
    unsafe { probe_count(marks.as_ptr(), marks.len()) }
}

fn told(number: u64, value: u64) -> Told {
    Told { number, value }
}

fn expected_width(code: &[u8], at: usize) -> Told {
    match rules::width_at(code, at) {
        WidthAt::Width(w) => told(0, w as u64),
        WidthAt::NoByte => told(1, 0),
        WidthAt::UnknownTag => told(2, 0),
        WidthAt::CutOff => told(3, 0),
    }
}

fn expected_number(number: Option<u64>) -> Told {
    number.map_or(told(1, 0), |n| told(0, n))
}

/// Offsets that a caller can get wrong: around both ends of the code, and around the largest.
fn offsets(len: usize) -> Vec<usize> {
    let mut all: Vec<usize> = (0..len + 10).collect();
    all.extend((0..10).map(|k| usize::MAX - k));
    all.extend([usize::MAX / 2, 1 << 32, 1 << 63]);
    all
}

#[test]
fn width_of_every_tag_at_every_cut() {
    for tag in 0..=255u8 {
        for before in [0usize, 1, 7] {
            for after in 0..9 {
                let mut code = vec![0x01; before];
                code.push(tag);
                code.extend(std::iter::repeat_n(0xff, after));
                for at in offsets(code.len()) {
                    assert_eq!(
                        width(&code, at),
                        expected_width(&code, at),
                        "{code:x?} at {at}"
                    );
                }
            }
        }
    }
}

#[test]
fn numbers_at_every_offset() {
    let mut rng = Rng::new(16);
    for len in 0..40 {
        let code: Vec<u8> = (0..len).map(|_| rng.byte()).collect();
        for at in offsets(len) {
            let two = rules::u16_at(&code, at).map(u64::from);
            let four = rules::u32_at(&code, at).map(u64::from);
            assert_eq!(u16_at(&code, at), expected_number(two), "{code:x?} at {at}");
            assert_eq!(
                u32_at(&code, at),
                expected_number(four),
                "{code:x?} at {at}"
            );
        }
    }
}

/// Reads a whole code through the export, following each item's next offset.
fn read(code: &[u8]) -> (Vec<(usize, u8, usize)>, Ending) {
    let (mut items, mut at) = (Vec::new(), 0);
    loop {
        let listed = item(code, at);
        match listed.number {
            0 => {
                assert_eq!(
                    (listed.at, listed.next),
                    (at as u64, listed.at + listed.width)
                );
                items.push((at, listed.tag as u8, listed.width as usize));
                at = listed.next as usize;
            }
            1 => return (items, Ending::End),
            _ => return (items, Ending::NoWidth(listed.at as usize)),
        }
    }
}

#[test]
fn listing_of_generated_code() {
    for seed in 0..20_000 {
        let code = generator::case(seed).input.code;
        assert_eq!(read(&code), rules::listing(&code), "seed {seed}");
    }
}

#[test]
#[cfg_attr(not(original), ignore = "the original's text is not here")]
fn listing_equals_the_original() {
    #[cfg(original)]
    for seed in 0..20_000 {
        let code = generator::case(seed).input.code;
        assert_eq!(
            read(&code).0,
            oracle::original::disassemble(&code),
            "seed {seed}"
        );
    }
}

#[test]
fn item_at_any_offset() {
    let mut rng = Rng::new(7);
    for len in 0..40 {
        let code: Vec<u8> = (0..len).map(|_| rng.byte() % 0x50).collect();
        for at in offsets(len) {
            let listed = item(&code, at);
            match rules::width_at(&code, at) {
                WidthAt::Width(w) => {
                    let (at, w) = (at as u64, w as u64);
                    let tag = u64::from(code[at as usize]);
                    assert_eq!(
                        listed,
                        ListedTold {
                            number: 0,
                            at,
                            tag,
                            width: w,
                            next: at + w
                        }
                    );
                }
                WidthAt::NoByte => assert_eq!(listed.number, 1),
                _ => assert_eq!((listed.number, listed.at), (2, at as u64)),
            }
        }
    }
}

#[test]
fn marks_against_a_plain_bit_set() {
    let mut rng = Rng::new(64);
    for words in 0..9usize {
        let mut marks: Vec<u64> = (0..words + 2).map(|_| rng.word()).collect();
        let guards = (marks[0], marks[words + 1]);
        let mut plain = vec![false; words * 64];
        clear(&mut marks[1..=words]);
        for _ in 0..200 {
            let at = rng.below(words * 64 + 70);
            let within = at < plain.len();
            assert_eq!(
                set_start(&mut marks[1..=words], at),
                within,
                "{words} words, {at}"
            );
            if within {
                plain[at] = true;
            }
            let set = plain.iter().filter(|&&bit| bit).count() as u64;
            assert_eq!(count(&marks[1..=words]), set);
        }
        for at in offsets(words * 64) {
            let expected = plain.get(at).copied().unwrap_or(false);
            assert_eq!(
                starts_at(&marks[1..=words], at),
                expected,
                "{words} words, {at}"
            );
        }
        clear(&mut marks[1..=words]);
        assert!(marks[1..=words].iter().all(|&word| word == 0));
        assert_eq!((marks[0], marks[words + 1]), guards);
    }
}
