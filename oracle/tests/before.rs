//! Everything before the chunks, proved, against the oracle: the verdict, and marks word for word.

use oracle::generator::{self, Case};
use oracle::input::{Input, Lent, Verdict, NO_CHUNK};
use oracle::oracle as rules;
use std::collections::BTreeMap;

#[link(name = "probe", kind = "static")]
extern "C" {
    #[allow(clippy::too_many_arguments)]
    fn probe_before(
        rights: u32,
        functions: u32,
        constants: *const u32,
        constants_len: usize,
        names: *const u8,
        names_len: usize,
        tokens: usize,
        op_assignments: usize,
        chains: *const u32,
        chains_len: usize,
        steps: *const u32,
        steps_len: usize,
        switches: *const u32,
        switches_len: usize,
        cases: *const u32,
        cases_len: usize,
        ranges: *const u32,
        ranges_len: usize,
        code: *const u8,
        code_len: usize,
        chunks: usize,
        marks: *mut u64,
        marks_len: usize,
        heights: usize,
    ) -> Verdict;
}

/// What the proved function answers, in the oracle's words.
fn ask(case: &Case, marks: &mut [u64]) -> Verdict {
    let input = &case.input;
    unsafe {
        probe_before(
            input.rights,
            input.functions,
            input.constants.as_ptr(),
            input.constants.len(),
            input.names.as_ptr(),
            input.names.len(),
            input.tokens as usize,
            input.op_assignments as usize,
            input.chains.as_ptr(),
            input.chains.len(),
            input.steps.as_ptr(),
            input.steps.len(),
            input.switches.as_ptr(),
            input.switches.len(),
            input.cases.as_ptr(),
            input.cases.len(),
            input.ranges.as_ptr(),
            input.ranges.len(),
            input.code.as_ptr(),
            input.code.len(),
            input.chunks.len(),
            marks.as_mut_ptr(),
            marks.len(),
            case.room.heights,
        )
    }
}

/// The oracle's verdict on a case, and what it leaves in marks that held this pattern.
fn judge(case: &Case, marks: &mut [u64]) -> Verdict {
    let room = case.room;
    let (mut heights, mut records, mut work) = (
        vec![0; room.heights],
        vec![0; room.records],
        vec![0; room.work],
    );
    let lent = Lent {
        marks,
        heights: &mut heights,
        records: &mut records,
        work: &mut work,
    };
    rules::verify(&case.input, lent)
}

/// A verdict that came before the chunks.
fn is_early(verdict: &Verdict) -> bool {
    verdict.kind != 0 && verdict.chunk == NO_CHUNK
}

const PASSED: Verdict = Verdict::accepted(0, 0, 0);

/// The bits of the starts in so many words.
fn starts(code: &[u8], words: usize) -> Vec<u64> {
    let mut marks = vec![0; words];
    for (at, _, _) in rules::listing(code).0 {
        marks[at / 64] |= 1 << (at % 64);
    }
    marks
}

/// Marks between two guard words, all of a pattern that no answer leaves.
fn patterned(words: usize) -> Vec<u64> {
    (0..words as u64 + 2).map(|i| !(i << 7)).collect()
}

fn compare(case: &Case, name: &str) -> Verdict {
    let words = case.room.marks;
    let (mut ours, mut theirs) = (patterned(words), patterned(words));
    let told = ask(case, &mut ours[1..=words]);
    let verdict = judge(case, &mut theirs[1..=words]);
    let before = patterned(words);
    assert_eq!(
        (ours[0], ours[words + 1]),
        (before[0], before[words + 1]),
        "{name}: guards"
    );
    if is_early(&verdict) {
        assert_eq!(told, verdict, "{name}");
        assert_eq!(ours, theirs, "{name}: marks");
    } else {
        assert_eq!(told, PASSED, "{name}");
        assert_eq!(
            ours[1..=words],
            starts(&case.input.code, words),
            "{name}: marks"
        );
    }
    told
}

/// Which test refused: the kind, and the limit, table, buffer or pool; for kind 4, 0 or 1 tells a
/// constant from FUNCTION by whether there are constants at all.
fn sort(case: &Case, told: &Verdict) -> (u32, u64) {
    match told.kind {
        1 | 2 => (told.kind, told.p),
        3 | 6 => (told.kind, told.q),
        4 => (4, u64::from(case.input.constants.is_empty())),
        kind => (kind, 0),
    }
}

#[test]
fn generated_cases() {
    let mut sorts = BTreeMap::new();
    for seed in 0..200_000 {
        let case = generator::case(seed);
        let told = compare(&case, &format!("seed {seed}"));
        *sorts.entry(sort(&case, &told)).or_insert(0u32) += 1;
    }
    let expected = (1..=11).map(|limit| (1, limit));
    let expected = expected.chain((1..=4).map(|table| (2, table)));
    let expected = expected.chain([(0, 0), (3, 1), (3, 2), (4, 0), (4, 1), (5, 0)]);
    for key in expected.chain((1..=7).map(|pool| (6, pool))) {
        let count = sorts.get(&key).copied().unwrap_or(0);
        assert!(count >= 10, "{key:?}: {count} of {sorts:?}");
    }
}

#[test]
fn each_limit_around_its_bound() {
    for (number, &most) in generator::LIMITS.iter().enumerate() {
        for count in [most as usize - 1, most as usize, most as usize + 1] {
            let input = generator::with_count(number + 1, count);
            let room = generator::Room::ample(&input);
            let told = compare(
                &Case { input, room },
                &format!("limit {} at {count}", number + 1),
            );
            let exceeded = count > most as usize;
            assert_eq!(
                (told.kind, told.p) == (1, number as u64 + 1),
                exceeded,
                "{told:?}"
            );
        }
    }
}

/// A span that ends with its table, one past it that names nothing, and one that wraps in 32 bits.
#[test]
fn spans_at_the_ends_of_their_tables() {
    let spans = [
        (2, 0, 0),
        (3, 0, 2),
        (1, 1, 0),
        (1, 2, 2),
        (u32::MAX, 1, 2),
        (u32::MAX, 2, 2),
    ];
    for (first, count, kind) in spans {
        let chain = vec![3, 0, 0, 0, 0, first, count];
        let cases = vec![first, count, 0, 0, 0];
        let ranges = vec![0, 0, first, count, 0];
        for (chains, switches) in [(chain, vec![]), (vec![], cases), (vec![], ranges)] {
            let input = Input {
                chains,
                switches,
                steps: vec![0; 8],
                cases: vec![0; 4],
                ranges: vec![0; 2],
                ..Default::default()
            };
            let room = generator::Room::ample(&input);
            let told = compare(&Case { input, room }, &format!("{first} and {count}"));
            assert_eq!(told.kind, kind, "{first} and {count}");
        }
    }
}

#[test]
fn marks_and_heights_short_full_and_roomy() {
    for seed in 0..3_000 {
        let input = generator::case(seed).input;
        let exact = generator::Room::exact(&input);
        for marks in [
            exact.marks.saturating_sub(1),
            exact.marks,
            exact.marks + 300,
        ] {
            for heights in [
                exact.heights.saturating_sub(1),
                exact.heights,
                exact.heights + 3,
            ] {
                let room = generator::Room {
                    marks,
                    heights,
                    ..exact
                };
                let case = Case {
                    input: input.clone(),
                    room,
                };
                compare(
                    &case,
                    &format!("seed {seed}, {marks} words, {heights} heights"),
                );
            }
        }
    }
}

#[test]
fn bench_cases_before_the_chunks() {
    let bench = |code: &[u8]| {
        let input = Input {
            code: code.to_vec(),
            ..Default::default()
        };
        let room = generator::Room::ample(&input);
        compare(&Case { input, room }, &format!("{code:x?}"))
    };
    assert_eq!(bench(&[0x00]), Verdict { kind: 5, ..PASSED });
    assert_eq!(bench(&[0x24, 0x00]), Verdict { kind: 5, ..PASSED });
    let bad = bench(&[0x01, 0x07, 0x24, 0x00, 0x00]);
    assert_eq!(
        bad,
        Verdict {
            kind: 6,
            at: 2,
            p: 0,
            q: 1,
            ..PASSED
        }
    );
}
