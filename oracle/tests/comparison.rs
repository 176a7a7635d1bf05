//! The generator reaches every answer, the comparison finds every wrong verifier, and two
//! ways to the answer agree.

use oracle::compare::{self, Difference, Memory};
use oracle::generator::{self, Case, Room, ShortCodes};
use oracle::input::{Input, Verdict};
use oracle::mocks::{self, Mock};
use oracle::oracle::{listing, verify};
use oracle::second;
use oracle::tables::{self, tag};

/// The fixed run: the cases of the seeds below this.
const SEEDS: u64 = 300_000;

/// How many wrong verifiers are tried. The number stands here, so that none can get lost.
const WRONG: usize = 93;

/// A seed that stands in no other run.
const ELSEWHERE: u64 = 1 << 40;

fn ask(input: &Input, room: Room) -> (Verdict, Memory) {
    let mut memory = Memory::new(room);
    let verdict = verify(input, memory.lend());
    (verdict, memory)
}

#[test]
fn the_fixed_run_has_something_of_everything() {
    let tally = compare::sweep(0..SEEDS, &verify).unwrap_or_else(|found| panic!("{found}"));
    println!("{tally}");
    tally.at_least("kind from 0", &tally.kinds, 300);
    tally.at_least("limit", &tally.limits, 10);
    tally.at_least("table", &tally.tables, 300);
    tally.at_least("buffer", &tally.buffers, 1_000);
    tally.at_least("sort of kind 4", &tally.rights, 1_000);
    tally.at_least("pool", &tally.pools, 500);
    tally.at_least(
        "conflict with equal operands",
        &[tally.hidden_conflicts],
        300,
    );
    tally.at_least(
        "refusal after a good chunk",
        &[tally.later_chunks],
        SEEDS / 20,
    );
    tally.at_least("acceptance with a merge", &[tally.merging], SEEDS / 3);
}

#[test]
fn every_wrong_verifier_is_caught() {
    let (mut caught, mut passed) = (Vec::new(), Vec::new());
    for mock in mocks::all() {
        match first_caught(&mock) {
            Some(seed) => caught.push(seed),
            None => passed.push(mock.name),
        }
    }
    let (count, latest) = (caught.len(), caught.iter().max());
    println!("{count} wrong verifiers caught, the last at seed {latest:?}");
    assert!(passed.is_empty(), "not caught: {passed:#?}");
    assert_eq!(count, WRONG);
}

fn first_caught(mock: &Mock) -> Option<u64> {
    (0..SEEDS).find(|&seed| compare::run_open(&generator::case(seed), &mock.ask).is_err())
}

#[test]
fn wrong_verifiers_have_names_of_their_own() {
    let mut names: Vec<String> = mocks::all().into_iter().map(|mock| mock.name).collect();
    let count = names.len();
    names.sort();
    names.dedup();
    assert_eq!(names.len(), count);
}

#[test]
fn a_difference_says_where_it_is() {
    let case = generator::case_of("balanced", 0).unwrap();
    let text = |name: &str| {
        let all = mocks::all();
        let mock = all.iter().find(|mock| mock.name == name).unwrap();
        compare::run_open(&case, &mock.ask).unwrap_err().to_string()
    };
    let kind = "kind: 0 by the oracle, 13 by the subject";
    assert_eq!(text("refuses everything"), kind);
    assert!(text("writes before the work").starts_with("work[-1] (a guard): 0x"));
    assert_eq!(text("changes the code"), Difference::Input.to_string());
    assert!(text("stores nothing").starts_with("marks[0]: 0x"));
}

#[test]
fn a_second_opinion_agrees_on_the_mixed_cases() {
    for seed in ELSEWHERE..ELSEWHERE + SEEDS {
        let case = generator::case(seed);
        let room = Room::ample(&case.input);
        if let Err(why) = opinion(&Case { room, ..case }) {
            panic!("seed {seed}: {why}");
        }
    }
}

fn opinion(case: &Case) -> Result<(), String> {
    let (verdict, mut memory) = ask(&case.input, case.room);
    second::agrees(&case.input, &verdict, memory.heights.lent())
}

#[test]
fn a_second_opinion_agrees_on_all_short_codes_of_bytes() {
    let plain = [
        0x00,
        tag::UNIT,
        tag::POP,
        tag::TICK,
        tag::RETURN,
        tag::ITER_INIT,
        tag::ITER_DROP,
    ];
    all_agree(ShortCodes::of_bytes(&plain, 6), 137_257);
    let jumping = [
        0x00,
        tag::UNIT,
        0x05,
        tag::RETURN,
        tag::JUMP,
        tag::PUSH_HANDLER,
    ];
    all_agree(ShortCodes::of_bytes(&jumping, 7), 335_923);
}

#[test]
fn a_second_opinion_agrees_on_all_short_codes_of_instructions() {
    let pieces: &[&[u8]] = &[
        &[tag::UNIT],
        &[tag::POP],
        &[tag::RETURN],
        &[tag::ITER_INIT],
        &[tag::ITER_DROP],
        &[tag::POP_HANDLER],
        &[tag::JUMP, 0, 0, 0, 0],
        &[tag::JUMP_IF_TRUE, 6, 0, 0, 0],
        &[tag::ITER_NEXT, 7, 0, 0, 0],
        &[tag::PUSH_HANDLER, 6, 0, 0, 0],
        &[tag::SWITCH, 0, 0],
        &[tag::MAKE_ARRAY, 2, 0],
    ];
    let pools = Input {
        rights: tables::rights::ARRAY,
        constants: vec![0],
        switches: vec![0, 1, 0, 1, 4],
        cases: vec![5, 0],
        ranges: vec![5],
        ..Input::default()
    };
    all_agree(ShortCodes::of_pieces(pieces, 5, pools), 271_453);
}

fn all_agree(codes: ShortCodes, count: usize) {
    let mut seen = 0;
    for case in codes {
        if let Err(why) = opinion(&case) {
            panic!("{:02x?}: {why}", case.input.code);
        }
        seen += 1;
    }
    assert_eq!(seen, count);
}

#[test]
fn each_limit_is_where_it_is_said_to_be() {
    for (number, limit) in (1..).zip(generator::LIMITS) {
        for count in [limit - 1, limit, limit + 1] {
            let input = generator::with_count(number, count as usize);
            let (verdict, _) = ask(&input, Room::exact(&input));
            let refused = (verdict.kind, verdict.p) == (1, number as u64);
            let fits = if count > limit {
                refused
            } else {
                verdict.kind == 0
            };
            assert!(fits, "limit {number} with {count}: {verdict:?}");
        }
    }
}

/// The generator counts the room by itself, so this holds the oracle to an outside count.
#[test]
fn the_exact_room_is_enough_and_one_less_is_not() {
    for seed in 0..5_000 {
        let input = generator::case_of("balanced", seed).unwrap().input;
        let exact = Room::exact(&input);
        assert_eq!(ask(&input, exact).0.kind, 0, "seed {seed}");
        for buffer in 1..=4 {
            let mut less = exact;
            let needed = *less.size(buffer);
            *less.size(buffer) -= 1;
            let verdict = ask(&input, less).0;
            let answer = (verdict.kind, verdict.p, verdict.q);
            assert_eq!(answer, (3, needed as u64, buffer as u64), "seed {seed}");
        }
    }
}

#[test]
fn a_seed_repeats_its_case() {
    for seed in 0..1_000 {
        assert_eq!(generator::case(seed), generator::case(seed));
    }
    assert_eq!(generator::case_of("no such family", 0), None);
}

/// Where as many are reached as there are, every instruction of the code is on some path.
#[test]
fn good_programs_reach_every_tag() {
    let mut seen = [0_u64; 256];
    for seed in 0..20_000 {
        let case = generator::case_of("balanced", seed).unwrap();
        let (verdict, _) = ask(&case.input, case.room);
        assert_eq!(verdict.kind, 0, "seed {seed}: {verdict:?}");
        if verdict.reached == verdict.instructions {
            let (instructions, _) = listing(&case.input.code);
            instructions
                .iter()
                .for_each(|one| seen[usize::from(one.1)] += 1);
        }
    }
    for &(byte, name) in tag::ALL {
        let sites = byte == tag::CUSTOM_SYNTAX;
        let count = seen[usize::from(byte)];
        assert!(sites || count >= 200, "{name} is reached {count} times");
    }
}
