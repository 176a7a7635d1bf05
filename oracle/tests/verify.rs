//! The whole call, proved, against the oracle: the answer, and every element of all lent memory. It
//! is asked as the product, over chunk records, and over flat spans.
//!
//! Each family of cases is a function over the verifier to ask. So the same families are tried
//! on right verifiers, which have to pass them, and on wrong ones, which they have to catch.

#[path = "../src/library.rs"]
mod library;

use library::Spans;
use oracle::bench;
use oracle::compare::{self, Memory, Open};
use oracle::generator::{self, Case, Rng, Room, Tally};
use oracle::input::{Chunk, Input, Lent, Verdict, Verifier};
use oracle::mocks;
use oracle::oracle as rules;
use oracle::tables::tag;
use oracle::tuned;
use std::fmt::Display;

/// How many generated cases are compared where `VERIFY_CASES` doesn't say.
const CASES: u64 = 1_000_000;

/// Of how many generated cases one is asked over flat spans too.
const FLAT: usize = 8;

/// The product.
fn product(input: &mut Input, memory: &mut Memory) -> Verdict {
    library::verify(input, memory.lend())
}

/// The call over flat spans. What it gets in three lists must stay as the chunks have it.
fn flat(input: &mut Input, memory: &mut Memory) -> Verdict {
    let spans = Spans::of(&input.chunks);
    let verdict = library::verify_flat(input, &spans, memory.lend());
    let unchanged = spans == Spans::of(&input.chunks);
    assert!(unchanged, "the library changed its spans");
    verdict
}

// ---------------------------------------------------------------------------------------------
// Comparing
// ---------------------------------------------------------------------------------------------

/// How often each answer came, or the first case in which something differs.
type Found = Result<Tally, String>;

/// A family under way.
struct Run<'a> {
    subject: &'a Open<'a>,
    tally: Tally,
}

impl<'a> Run<'a> {
    fn of(subject: &'a Open<'a>) -> Run<'a> {
        Run {
            subject,
            tally: Tally::default(),
        }
    }

    /// The answer, if the verifier and the oracle agree on it and on all memory.
    fn ask(&mut self, name: impl Display, input: &Input, room: Room) -> Result<Verdict, String> {
        let case = Case {
            input: input.clone(),
            room,
        };
        let verdict = compare::run_open(&case, self.subject)
            .map_err(|difference| format!("{name}: {difference}"))?;
        self.tally.add(&case, &verdict);
        Ok(verdict)
    }

    /// The same in rooms of all sorts: full to the last element, one short in each buffer,
    /// roomy, and none at all.
    fn ask_in_rooms(&mut self, name: impl Display, input: &Input) -> Result<(), String> {
        let exact = Room::exact(input);
        let mut rooms = vec![exact, Room::ample(input), Room::default()];
        for buffer in 1..=4 {
            let (mut less, mut more) = (exact, exact);
            *less.size(buffer) = less.size(buffer).saturating_sub(1);
            *more.size(buffer) += 200;
            rooms.extend([less, more]);
        }
        for room in rooms {
            self.ask(format_args!("{name} in {room:?}"), input, room)?;
        }
        Ok(())
    }
}

#[track_caller]
fn passed(subject: &str, found: Found) -> Tally {
    found.unwrap_or_else(|why| panic!("{subject}: {why}"))
}

/// Both calls pass a family, and meet the same answers in it.
#[track_caller]
fn both_pass(family: Family) -> Tally {
    let tally = passed("product", family(&product));
    assert_eq!(passed("flat", family(&flat)), tally);
    tally
}

// ---------------------------------------------------------------------------------------------
// The families
// ---------------------------------------------------------------------------------------------

type Family = fn(&Open) -> Found;

/// All of them, each in a size that is done in seconds.
const FAMILIES: [(&str, Family); 9] = [
    ("generated", |subject| generated(subject, 0..20_000)),
    ("bench", bench_cases),
    ("rooms", rooms),
    ("spans", spans),
    ("lists", lists),
    ("switches", switches),
    ("branches", branches),
    ("bounds", bounds),
    ("large", large),
];

fn generated(subject: &Open, seeds: impl Iterator<Item = u64>) -> Found {
    let mut run = Run::of(subject);
    for seed in seeds {
        let Case { input, room } = generator::case(seed);
        run.ask(format_args!("seed {seed}"), &input, room)?;
    }
    Ok(run.tally)
}

/// Document 01's own cases, with the answers that it gives.
fn bench_cases(subject: &Open) -> Found {
    let mut run = Run::of(subject);
    for bench in bench::cases() {
        let (name, input) = (bench.name, &bench.input);
        let verdict = run.ask(name, input, Room::ample(input))?;
        if verdict != bench.verdict {
            return Err(format!("{name}: {verdict:?}, not {:?}", bench.verdict));
        }
        run.ask_in_rooms(name, input)?;
    }
    Ok(run.tally)
}

fn rooms(subject: &Open) -> Found {
    let mut run = Run::of(subject);
    for seed in 0..2_000 {
        let input = generator::case(seed).input;
        run.ask_in_rooms(format_args!("seed {seed}"), &input)?;
    }
    Ok(run.tally)
}

/// Every span of short codes, and some beyond: entries and ends inside instructions, empty
/// chunks, and chunks that are none.
fn spans(subject: &Open) -> Found {
    let mut run = Run::of(subject);
    let codes = (0..).map(|seed| generator::case_of("balanced", seed).expect("a family"));
    let short = codes.filter(|case| case.input.code.len() <= 40).take(100);
    for (number, case) in short.enumerate() {
        let mut input = case.input;
        let past = input.code.len() as u32 + 2;
        for (entry, end) in (0..past).flat_map(|entry| (0..past).map(move |end| (entry, end))) {
            input.chunks = vec![Chunk {
                entry,
                end,
                declared: 9,
            }];
            let room = Room::ample(&input);
            run.ask(format_args!("{entry} to {end} of {number}"), &input, room)?;
        }
    }
    Ok(run.tally)
}

/// Chunks that repeat, overlap, and come in any order.
fn lists(subject: &Open) -> Found {
    let mut run = Run::of(subject);
    let mut rng = Rng::new(11);
    for seed in 0..2_000 {
        let mut input = generator::case_of("balanced", seed)
            .expect("a family")
            .input;
        let good = input.chunks.clone();
        let backwards: Vec<Chunk> = good.iter().rev().copied().collect();
        let mut mixed = [good.repeat(2), overlapping(&input)].concat();
        shuffle(&mut rng, &mut mixed);
        for chunks in [backwards, good.repeat(3), overlapping(&input), mixed] {
            input.chunks = chunks;
            for room in [Room::exact(&input), Room::ample(&input)] {
                run.ask(format_args!("list of seed {seed}"), &input, room)?;
            }
        }
    }
    Ok(run.tally)
}

/// Each chunk, and what is left of it from some of its instructions on.
fn overlapping(input: &Input) -> Vec<Chunk> {
    let mut chunks = input.chunks.clone();
    let starts = rules::listing(&input.code).0;
    for chunk in &input.chunks {
        let inside = starts.iter().map(|&(at, _, _)| at as u32);
        let inside = inside.filter(|at| (chunk.entry..chunk.end).contains(at));
        let suffix = |entry| Chunk { entry, ..*chunk };
        chunks.extend(inside.step_by(3).map(suffix).take(20));
    }
    chunks
}

fn shuffle<T>(rng: &mut Rng, all: &mut [T]) {
    for last in (1..all.len()).rev() {
        all.swap(last, rng.below(last + 1));
    }
}

/// The place that a number out of so many names.
type Order = fn(usize, usize) -> usize;

/// In which order places are named: a sort has to cope with each.
const ORDERS: [(&str, Order); 7] = [
    ("all the first", |_, _| 0),
    ("all the last", |_, count| count - 1),
    ("upward", |number, _| number),
    ("downward", |number, count| count - 1 - number),
    ("up and down", |number, count| {
        (2 * number).min(2 * (count - 1 - number))
    }),
    ("in steps", |number, count| number * 7_919 % count),
    ("few places", |number, count| number % 5 % count),
];

/// One switch over so many arms in an idle code, from none to 60,000, named in each order by
/// cases, by ranges, and by both; also with one arm that goes nowhere.
fn switches(subject: &Open) -> Found {
    let mut run = Run::of(subject);
    for arms in [0, 1, 2, 3, 7, 64, 1_000, 5_000, 60_000] {
        for (order, place) in ORDERS {
            let targets: Vec<u32> = (0..arms).map(|arm| 4 + place(arm, arms) as u32).collect();
            for cases in [0, arms / 2, arms] {
                let name = format!("{arms} arms, {cases} of them cases, {order}");
                let mut input = switch_over(&targets, cases);
                run.ask(&name, &input, Room::exact(&input))?;
                // The last arm before the default, behind the code or inside the switch.
                let arm = input.ranges.last_mut();
                let Some(last) = arm.or(input.cases.iter_mut().nth_back(1)) else {
                    continue;
                };
                *last = if cases % 2 == 0 { u32::MAX } else { 2 };
                run.ask(&name, &input, Room::exact(&input))?;
            }
        }
    }
    Ok(run.tally)
}

/// A switch whose first `cases` arms are cases and whose other arms are ranges, the default at
/// the code's end.
fn switch_over(targets: &[u32], cases: usize) -> Input {
    let mut code = vec![tag::UNIT, tag::SWITCH, 0, 0];
    code.extend(vec![tag::TICK; targets.len()]);
    let default = code.len() as u32;
    code.extend([tag::UNIT, tag::RETURN]);
    let (of_cases, of_ranges) = targets.split_at(cases);
    Input {
        constants: vec![0],
        switches: vec![0, cases as u32, 0, of_ranges.len() as u32, default],
        cases: of_cases.iter().flat_map(|&target| [target, 0]).collect(),
        ranges: of_ranges.to_vec(),
        ..Input::over(code)
    }
}

/// Branches, as many as fit, to the beginnings of one another in each order.
fn branches(subject: &Open) -> Found {
    const BYTES: usize = 6;
    let mut run = Run::of(subject);
    for count in [1, 2, 3, 100, 10_922] {
        for (order, place) in ORDERS {
            let mut code = Vec::new();
            for number in 0..count {
                let target = (BYTES * place(number, count)) as u32;
                code.extend([tag::TRUE, tag::JUMP_IF_TRUE]);
                code.extend(target.to_le_bytes());
            }
            code.extend([tag::UNIT, tag::RETURN]);
            let input = Input::over(code);
            let name = format!("{count} branches {order}");
            run.ask(&name, &input, Room::exact(&input))?;
            run.ask(&name, &input, Room::ample(&input))?;
        }
    }
    Ok(run.tally)
}

/// Everything at its bounds: the limits, and numbers that pass 16 or 32 bits.
fn bounds(subject: &Open) -> Found {
    let mut run = Run::of(subject);
    for (number, most) in (1..).zip(generator::LIMITS) {
        for count in [most - 1, most, most + 1] {
            let input = generator::with_count(number, count as usize);
            let name = format!("limit {number} with {count}");
            let verdict = run.ask(&name, &input, Room::exact(&input))?;
            let refused = (verdict.kind, verdict.p) == (1, number as u64);
            if refused != (count > most) {
                return Err(format!("{name}: {verdict:?}"));
            }
        }
    }
    for seed in 0..24 {
        let Case { input, room } = generator::case_of("extremes", seed).expect("a family");
        run.ask(format_args!("extreme {seed}"), &input, room)?;
    }
    Ok(run.tally)
}

/// Large programs, and the same with one byte of the code changed: whatever is then refused,
/// much has gone before it.
fn large(subject: &Open) -> Found {
    let mut run = Run::of(subject);
    for seed in 0..12 {
        let mut rng = Rng::new(seed);
        let bytes = [2_000, 20_000, 60_000][seed as usize % 3];
        let good = generator::large(&mut rng, bytes);
        run.ask(format_args!("large {seed}"), &good, Room::exact(&good))?;
        for change in 0..30 {
            let mut input = good.clone();
            let at = rng.below(input.code.len());
            input.code[at] = rng.pick(tag::ALL).0;
            let room = Room::ample(&input);
            run.ask(format_args!("large {seed}, change {change}"), &input, room)?;
        }
    }
    Ok(run.tally)
}

// ---------------------------------------------------------------------------------------------
// Lists of spans that differ in length
// ---------------------------------------------------------------------------------------------

/// A verifier that takes the chunks in three lists.
type Listed<'a> = dyn Fn(&Input, &Spans, Lent) -> Verdict + 'a;

/// The shortest list says how many chunks there are, whatever the others hold behind them. The
/// answer is how many calls were compared.
fn unequal(subject: &Listed) -> Result<u64, String> {
    let mut rng = Rng::new(26);
    let mut calls = 0;
    for seed in 0..3_000 {
        let input = generator::case_of("balanced", seed)
            .expect("a family")
            .input;
        let count = input.chunks.len();
        let lengths = [0; 3].map(|_| rng.below(count + 1));
        calls += 1;
        cut(subject, &input, lengths).map_err(|why| format!("seed {seed}: {why}"))?;
    }
    // The limit is on the chunks, not on the lists.
    let input = generator::with_count(11, 1_026);
    for [entries, ends, declared] in [[0, 1, 2], [2, 0, 1], [1, 2, 0], [1, 1, 2], [2, 2, 1]] {
        calls += 1;
        cut(
            subject,
            &input,
            [1_024 + entries, 1_024 + ends, 1_024 + declared],
        )?;
    }
    Ok(calls)
}

/// Asks about the input with its lists cut to these lengths.
fn cut(subject: &Listed, input: &Input, lengths: [usize; 3]) -> Result<(), String> {
    let [entries, ends, declared] = lengths;
    let mut lists = Spans::of(&input.chunks);
    lists.entries.truncate(entries);
    lists.ends.truncate(ends);
    lists.declared.truncate(declared);
    let before = lists.clone();
    let mut input = input.clone();
    input.chunks.truncate(entries.min(ends).min(declared));
    let room = Room::exact(&input);
    let asked = |input: &mut Input, memory: &mut Memory| subject(input, &lists, memory.lend());
    let verdict = compare::run_open(&Case { input, room }, &asked);
    if lists != before {
        return Err(format!("{lengths:?}: the lists have changed"));
    }
    let why = |difference| format!("{lengths:?}: {difference}");
    verdict.map(|_| ()).map_err(why)
}

/// The oracle, with as many chunks as `count` makes of the three lengths.
fn oracle_of(count: fn([usize; 3]) -> usize) -> impl Fn(&Input, &Spans, Lent) -> Verdict {
    move |input, spans, lent| {
        let count = count([spans.entries.len(), spans.ends.len(), spans.declared.len()]);
        let chunk = |number: usize| Chunk {
            entry: spans.entries.get(number).copied().unwrap_or(0),
            end: spans.ends.get(number).copied().unwrap_or(0),
            declared: spans.declared.get(number).copied().unwrap_or(0),
        };
        let chunks = (0..count).map(chunk).collect();
        rules::verify(
            &Input {
                chunks,
                ..input.clone()
            },
            lent,
        )
    }
}

// ---------------------------------------------------------------------------------------------
// The proved verifier
// ---------------------------------------------------------------------------------------------

/// How many cases this run generates.
fn asked_for() -> u64 {
    let cases = std::env::var("VERIFY_CASES").map_or(CASES, |text| {
        text.parse().expect("VERIFY_CASES is a number of cases")
    });
    assert!(cases >= 100_000, "too few cases for each kind to come");
    cases
}

#[test]
fn generated_cases_of_every_kind() {
    let cases = asked_for();
    let tally = passed("product", generated(&product, 0..cases));
    println!("{tally}");
    tally.at_least("kind from 0", &tally.kinds, cases / 1_000);
    tally.at_least("buffer of kind 3", &tally.buffers, cases / 300);
    tally.at_least("table of kind 2", &tally.tables, cases / 1_000);
    tally.at_least("sort of kind 4", &tally.rights, cases / 300);
    tally.at_least("pool of kind 6", &tally.pools, cases / 600);
    tally.at_least("limit of kind 1", &tally.limits, cases / 50_000);
    let equal = [tally.hidden_conflicts];
    tally.at_least("conflict with equal operands", &equal, cases / 1_000);
}

#[test]
fn generated_cases_over_flat_spans() {
    let seeds = (0..asked_for()).step_by(FLAT);
    let tally = passed("flat", generated(&flat, seeds));
    tally.at_least("kind from 0", &tally.kinds, tally.cases / 1_000);
}

#[test]
fn bench_cases_in_all_rooms() {
    both_pass(bench_cases);
}

#[test]
fn rooms_full_short_and_roomy() {
    let tally = both_pass(rooms);
    tally.at_least("buffer", &tally.buffers, 500);
    tally.at_least("kind 0", &tally.kinds[..1], 3_000);
}

#[test]
fn every_span_of_short_codes() {
    let tally = both_pass(spans);
    for kind in [0, 7, 8, 12, 13] {
        tally.at_least("kind", &tally.kinds[kind..=kind], 50);
    }
}

#[test]
fn chunks_repeated_overlapping_and_in_any_order() {
    let tally = both_pass(lists);
    tally.at_least("kind 0", &tally.kinds[..1], 5_000);
    let later = [tally.later_chunks];
    tally.at_least("refusal after a good chunk", &later, 1_000);
}

#[test]
fn switches_from_no_case_to_60_000() {
    let tally = both_pass(switches);
    tally.at_least("kind 0", &tally.kinds[..1], 150);
    tally.at_least("kinds 9 and 10", &tally.kinds[9..=10], 20);
}

#[test]
fn branches_as_many_as_fit() {
    let tally = both_pass(branches);
    assert_eq!(tally.kinds[0], tally.cases, "{tally}");
}

#[test]
fn limits_and_large_numbers() {
    let tally = both_pass(bounds);
    tally.at_least("limit", &tally.limits, 1);
}

#[test]
fn large_programs_good_and_changed() {
    let tally = both_pass(large);
    tally.at_least("kind 0", &tally.kinds[..1], 12);
    let refused = tally.kinds[1..].iter().filter(|&&count| count > 0).count();
    assert!(refused >= 6, "few sorts of refusals\n{tally}");
}

#[test]
fn the_shortest_list_of_spans_counts() {
    let calls = unequal(&library::verify_flat).unwrap_or_else(|why| panic!("{why}"));
    assert_eq!(calls, 3_005);
}

// ---------------------------------------------------------------------------------------------
// The families themselves
// ---------------------------------------------------------------------------------------------

#[test]
fn right_verifiers_pass_every_family() {
    let right: [(&str, &Verifier); 2] = [("oracle", &rules::verify), ("tuned", &tuned::verify)];
    for (name, verifier) in right {
        for (family, run) in FAMILIES {
            let found = run(&|input, memory| verifier(input, memory.lend()));
            assert!(found.is_ok(), "{name} and {family}: {found:?}");
        }
    }
    let shortest = oracle_of(|lengths| lengths.into_iter().min().unwrap_or(0));
    assert_eq!(unequal(&shortest), Ok(3_005));
}

/// Wrong verifiers by name, and the families that have to catch each.
const CAUGHT: [(&str, &[&str]); 12] = [
    (
        "stores nothing",
        &[
            "generated",
            "bench",
            "rooms",
            "spans",
            "lists",
            "bounds",
            "large",
        ],
    ),
    (
        "the last record stays",
        &["rooms", "switches", "branches", "lists"],
    ),
    (
        "writes behind the work",
        &["rooms", "switches", "branches", "lists"],
    ),
    ("lowers the declared heights", &["bench", "spans", "lists"]),
    ("marks past the needed words stay", &["bench", "rooms"]),
    ("operands_only_at_merge", &["generated", "bench"]),
    ("rights_over_unreached", &["generated", "bench"]),
    ("kind_8_missing", &["generated", "bench", "spans"]),
    ("judges only the first chunk", &["generated", "lists"]),
    ("heights behind a refused chunk are cleared", &["lists"]),
    (
        "taken counts no item that is dropped",
        &["switches", "branches"],
    ),
    ("room in 32 bits", &["bounds"]),
];

#[test]
fn the_families_catch_wrong_verifiers() {
    let all = mocks::all();
    for (name, families) in CAUGHT {
        let mock = all.iter().find(|mock| mock.name == name).expect("a mock");
        for family in families {
            let named = FAMILIES.iter().find(|(known, _)| known == family);
            let (_, run) = named.expect("a family");
            assert!(run(&mock.ask).is_err(), "{name} passes {family}");
        }
    }
}

#[test]
fn other_counts_of_chunks_are_caught() {
    let wrong: [fn([usize; 3]) -> usize; 4] = [
        |lengths| lengths[0],
        |lengths| lengths[1],
        |lengths| lengths[2],
        |lengths| lengths.into_iter().max().unwrap_or(0),
    ];
    for count in wrong {
        assert!(unequal(&oracle_of(count)).is_err());
    }
}
