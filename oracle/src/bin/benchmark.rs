//! Times the proved library, the tuned Rust and the original on the same accepted scripts.
//!
//! All run in turn in each round, and each has its best round, so that what else the machine
//! does falls on none of them alone. A verifier that is not there is left out. The one argument
//! is the number of rounds.

#[cfg(library)]
#[path = "../library.rs"]
#[allow(dead_code)] // the call over flat spans is not timed
mod library;

use oracle::compare::Memory;
use oracle::generator::{self, Rng, Room};
use oracle::input::{Chunk, Input, Verdict};
use oracle::oracle as rules;
use oracle::tables::tag;
use oracle::tuned;
use std::hint::black_box;
use std::time::{Duration, Instant};

const ROUNDS: usize = 25;

fn main() {
    let rounds = match std::env::args().nth(1) {
        Some(text) => text.parse().expect("the argument is a number of rounds"),
        None => ROUNDS,
    };
    println!("best of {rounds} rounds, in ns for each instruction of the code");
    println!(
        "{:<28} {:>12} {:>10} {:>9} {:>9} {:>9} {:>9} {:>9}",
        "scripts", "instructions", "items", "library", "tuned", "original", "lib/tuned", "lib/orig"
    );
    for (name, inputs) in scripts() {
        let mut prepared: Vec<Prepared> = inputs.iter().map(Prepared::of).collect();
        println!("{name:<28} {}", measured(&mut prepared, rounds));
    }
}

// ---------------------------------------------------------------------------------------------
// The scripts
// ---------------------------------------------------------------------------------------------

/// Each row of the table: its name, and the scripts that are timed together.
fn scripts() -> Vec<(String, Vec<Input>)> {
    let mut rows = vec![
        ("8 large scripts".to_string(), (0..8).map(large).collect()),
        ("a jump every third".to_string(), vec![jumping()]),
        ("8 switches, 65,528 cases".to_string(), vec![switching()]),
        ("65,535 of one byte, RETURN".to_string(), vec![idle()]),
        ("1,024 chunks".to_string(), vec![chunked()]),
        ("20,000 small scripts".to_string(), small()),
    ];
    for kib in [4, 8, 16, 32, 64] {
        rows.push((format!("straight, {kib} KiB"), vec![straight(kib * 1024)]));
    }
    rows
}

/// All rights, one entry in each pool, and one chunk over all of the code.
fn over(code: Vec<u8>) -> Input {
    Input {
        rights: u32::MAX,
        constants: vec![0],
        names: vec![0],
        tokens: 1,
        op_assignments: 1,
        chunks: vec![chunk(0, code.len())],
        code,
        ..Input::default()
    }
}

fn chunk(entry: usize, end: usize) -> Chunk {
    Chunk {
        entry: entry as u32,
        end: end as u32,
        declared: u16::MAX,
    }
}

/// Statements and expressions of all sorts, just below the most that a code can hold.
fn large(seed: u64) -> Input {
    generator::large(&mut Rng::new(seed), 60_000)
}

/// 9,361 branches, each to the beginning of any group of three.
fn jumping() -> Input {
    const GROUPS: usize = 9_361;
    const BYTES: usize = 7;
    let mut rng = Rng::new(3);
    let mut code = Vec::new();
    for _ in 0..GROUPS {
        let target = (BYTES * rng.below(GROUPS)) as u32;
        code.extend([tag::TICK, tag::TRUE, tag::JUMP_IF_TRUE]);
        code.extend(target.to_le_bytes());
    }
    code.extend([tag::UNIT, tag::RETURN]);
    over(code)
}

/// Eight switches with arms all over the code, which is idle between them.
fn switching() -> Input {
    const SWITCHES: usize = 8;
    const CASES: usize = 8_191;
    const IDLE: usize = 8_000;
    let head = [tag::TRUE, tag::SWITCH, 0, 0];
    let mut rng = Rng::new(8);
    let mut place = || {
        let group = rng.below(SWITCHES) * (head.len() + IDLE);
        (group + head.len() + rng.below(IDLE)) as u32
    };
    let mut code = Vec::new();
    let (mut switches, mut cases) = (Vec::new(), Vec::new());
    for number in 0..SWITCHES {
        code.extend([tag::TRUE, tag::SWITCH, number as u8, 0]);
        code.extend([tag::TICK; IDLE]);
        switches.extend([(number * CASES) as u32, CASES as u32, 0, 0, place()]);
        (0..CASES).for_each(|_| cases.extend([place(), 0]));
    }
    code.extend([tag::UNIT, tag::RETURN]);
    Input {
        switches,
        cases,
        ..over(code)
    }
}

fn idle() -> Input {
    let mut code = vec![tag::TICK; 65_534];
    code.extend([tag::UNIT, tag::RETURN]);
    over(code)
}

/// 64 bytes for each chunk, with one branch to its end.
fn chunked() -> Input {
    const CHUNKS: usize = 1_024;
    const BYTES: usize = 64;
    let mut code = Vec::new();
    for number in 0..CHUNKS {
        let last = (number * BYTES + BYTES - 2) as u32;
        code.extend([tag::TRUE, tag::JUMP_IF_TRUE]);
        code.extend(last.to_le_bytes());
        code.extend([tag::TICK; BYTES - 8]);
        code.extend([tag::UNIT, tag::RETURN]);
    }
    let spans = (0..CHUNKS).map(|number| chunk(number * BYTES, (number + 1) * BYTES));
    Input {
        chunks: spans.collect(),
        ..over(code)
    }
}

fn small() -> Vec<Input> {
    let script = |seed| {
        let case = generator::case_of("balanced", seed).expect("a family of the generator");
        case.input
    };
    (0..20_000).map(script).collect()
}

/// Assignments in a row, with a branch forward in every ninth instruction.
fn straight(bytes: usize) -> Input {
    let block = [
        &[tag::LOAD_CONST, 0, 0][..],
        &[tag::STORE_LOCAL, 1, 0],
        &[tag::LOAD_LOCAL, 1, 0],
        &[tag::LOAD_NAMED, 0, 0],
        &[tag::CALL_OP, 0, 0, 2, 0, 0],
        &[tag::STORE_LOCAL, 2, 0],
        &[tag::TICK, tag::TRUE, tag::JUMP_IF_FALSE],
    ]
    .concat();
    const TARGET: usize = 4;
    let mut code = Vec::new();
    while code.len() + block.len() + TARGET + 2 <= bytes {
        code.extend(&block);
        let next = (code.len() + TARGET) as u32;
        code.extend(next.to_le_bytes());
    }
    code.extend([tag::UNIT, tag::RETURN]);
    over(code)
}

// ---------------------------------------------------------------------------------------------
// The verifiers
// ---------------------------------------------------------------------------------------------

/// A script with everything made that is not to be timed.
struct Prepared<'a> {
    input: &'a Input,
    verdict: Verdict,
    /// What the original answers, where it is there.
    #[cfg(original)]
    heights: Vec<u16>,
    memory: Memory,
    #[cfg(original)]
    translated: oracle::original::Translated<'a>,
}

impl<'a> Prepared<'a> {
    fn of(input: &'a Input) -> Self {
        let mut memory = Memory::new(Room::exact(input));
        let verdict = rules::verify(input, memory.lend());
        assert_eq!(verdict.kind, 0, "every script here is accepted");
        Prepared {
            input,
            verdict,
            #[cfg(original)]
            heights: memory.heights.lent().to_vec(),
            memory,
            #[cfg(original)]
            translated: oracle::original::Translated::of(input).expect("its tables are sound"),
        }
    }
}

/// A verifier under the clock, with what it answers held against the oracle's answer.
type Timed = fn(&mut Prepared);

#[cfg(library)]
const LIBRARY: Option<Timed> = Some(|script| {
    let verdict = library::verify(black_box(script.input), script.memory.lend());
    assert_eq!(verdict, script.verdict);
});
#[cfg(not(library))]
const LIBRARY: Option<Timed> = None;

const TUNED: Option<Timed> = Some(|script| {
    let verdict = tuned::verify(black_box(script.input), script.memory.lend());
    assert_eq!(verdict, script.verdict);
});

/// The original answers heights and no counts.
#[cfg(original)]
const ORIGINAL: Option<Timed> = Some(|script| {
    let heights = black_box(&script.translated).verify();
    assert_eq!(heights.as_ref(), Ok(&script.heights));
});
#[cfg(not(original))]
const ORIGINAL: Option<Timed> = None;

/// The rest of a row: counts, best times and their ratios.
fn measured(scripts: &mut [Prepared], rounds: usize) -> String {
    let verifiers = [LIBRARY, TUNED, ORIGINAL];
    let mut best = [None; 3];
    for round in 0..rounds {
        // Who begins changes, so that nobody always finds the caches as the same one left them.
        for turn in 0..verifiers.len() {
            let number = (round + turn) % verifiers.len();
            let Some(timed) = verifiers[number] else {
                continue;
            };
            let begun = Instant::now();
            scripts.iter_mut().for_each(timed);
            let time = begun.elapsed();
            best[number] = Some(best[number].map_or(time, |least: Duration| least.min(time)));
        }
    }
    let sum = |count: fn(&Verdict) -> u64| scripts.iter().map(|one| count(&one.verdict)).sum();
    let instructions: u64 = sum(|verdict| verdict.instructions);
    let items: u64 = sum(|verdict| verdict.taken);
    let [library, tuned, original] = best.map(|time| time.map(|time| time.as_nanos() as f64));
    let each = |time: Option<f64>| shown(time.map(|time| time / instructions as f64));
    let ratio = |over: Option<f64>| shown(library.zip(over).map(|(one, other)| one / other));
    format!(
        "{instructions:>12} {items:>10} {:>9} {:>9} {:>9} {:>9} {:>9}",
        each(library),
        each(tuned),
        each(original),
        ratio(tuned),
        ratio(original)
    )
}

fn shown(number: Option<f64>) -> String {
    number.map_or("-".to_string(), |number| format!("{number:.2}"))
}
