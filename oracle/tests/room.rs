//! The room that is advised to callers is enough: lent so much, no script is refused for want of
//! it, and the answer is the one that it gets in any room that is enough.
//!
//! The function is taken from the package for callers in Rust. A test of that package holds the
//! header's against it.

#[path = "../src/library.rs"]
#[allow(dead_code)] // the call over flat spans is compared elsewhere
mod library;

#[path = "../../rust/src/room.rs"]
#[allow(dead_code)] // nobody here bounds the room
mod advised;

use oracle::compare::Memory;
use oracle::generator::{self, Room};
use oracle::input::{Input, Verdict, Verifier};
use oracle::oracle as rules;
use oracle::tables::tag;

/// Seeds that stand in no other run.
const SEEDS: std::ops::Range<u64> = 1 << 42..(1 << 42) + 200_000;

/// More elements than this are not lent. The few scripts with so many arms are left out.
const MOST: usize = 1 << 18;

fn advised(input: &Input) -> Room {
    let advised::Room {
        marks,
        heights,
        records,
        work,
    } = advised::Room::for_code(&input.code, &input.switches, input.chunks.len());
    Room {
        marks,
        heights,
        records,
        work,
    }
}

fn answer(verifier: &Verifier, input: &Input, room: Room) -> Verdict {
    verifier(input, Memory::new(room).lend())
}

#[test]
fn no_generated_script_needs_more() {
    let (mut accepted, mut left_out) = (0, 0);
    for seed in SEEDS {
        let input = generator::case(seed).input;
        let room = advised(&input);
        if room.records.max(room.work) > MOST {
            left_out += 1;
            continue;
        }
        let verdict = answer(&library::verify, &input, room);
        assert_ne!(verdict.kind, 3, "seed {seed} in {room:?}: {verdict:?}");
        let ample = answer(&rules::verify, &input, Room::ample(&input));
        assert_eq!(verdict, ample, "seed {seed} in {room:?}");
        accepted += u64::from(verdict.kind == 0);
    }
    assert!(accepted >= 80_000, "{accepted} accepted");
    assert!(left_out <= 2_000, "{left_out} left out");
}

/// One chunk over all of a code, and a switch of one case, two ranges and a default.
fn over(code: Vec<u8>) -> Input {
    Input {
        constants: vec![0],
        switches: vec![0, 1, 0, 2, 0],
        cases: vec![0, 0],
        ranges: vec![0, 0],
        ..Input::over(code)
    }
}

/// Codes that need all of one buffer: of jumps, of one switch, and of instructions that are one byte
/// wide.
#[test]
fn some_scripts_need_all_of_it() {
    let jumps = over([tag::JUMP, 0, 0, 0, 0].repeat(13_107));
    let switch = over(vec![tag::SWITCH, 0, 0]);
    let idle = over(vec![tag::TICK; 65_536]);
    for (buffer, input) in [(3, jumps), (3, switch), (4, idle)] {
        let mut room = advised(&input);
        assert_ne!(answer(&library::verify, &input, room).kind, 3);
        let needed = *room.size(buffer) as u64;
        *room.size(buffer) -= 1;
        let verdict = answer(&library::verify, &input, room);
        let told = (verdict.kind, verdict.p, verdict.q);
        assert_eq!(told, (3, needed, buffer as u64));
    }
}
