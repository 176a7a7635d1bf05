//! Wrong verifiers, each with one error. A comparison that lets one of them pass over its
//! run is worth nothing, so they are what the comparison itself is tested with.

mod memory;

use crate::compare::{Memory, Open};
use crate::input::{Chunk, Input, Verdict, NO_CHUNK};
use crate::oracle::{self, Slips};

/// A wrong verifier and what is wrong with it.
pub struct Mock {
    pub name: String,
    pub ask: Box<Open<'static>>,
}

/// All of them.
pub fn all() -> Vec<Mock> {
    let groups = [
        slips(),
        frauds(),
        misread_rights(),
        misread_tables(),
        wrong_answers(),
        wrong_details(),
        wrong_numbers(),
        wrong_counts(),
        memory::all(),
    ];
    groups.into_iter().flatten().collect()
}

fn mock(name: &str, ask: impl Fn(&mut Input, &mut Memory) -> Verdict + 'static) -> Mock {
    Mock {
        name: name.to_string(),
        ask: Box::new(ask),
    }
}

/// A call of the oracle: what it was given, the memory before it, the memory after it.
struct Call<'a> {
    input: &'a Input,
    before: &'a Memory,
    after: &'a mut Memory,
}

/// The oracle, with its answer or its memory changed afterwards.
fn patched(name: &str, patch: impl Fn(Call, &mut Verdict) + 'static) -> Mock {
    mock(name, move |input, memory| {
        let before = memory.clone();
        let mut verdict = oracle::verify(input, memory.lend());
        let call = Call {
            input,
            before: &before,
            after: memory,
        };
        patch(call, &mut verdict);
        verdict
    })
}

/// The oracle, asked about something else than what was given.
fn asked(name: &str, change: impl Fn(&mut Input) + 'static) -> Mock {
    mock(name, move |input, memory| {
        let mut other = input.clone();
        change(&mut other);
        oracle::verify(&other, memory.lend())
    })
}

/// Whether the answer is one of those that come before any store.
fn early(verdict: &Verdict) -> bool {
    matches!((verdict.kind, verdict.q), (1 | 2, _) | (3, 1 | 2))
}

/// Whether the answer is a refusal that comes after stores.
fn late_refusal(verdict: &Verdict) -> bool {
    verdict.kind != 0 && !early(verdict)
}

macro_rules! each_slip {
    ($($slip:ident)*) => {{
        let all = [$((stringify!($slip), Slips { $slip: true, ..Slips::default() })),*];
        // A slip that is not listed here would go untested.
        assert_eq!(all.len() + SILENT, std::mem::size_of::<Slips>());
        all
    }};
}

/// Slips that no answer tells: `height_at_only`, since the depth just after an instruction is
/// the depth at the one that follows, and where none follows it is less than the depth before.
const SILENT: usize = 1;

/// The wrong readings that are built into the oracle.
fn slips() -> Vec<Mock> {
    let slips = each_slip!(
        operands_only_at_merge
        rights_over_unreached
        indices_over_reached_only
        pushes_before_pops
        iter_next_target_first
        default_not_in_t
        range_tested_after_start
        fall_through_pushed_first
        iter_next_exit_one_deeper
        reached_counts_dropped
        first_plus_count_wraps_32
        kind_8_missing
        chain_steps_skipped
        limit_off_by_one
    );
    let with = |(name, slips): (&str, Slips)| {
        mock(name, move |input, memory| {
            oracle::verify_with(&slips, input, memory.lend())
        })
    };
    slips.into_iter().map(with).collect()
}

/// Verifiers that do not verify.
fn frauds() -> Vec<Mock> {
    vec![
        mock("refuses everything", |_, memory| {
            clear(memory);
            Verdict::refused(13, 0, 0, 0, 0)
        }),
        patched("one height always", |call, verdict| {
            let stored = stored(call.input, verdict);
            call.after.heights.lent()[..stored].fill(1);
        }),
        patched("stores nothing", |call, _| {
            call.after.clone_from(call.before);
        }),
        mock("judges only the first chunk", |input, memory| {
            only_first(input, memory)
        }),
        patched("invents counts", |_, verdict| {
            if verdict.kind == 0 {
                verdict.reached = verdict.instructions;
                verdict.taken = verdict.instructions + 1;
            }
        }),
        mock("accepts everything", |input, memory| {
            let verdict = oracle::verify(input, memory.lend());
            match verdict.kind {
                0 => verdict,
                _ => Verdict::accepted(0, 0, 0),
            }
        }),
    ]
}

fn clear(memory: &mut Memory) {
    let lent = memory.lend();
    lent.marks.fill(0);
    lent.records.fill(0);
    lent.work.fill(0);
}

/// How many heights an answer stands for.
fn stored(input: &Input, verdict: &Verdict) -> usize {
    match verdict.kind {
        0 => input.chunks.len(),
        _ if verdict.chunk == NO_CHUNK => 0,
        _ => verdict.chunk as usize,
    }
}

/// The first chunk's height and counts stand for all.
fn only_first(input: &Input, memory: &mut Memory) -> Verdict {
    let whole = oracle::verify(input, memory.clone().lend());
    if early(&whole) || input.chunks.is_empty() {
        return oracle::verify(input, memory.lend());
    }
    let mut first = input.clone();
    first.chunks.truncate(1);
    let verdict = oracle::verify(&first, memory.lend());
    if verdict.kind == 0 {
        let heights = memory.heights.lent();
        let height = heights[0];
        heights[..input.chunks.len()].fill(height);
    }
    verdict
}

/// Rights that are asked wrongly or not at all.
fn misread_rights() -> Vec<Mock> {
    vec![
        asked("only the flag 1 makes a name qualified", |input| {
            let names = input.names.iter_mut();
            names.for_each(|flag| *flag = u8::from(*flag == 1));
        }),
        asked("no name is qualified", |input| input.names.fill(0)),
        asked("rights have 17 bits", |input| input.rights |= !0x1_ffff),
        asked("functions need no right", |input| input.functions = 0),
        asked("constants need no right", |input| input.constants.fill(0)),
        asked("only the first constant needs rights", |input| {
            input
                .constants
                .iter_mut()
                .skip(1)
                .for_each(|word| *word = 0);
        }),
    ]
}

/// Tables and chunks that are looked at wrongly or not at all.
fn misread_tables() -> Vec<Mock> {
    vec![
        asked("any height may be declared", |input| {
            input
                .chunks
                .iter_mut()
                .for_each(|chunk| chunk.declared = u16::MAX);
        }),
        asked("the height has to be below the declared", |input| {
            let lower = |chunk: &mut Chunk| {
                chunk.declared = chunk.declared.saturating_sub(1);
            };
            input.chunks.iter_mut().for_each(lower);
        }),
        asked("a case's constant is not tested", |input| {
            let words = input.cases.iter_mut();
            words.skip(1).step_by(2).for_each(|constant| *constant = 0);
        }),
        asked("a chain's operands have 16 bits", |input| {
            let words = input.chains.iter_mut();
            words
                .skip(2)
                .step_by(7)
                .for_each(|operands| *operands &= 0xffff);
        }),
        asked("tokens are counted in 32 bits", |input| {
            input.tokens &= u64::from(u32::MAX);
        }),
        asked("ragged tables pass", |input| {
            whole(&mut input.chains, 7);
            whole(&mut input.steps, 4);
            whole(&mut input.switches, 5);
            whole(&mut input.cases, 2);
        }),
    ]
}

/// Drops the words that make no whole entry.
fn whole(table: &mut Vec<u32>, words: usize) {
    table.truncate(table.len() / words * words);
}

/// Fields of the answer that belong to another answer.
fn wrong_answers() -> Vec<Mock> {
    vec![
        patched("accepts with chunk 0", |_, verdict| {
            if verdict.kind == 0 {
                verdict.chunk = 0;
            }
        }),
        patched("refuses with no chunk", |_, verdict| {
            verdict.chunk = NO_CHUNK;
        }),
        patched("refuses with the instructions counted", |call, verdict| {
            if late_refusal(verdict) {
                verdict.instructions = oracle::listing(&call.input.code).0.len() as u64;
            }
        }),
        patched("says where the end is fallen off", |call, verdict| {
            if verdict.kind == 13 {
                verdict.at = call.input.chunks[verdict.chunk as usize].end.into();
            }
        }),
        patched("says where a chunk begins", |call, verdict| {
            if matches!(verdict.kind, 7 | 8 | 14) {
                verdict.at = call.input.chunks[verdict.chunk as usize].entry.into();
            }
        }),
    ]
}

/// Places and words that are left out, exchanged, or given in part.
fn wrong_details() -> Vec<Mock> {
    vec![
        patched("never says where", |_, verdict| verdict.at = 0),
        patched("p and q exchanged", |_, verdict| {
            std::mem::swap(&mut verdict.p, &mut verdict.q);
        }),
        patched("a constant's missing rights only", |call, verdict| {
            if verdict.kind == 4 && verdict.chunk == NO_CHUNK {
                verdict.p &= u64::from(!call.input.rights);
            }
        }),
        patched("all rights that an instruction needs", |call, verdict| {
            if verdict.kind == 4 && verdict.chunk != NO_CHUNK {
                let (code, at) = (&call.input.code, verdict.at as usize);
                verdict.p = oracle::required_caps(code[at], code, at, call.input).into();
            }
        }),
    ]
}

/// Numbers that are counted from elsewhere or in too few bits.
fn wrong_numbers() -> Vec<Mock> {
    vec![
        patched("limits numbered as the arguments are", |_, verdict| {
            if verdict.kind == 1 {
                const NUMBERS: [u64; 11] = [9, 1, 2, 3, 4, 6, 8, 10, 5, 7, 11];
                verdict.p = NUMBERS[verdict.p as usize - 1];
            }
        }),
        patched("entries counted from 1", |_, verdict| {
            verdict.q += u64::from(verdict.kind == 2);
        }),
        patched("room in 32 bits", |_, verdict| {
            verdict.p &= u64::from(u32::MAX);
        }),
        patched("operands in 16 bits", |_, verdict| {
            if verdict.kind == 12 {
                verdict.p &= 0xffff;
            }
        }),
        patched("room counted in bytes", |_, verdict| {
            if verdict.kind == 3 {
                verdict.p *= 4;
            }
        }),
    ]
}

fn wrong_counts() -> Vec<Mock> {
    vec![
        patched("taken counts edges only", |call, verdict| {
            if verdict.kind == 0 {
                verdict.taken -= call.input.chunks.len() as u64;
            }
        }),
        patched("taken counts no item that is dropped", |_, verdict| {
            verdict.taken = verdict.reached;
        }),
        patched("instructions counted in bytes", |call, verdict| {
            if verdict.kind == 0 {
                verdict.instructions = call.input.code.len() as u64;
            }
        }),
    ]
}
