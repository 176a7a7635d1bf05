//! Verifiers that answer right and leave the memory wrong.

use super::{early, late_refusal, mock, patched, stored, Mock};
use crate::compare::{Memory, GUARD};
use crate::input::{Chunk, Input, NO_CHUNK};
use crate::oracle;

pub fn all() -> Vec<Mock> {
    let groups = [
        uncleared_marks(),
        wrong_marks(),
        wrong_heights(),
        stray_heights(),
        uncleared_buffers(),
        uncleared_calls(),
        hasty(),
        trespassers(),
        meddlers(),
    ];
    groups.into_iter().flatten().collect()
}

fn uncleared_marks() -> Vec<Mock> {
    vec![
        patched("starts stay after a refusal", |call, verdict| {
            if late_refusal(verdict) {
                mark_starts(call.input, call.after.marks.lent());
            }
        }),
        patched("marks are not cleared after a refusal", |call, verdict| {
            if late_refusal(verdict) {
                call.after.marks.put_back(&call.before.marks, 0);
            }
        }),
        patched("marks past the needed words stay", |call, _| {
            let needed = call.input.code.len() / 64 + 1;
            call.after.marks.put_back(&call.before.marks, needed);
        }),
        patched("a last word without a bit stays", |call, _| {
            if call.input.code.len() % 64 == 0 {
                let last = call.input.code.len() / 64;
                call.after.marks.put_back(&call.before.marks, last);
            }
        }),
    ]
}

fn wrong_marks() -> Vec<Mock> {
    vec![
        patched("the code's end is marked", |call, verdict| {
            if verdict.kind == 0 {
                let len = call.input.code.len();
                call.after.marks.lent()[len / 64] |= 1 << (len % 64);
            }
        }),
        patched("only starts in chunks are marked", |call, _| {
            let marks = call.after.marks.lent();
            for at in 0..call.input.code.len() {
                let holds =
                    |chunk: &Chunk| (chunk.entry as usize..chunk.end as usize).contains(&at);
                if !call.input.chunks.iter().any(holds) {
                    marks[at / 64] &= !(1 << (at % 64));
                }
            }
        }),
    ]
}

/// What the first pass has marked when it is over, or when it stops.
fn mark_starts(input: &Input, marks: &mut [u64]) {
    for (at, _, _) in oracle::listing(&input.code).0 {
        marks[at / 64] |= 1 << (at % 64);
    }
}

fn wrong_heights() -> Vec<Mock> {
    vec![
        patched("declared heights are stored", |call, verdict| {
            let stored = stored(call.input, verdict);
            let heights = call.after.heights.lent();
            for (height, chunk) in heights[..stored].iter_mut().zip(&call.input.chunks) {
                *height = chunk.declared;
            }
        }),
        patched("the greatest height stands for all", |call, verdict| {
            let stored = stored(call.input, verdict);
            let heights = &mut call.after.heights.lent()[..stored];
            let greatest = heights.iter().max().copied();
            heights.fill(greatest.unwrap_or(0));
        }),
        patched("a height over the declared is stored", |call, verdict| {
            if verdict.kind == 14 {
                call.after.heights.lent()[verdict.chunk as usize] = verdict.p as u16;
            }
        }),
        patched("the refused chunk gets a height", |call, verdict| {
            if verdict.kind != 0 && verdict.chunk != NO_CHUNK {
                call.after.heights.lent()[verdict.chunk as usize] = 0;
            }
        }),
    ]
}

/// Heights that are touched where they have to stay, or stay where they are touched.
fn stray_heights() -> Vec<Mock> {
    vec![
        patched(
            "heights before a refusal are taken back",
            |call, verdict| {
                if verdict.kind != 0 {
                    call.after.heights.put_back(&call.before.heights, 0);
                }
            },
        ),
        patched(
            "heights behind a refused chunk are cleared",
            |call, verdict| {
                if verdict.kind != 0 && verdict.chunk != NO_CHUNK {
                    let behind = verdict.chunk as usize + 1;
                    call.after.heights.lent()[behind..].fill(0);
                }
            },
        ),
        patched("heights past the chunks are cleared", |call, verdict| {
            if verdict.kind == 0 {
                call.after.heights.lent()[call.input.chunks.len()..].fill(0);
            }
        }),
        patched("heights are cleared before the chunks", |call, verdict| {
            if late_refusal(verdict) && verdict.chunk == NO_CHUNK {
                call.after.heights.lent().fill(0);
            }
        }),
    ]
}

/// Records and work that keep something.
fn uncleared_buffers() -> Vec<Mock> {
    vec![
        patched("records stay after acceptance", |call, verdict| {
            if verdict.kind == 0 {
                call.after.records.put_back(&call.before.records, 0);
            }
        }),
        patched("records stay after a refusal", |call, verdict| {
            if verdict.kind != 0 {
                call.after.records.put_back(&call.before.records, 0);
            }
        }),
        patched("the last record stays", |call, _| {
            let last = call.after.records.lent().len().saturating_sub(1);
            call.after.records.put_back(&call.before.records, last);
        }),
        patched("work stays after acceptance", |call, verdict| {
            if verdict.kind == 0 {
                call.after.work.put_back(&call.before.work, 0);
            }
        }),
        patched("work stays after a refusal", |call, verdict| {
            if verdict.kind != 0 {
                call.after.work.put_back(&call.before.work, 0);
            }
        }),
        patched("the last work item stays", |call, _| {
            let last = call.after.work.lent().len().saturating_sub(1);
            call.after.work.put_back(&call.before.work, last);
        }),
    ]
}

/// Calls that end without clearing anything.
fn uncleared_calls() -> Vec<Mock> {
    vec![
        patched("all stays when no chunk is come to", |call, verdict| {
            if late_refusal(verdict) && verdict.chunk == NO_CHUNK {
                call.after.clone_from(call.before);
            }
        }),
        patched("all stays when a chunk finds no room", |call, verdict| {
            if verdict.kind == 3 {
                let heights = call.after.heights.clone();
                call.after.clone_from(call.before);
                call.after.heights = heights;
            }
        }),
    ]
}

/// Stores before the answers that come before any store.
fn hasty() -> Vec<Mock> {
    let mut mocks = Vec::new();
    for kind in 1..=3 {
        let mut add = |what: &str, store: fn(&mut Memory)| {
            let name = format!("{what} cleared before kind {kind}");
            mocks.push(patched(&name, move |call, verdict| {
                if early(verdict) && verdict.kind == kind {
                    store(call.after);
                }
            }));
        };
        add("marks", |memory| memory.marks.lent().fill(0));
        add("heights", |memory| memory.heights.lent().fill(0));
        add("records", |memory| memory.records.lent().fill(0));
        add("work", |memory| memory.work.lent().fill(0));
    }
    mocks
}

/// Writes where nothing was lent.
fn trespassers() -> Vec<Mock> {
    fn touch<T: Copy + Default>(cells: &mut [T], before: bool) {
        let at = if before {
            GUARD - 1
        } else {
            cells.len() - GUARD
        };
        cells[at] = T::default();
    }
    let mut mocks = Vec::new();
    for (side, before) in [("before", true), ("behind", false)] {
        let mut add = |what: &str, store: fn(&mut Memory, bool)| {
            let name = format!("writes {side} the {what}");
            mocks.push(patched(&name, move |call, _| store(call.after, before)));
        };
        add("marks", |memory, before| {
            touch(memory.marks.with_guards(), before)
        });
        add("heights", |memory, before| {
            touch(memory.heights.with_guards(), before)
        });
        add("records", |memory, before| {
            touch(memory.records.with_guards(), before)
        });
        add("work", |memory, before| {
            touch(memory.work.with_guards(), before)
        });
    }
    mocks
}

/// Changes to what was lent to be read only.
fn meddlers() -> Vec<Mock> {
    vec![
        mock("changes the code", |input, memory| {
            let verdict = oracle::verify(input, memory.lend());
            input.code.iter_mut().take(1).for_each(|byte| *byte ^= 1);
            verdict
        }),
        mock("lowers the declared heights", |input, memory| {
            let verdict = oracle::verify(input, memory.lend());
            input.chunks.iter_mut().for_each(|chunk| chunk.declared = 0);
            verdict
        }),
    ]
}
