//! Document 01's bench cases with the answers to them, for whoever is asked.

use crate::input::{Input, Verdict, NO_CHUNK};

/// An input, and all that a right verifier has to say and to leave.
#[derive(Clone, Debug)]
pub struct Bench {
    pub name: &'static str,
    pub input: Input,
    pub verdict: Verdict,
    /// The heights that are stored, from the first chunk on.
    pub heights: Vec<u16>,
    /// The starts that are marked.
    pub starts: Vec<usize>,
}

/// All of them, in document 01's order.
pub fn cases() -> Vec<Bench> {
    let iteration = "01 09 3c 0d 00 00 00 04 38 02 00 00 00 01 07";
    let mut all = vec![
        accepted("P1", over("01 07"), (2, 2, 2), 1, &[0, 1]),
        refused("P2", declared("01 07", 0), (14, 0, 0, 1, 0)),
        refused("P3", over("07"), (12, 0, 0, 1, 0)),
        refused("P4", over("01"), (13, 0, 0, 0, 0)),
        refused("P5", over(""), (13, 0, 0, 0, 0)),
        accepted("P6", over("38 00 00 00 00"), (1, 1, 2), 0, &[0]),
        refused("P6 to 1", over("38 01 00 00 00"), (10, 0, 0, 1, 0)),
        refused("P6 to 5", over("38 05 00 00 00"), (9, 0, 0, 5, 0)),
        refused("P7", over("3c ff ff ff ff"), (15, 0, 0, 0, 0)),
        accepted(
            "P8",
            over(iteration),
            (7, 7, 8),
            1,
            &[0, 1, 2, 7, 8, 13, 14],
        ),
        refused("P9", over("3d 06 00 00 00 0e 01 07"), (11, 0, 6, 0, 0)),
        accepted(
            "P10",
            over("3d 05 00 00 00 0e 01 07"),
            (4, 4, 5),
            1,
            &[0, 5, 6, 7],
        ),
        refused("P11", misaligned(), (8, 0, 0, 1, 0)),
    ];
    all.extend(of_rights());
    all.extend([
        refused("no tag", over("00"), (5, NO_CHUNK, 0, 0, 0)),
        refused("cut off", over("24 00"), (5, NO_CHUNK, 0, 0, 0)),
        refused(
            "an index in no chunk",
            spanned("01 07 24 00 00", 0, 2),
            (6, NO_CHUNK, 2, 0, 1),
        ),
        accepted("not reached", over("01 07 0f"), (3, 2, 2), 1, &[0, 1, 2]),
        accepted(
            "an end inside an instruction",
            spanned("38 00 00 00 00", 0, 3),
            (1, 1, 2),
            0,
            &[0],
        ),
        accepted(
            "pops before pushes",
            over("01 0d 07"),
            (3, 3, 3),
            1,
            &[0, 1, 2],
        ),
    ]);
    all
}

/// P12.
fn of_rights() -> [Bench; 2] {
    let instruction = Input {
        rights: 32,
        ..over("01 16 00 07")
    };
    let constant = Input {
        rights: 256,
        constants: vec![768],
        ..over("01 07")
    };
    [
        refused("P12", instruction, (4, 0, 1, 64, 0)),
        refused("P12, a constant", constant, (4, NO_CHUNK, 0, 768, 0)),
    ]
}

/// P11: its entry lies inside an instruction.
pub fn misaligned() -> Input {
    Input {
        constants: vec![0; 1_794],
        ..spanned("24 01 07", 1, 3)
    }
}

fn over(text: &str) -> Input {
    Input::over(bytes(text))
}

/// The bytes written in `text`.
pub fn bytes(text: &str) -> Vec<u8> {
    let byte = |two| u8::from_str_radix(two, 16).expect("two digits");
    text.split_whitespace().map(byte).collect()
}

fn spanned(text: &str, entry: u32, end: u32) -> Input {
    Input::spanned(bytes(text), entry, end)
}

fn declared(text: &str, declared: u16) -> Input {
    let mut input = over(text);
    input.chunks[0].declared = declared;
    input
}

/// Counts: instructions, reached, taken.
fn accepted(
    name: &'static str,
    input: Input,
    (instructions, reached, taken): (u64, u64, u64),
    height: u16,
    starts: &[usize],
) -> Bench {
    Bench {
        name,
        input,
        verdict: Verdict::accepted(instructions, reached, taken),
        heights: vec![height],
        starts: starts.to_vec(),
    }
}

/// Kind, chunk, at, p, q. None of the cases has a good chunk before a refused one.
fn refused(
    name: &'static str,
    input: Input,
    (kind, chunk, at, p, q): (u32, u32, u64, u64, u64),
) -> Bench {
    Bench {
        name,
        input,
        verdict: Verdict::refused(kind, chunk, at, p, q),
        heights: vec![],
        starts: vec![],
    }
}
