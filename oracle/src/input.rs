//! What a verifier of chunks is given, what is lent to it, and what it answers.
//!
//! The tables are flat words, as document 01 lays them out. Nothing here is checked: any
//! value of these types is an input that gets an answer.

/// One chunk's span in the code, with the height that its script declares, laid out as at the C
/// boundary.
#[repr(C)]
#[derive(Clone, Copy, Debug, PartialEq, Eq)]
pub struct Chunk {
    pub entry: u32,
    pub end: u32,
    pub declared: u16,
}

/// Everything that a call reads.
#[derive(Clone, Debug, Default, PartialEq, Eq)]
pub struct Input {
    pub rights: u32,
    pub functions: u32,
    /// One rights word for each constant.
    pub constants: Vec<u32>,
    /// One flag byte for each name: not 0 where the name is qualified.
    pub names: Vec<u8>,
    pub tokens: u64,
    pub op_assignments: u64,
    pub chains: Vec<u32>,
    pub steps: Vec<u32>,
    pub switches: Vec<u32>,
    pub cases: Vec<u32>,
    pub ranges: Vec<u32>,
    pub code: Vec<u8>,
    pub chunks: Vec<Chunk>,
}

impl Input {
    /// Document 01's plain case: one chunk over all of the code, declared 9, and nothing else.
    pub fn over(code: Vec<u8>) -> Input {
        let end = code.len() as u32;
        Input::spanned(code, 0, end)
    }

    /// The same with a chunk from an offset to another.
    pub fn spanned(code: Vec<u8>, entry: u32, end: u32) -> Input {
        let declared = 9;
        Input {
            code,
            chunks: vec![Chunk {
                entry,
                end,
                declared,
            }],
            ..Input::default()
        }
    }
}

/// The memory lent to a call, which holds something before it and something fixed after it.
#[derive(Debug)]
pub struct Lent<'a> {
    pub marks: &'a mut [u64],
    pub heights: &'a mut [u16],
    pub records: &'a mut [u32],
    pub work: &'a mut [u32],
}

/// The chunk number of an answer that is about no chunk.
pub const NO_CHUNK: u32 = u32::MAX;

/// The answer, in the numbers of document 01 and laid out as at the C boundary.
#[repr(C)]
#[derive(Clone, Copy, Debug, PartialEq, Eq)]
pub struct Verdict {
    pub kind: u32,
    pub chunk: u32,
    pub at: u64,
    pub p: u64,
    pub q: u64,
    pub instructions: u64,
    pub reached: u64,
    pub taken: u64,
}

impl Verdict {
    /// An acceptance with its three counts.
    pub const fn accepted(instructions: u64, reached: u64, taken: u64) -> Verdict {
        Verdict {
            instructions,
            reached,
            taken,
            ..Verdict::refused(0, NO_CHUNK, 0, 0, 0)
        }
    }

    /// A refusal. Its counts are 0.
    pub const fn refused(kind: u32, chunk: u32, at: u64, p: u64, q: u64) -> Verdict {
        Verdict {
            kind,
            chunk,
            at,
            p,
            q,
            instructions: 0,
            reached: 0,
            taken: 0,
        }
    }
}

/// Anything that can be asked: the oracle, a mock, and the library under test.
pub type Verifier<'a> = dyn Fn(&Input, Lent) -> Verdict + 'a;
