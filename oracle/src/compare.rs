//! Asks the oracle and another verifier the same, and holds the answers and all lent memory
//! against each other.
//!
//! What is lent holds a pattern before the call and lies between guards, so that a verifier
//! that relies on zeros, forgets to clear, or writes beside its buffers is found out.

use crate::generator::{self, Case, Room, Tally};
use crate::input::{Input, Lent, Verdict, Verifier};
use crate::oracle;
use std::fmt;

/// Elements before and behind each buffer that nobody may touch.
pub const GUARD: usize = 3;

/// An element of a buffer.
pub trait Cell: Copy + PartialEq + Into<u64> {
    fn of(word: u64) -> Self;
}

impl Cell for u16 {
    fn of(word: u64) -> u16 {
        word as u16
    }
}

impl Cell for u32 {
    fn of(word: u64) -> u32 {
        word as u32
    }
}

impl Cell for u64 {
    fn of(word: u64) -> u64 {
        word
    }
}

/// What a cell holds before a call: never 0 in any width, never a small number, and not the
/// same as its neighbours.
fn pattern<T: Cell>(at: usize) -> T {
    let word = (at as u64 + 1).wrapping_mul(0x9e37_79b9_7f4a_7c15);
    T::of(word | 0x8000_0000_8000_8000)
}

/// One buffer between its guards.
#[derive(Clone, Debug, PartialEq, Eq)]
pub struct Buffer<T> {
    cells: Vec<T>,
}

impl<T: Cell> Buffer<T> {
    pub fn new(len: usize) -> Buffer<T> {
        Buffer {
            cells: (0..len + 2 * GUARD).map(pattern).collect(),
        }
    }

    /// What is lent.
    pub fn lent(&mut self) -> &mut [T] {
        let end = self.cells.len() - GUARD;
        &mut self.cells[GUARD..end]
    }

    /// The buffer with its guards, for those who break the rules.
    pub fn with_guards(&mut self) -> &mut [T] {
        &mut self.cells
    }

    /// Puts back what `before` holds from the element `from` on.
    pub fn put_back(&mut self, before: &Buffer<T>, from: usize) {
        let end = self.cells.len() - GUARD;
        let from = (GUARD + from).min(end);
        self.cells[from..end].copy_from_slice(&before.cells[from..end]);
    }

    /// The first cell that is not as the oracle left it.
    fn differs(&self, oracle: &Buffer<T>, buffer: &'static str) -> Result<(), Difference> {
        let mut pairs = self.cells.iter().zip(&oracle.cells);
        let Some(at) = pairs.position(|(one, other)| one != other) else {
            return Ok(());
        };
        let end = self.cells.len() - GUARD;
        Err(Difference::Element {
            buffer,
            at: at as isize - GUARD as isize,
            guard: !(GUARD..end).contains(&at),
            oracle: oracle.cells[at].into(),
            subject: self.cells[at].into(),
        })
    }
}

/// The memory of one call.
#[derive(Clone, Debug, PartialEq, Eq)]
pub struct Memory {
    pub marks: Buffer<u64>,
    pub heights: Buffer<u16>,
    pub records: Buffer<u32>,
    pub work: Buffer<u32>,
}

impl Memory {
    pub fn new(room: Room) -> Memory {
        Memory {
            marks: Buffer::new(room.marks),
            heights: Buffer::new(room.heights),
            records: Buffer::new(room.records),
            work: Buffer::new(room.work),
        }
    }

    pub fn lend(&mut self) -> Lent<'_> {
        Lent {
            marks: self.marks.lent(),
            heights: self.heights.lent(),
            records: self.records.lent(),
            work: self.work.lent(),
        }
    }

    fn differs(&self, oracle: &Memory) -> Result<(), Difference> {
        self.marks.differs(&oracle.marks, "marks")?;
        self.heights.differs(&oracle.heights, "heights")?;
        self.records.differs(&oracle.records, "records")?;
        self.work.differs(&oracle.work, "work")
    }
}

/// The first thing in which two calls differ.
#[derive(Clone, Debug, PartialEq, Eq)]
pub enum Difference {
    /// A field of the verdict.
    Field {
        name: &'static str,
        oracle: u64,
        subject: u64,
    },
    /// An element of a buffer, or a guard beside it.
    Element {
        buffer: &'static str,
        /// Counted from the first element lent; below 0 before it.
        at: isize,
        guard: bool,
        oracle: u64,
        subject: u64,
    },
    /// What was only lent to be read.
    Input,
}

impl fmt::Display for Difference {
    fn fmt(&self, f: &mut fmt::Formatter) -> fmt::Result {
        match self {
            Difference::Field {
                name,
                oracle,
                subject,
            } => write!(
                f,
                "{name}: {oracle} by the oracle, {subject} by the subject"
            ),
            Difference::Element {
                buffer,
                at,
                guard,
                oracle,
                subject,
            } => {
                let guard = if *guard { " (a guard)" } else { "" };
                write!(f, "{buffer}[{at}]{guard}: {oracle:#x} after the oracle, ")?;
                write!(f, "{subject:#x} after the subject")
            }
            Difference::Input => write!(f, "the subject changed its input"),
        }
    }
}

/// A verifier that is handed more than it should get: what it reads as if it could be
/// written, and its memory with the guards. Wrong verifiers need this to do their worst.
pub type Open<'a> = dyn Fn(&mut Input, &mut Memory) -> Verdict + 'a;

/// Asks both. The answer of the oracle, if the subject's is the same in every respect.
pub fn run(case: &Case, subject: &Verifier) -> Result<Verdict, Difference> {
    run_open(case, &|input, memory| subject(input, memory.lend()))
}

/// `run` for a subject that is handed everything.
pub fn run_open(case: &Case, subject: &Open) -> Result<Verdict, Difference> {
    let mut ours = Memory::new(case.room);
    let verdict = oracle::verify(&case.input, ours.lend());
    let mut theirs = Memory::new(case.room);
    let mut input = case.input.clone();
    let answer = subject(&mut input, &mut theirs);
    same_verdict(&verdict, &answer)?;
    theirs.differs(&ours)?;
    if input != case.input {
        return Err(Difference::Input);
    }
    Ok(verdict)
}

/// The seed of a case, and what differed in it.
#[derive(Clone, Debug, PartialEq, Eq)]
pub struct Finding {
    pub seed: u64,
    pub difference: Difference,
}

impl fmt::Display for Finding {
    fn fmt(&self, f: &mut fmt::Formatter) -> fmt::Result {
        write!(f, "seed {}: {}", self.seed, self.difference)
    }
}

/// Runs over the mixed cases of these seeds, up to the first difference. The answers are
/// counted, so that the caller can see that the run had something of everything.
pub fn sweep(seeds: impl IntoIterator<Item = u64>, subject: &Verifier) -> Result<Tally, Finding> {
    let mut tally = Tally::default();
    for seed in seeds {
        let case = generator::case(seed);
        let verdict = run(&case, subject).map_err(|difference| Finding { seed, difference })?;
        tally.add(&case, &verdict);
    }
    Ok(tally)
}

fn same_verdict(verdict: &Verdict, answer: &Verdict) -> Result<(), Difference> {
    for ((name, oracle), (_, subject)) in fields(verdict).into_iter().zip(fields(answer)) {
        if oracle != subject {
            return Err(Difference::Field {
                name,
                oracle,
                subject,
            });
        }
    }
    Ok(())
}

/// The eight fields in their order.
fn fields(verdict: &Verdict) -> [(&'static str, u64); 8] {
    [
        ("kind", verdict.kind.into()),
        ("chunk", verdict.chunk.into()),
        ("at", verdict.at),
        ("p", verdict.p),
        ("q", verdict.q),
        ("instructions", verdict.instructions),
        ("reached", verdict.reached),
        ("taken", verdict.taken),
    ]
}
