//! What an answer means.

use crate::{right, Verdict};
use std::fmt;

/// An enum whose cases have numbers from 1, and a name to print.
macro_rules! numbered {
    ($(#[$about:meta])* $name:ident { $($case:ident $text:literal,)* }) => {
        $(#[$about])*
        #[derive(Clone, Copy, Debug, PartialEq, Eq)]
        pub enum $name {
            $(#[doc = concat!("The ", $text, ".")] $case,)*
        }

        impl $name {
            const ALL: &'static [$name] = &[$($name::$case,)*];

            /// The case of a number, from 1.
            fn of(number: u64) -> Option<$name> {
                let place = usize::try_from(number.checked_sub(1)?).ok()?;
                $name::ALL.get(place).copied()
            }
        }

        impl fmt::Display for $name {
            fn fmt(&self, f: &mut fmt::Formatter) -> fmt::Result {
                f.write_str(match self { $($name::$case => $text,)* })
            }
        }
    };
}

numbered! {
    /// What there is too much of.
    Limit {
        Code "code",
        Constants "constants",
        Names "names",
        Tokens "tokens",
        OpAssignments "op-assignments",
        Steps "steps",
        Cases "cases",
        Ranges "ranges",
        Chains "chains",
        Switches "switches",
        Chunks "chunks",
    }
}

numbered! {
    /// A table that can be bad.
    Table {
        Chain "chain table",
        Step "step table",
        Switch "switch table",
        Case "case table",
    }
}

numbered! {
    /// A lent buffer.
    Buffer {
        Marks "marks",
        Heights "heights",
        Records "records",
        Work "work",
    }
}

numbered! {
    /// What an index points into.
    Pool {
        Constant "constants",
        Name "names",
        Operator "operators",
        OpAssignment "op-assignments",
        Chain "chains",
        Switch "switches",
        Site "custom syntax sites",
    }
}

/// Each kind of answer with its values. `at` is an offset in the code.
#[derive(Clone, Copy, Debug, PartialEq, Eq)]
#[allow(missing_docs)]
pub enum Kind {
    /// The script is sound.
    Accepted {
        instructions: u64,
        reached: u64,
        taken: u64,
    },
    /// More of something than its limit allows.
    TooLarge { limit: Limit },
    /// A table that is no whole number of entries, in which case `entry` says how many whole ones it
    /// has; or an entry with an unknown root, tail or kind, or with a span past its table.
    BadTable { table: Table, entry: u64 },
    /// A buffer has fewer elements than are needed.
    NoRoom { needed: u64, buffer: Buffer },
    /// Rights lack: those of the instruction at an offset of a chunk that are not there; or, before
    /// the chunks and with `at` 0, all those of a constant, or the right to have functions.
    MissingCaps { at: u64, missing: u32 },
    /// An unknown tag, or operands cut off.
    Undecodable { at: u64 },
    /// An index of the instruction has nothing behind it.
    BadIndex { at: u64, index: u32, pool: Pool },
    /// The chunk does not lie in the code.
    ChunkOutOfRange { entry: u32, end: u32 },
    /// The chunk does not begin at an instruction.
    Misaligned { entry: u32 },
    /// The jump leads out of the chunk.
    JumpOutOfRange { at: u64, target: u32 },
    /// The jump leads to a place where no instruction starts.
    JumpIntoAnInstruction { at: u64, target: u32 },
    /// Two ways lead to one place with different depths. Where the operands are equal, iterators or
    /// handlers differ.
    DepthConflict { at: u64, expected: u64, found: u64 },
    /// The instruction needs more operands than there are.
    Underflow { at: u64, need: u64, have: u64 },
    /// Control runs past the chunk's end.
    FallsOffTheEnd,
    /// The stack grows above what the chunk declares.
    StackExceedsDeclared { needed: u64, declared: u16 },
    /// The instruction needs an iterator.
    IteratorUnderflow { at: u64 },
    /// The instruction needs a handler.
    HandlerUnderflow { at: u64 },
}

impl Kind {
    /// What a verdict says. None for numbers that the library never gives.
    pub fn of(verdict: &Verdict) -> Option<Kind> {
        let Verdict { at, p, q, .. } = *verdict;
        let word = |number: u64| u32::try_from(number).ok();
        Some(match verdict.kind {
            0 => Kind::Accepted {
                instructions: verdict.instructions,
                reached: verdict.reached,
                taken: verdict.taken,
            },
            1 => Kind::TooLarge {
                limit: Limit::of(p)?,
            },
            2 => Kind::BadTable {
                table: Table::of(p)?,
                entry: q,
            },
            3 => Kind::NoRoom {
                needed: p,
                buffer: Buffer::of(q)?,
            },
            4 => Kind::MissingCaps {
                at,
                missing: word(p)?,
            },
            5 => Kind::Undecodable { at },
            6 => Kind::BadIndex {
                at,
                index: word(p)?,
                pool: Pool::of(q)?,
            },
            7 => Kind::ChunkOutOfRange {
                entry: word(p)?,
                end: word(q)?,
            },
            8 => Kind::Misaligned { entry: word(p)? },
            9 => Kind::JumpOutOfRange {
                at,
                target: word(p)?,
            },
            10 => Kind::JumpIntoAnInstruction {
                at,
                target: word(p)?,
            },
            11 => Kind::DepthConflict {
                at,
                expected: p,
                found: q,
            },
            12 => Kind::Underflow {
                at,
                need: p,
                have: q,
            },
            13 => Kind::FallsOffTheEnd,
            14 => Kind::StackExceedsDeclared {
                needed: p,
                declared: u16::try_from(q).ok()?,
            },
            15 => Kind::IteratorUnderflow { at },
            16 => Kind::HandlerUnderflow { at },
            _ => return None,
        })
    }
}

impl fmt::Display for Kind {
    fn fmt(&self, f: &mut fmt::Formatter) -> fmt::Result {
        match self {
            Kind::Accepted { .. } => write!(f, "accepted"),
            Kind::TooLarge { limit } => write!(f, "too large: {limit}"),
            Kind::BadTable { table, entry } => write!(f, "{table}: bad entry {entry}"),
            Kind::NoRoom { needed, buffer } => write!(f, "no room: {buffer} need {needed}"),
            Kind::MissingCaps { at, missing } => {
                let named = right::ALL.iter().filter(|(_, bit)| missing & bit != 0);
                let names: Vec<&str> = named.map(|&(name, _)| name).collect();
                write!(f, "at {at}: no right {missing:#x} ({})", names.join(", "))
            }
            Kind::Undecodable { at } => write!(f, "at {at}: no instruction"),
            Kind::BadIndex { at, index, pool } => write!(f, "at {at}: no {index} in {pool}"),
            Kind::ChunkOutOfRange { entry, end } => write!(f, "{entry} to {end}: not in the code"),
            Kind::Misaligned { entry } => write!(f, "no instruction starts at its entry {entry}"),
            Kind::JumpOutOfRange { at, target } => {
                write!(f, "at {at}: jump out of the chunk to {target}")
            }
            Kind::JumpIntoAnInstruction { at, target } => {
                write!(f, "at {at}: jump into an instruction to {target}")
            }
            Kind::DepthConflict {
                at,
                expected,
                found,
            } => write!(
                f,
                "at {at}: depths differ, operands {expected} expected and {found} found"
            ),
            Kind::Underflow { at, need, have } => {
                write!(f, "at {at}: operands lack, {need} needed and {have} there")
            }
            Kind::FallsOffTheEnd => write!(f, "control runs past the end"),
            Kind::StackExceedsDeclared { needed, declared } => {
                write!(f, "a stack of {needed} needed, {declared} declared")
            }
            Kind::IteratorUnderflow { at } => write!(f, "at {at}: no iterator"),
            Kind::HandlerUnderflow { at } => write!(f, "at {at}: no handler"),
        }
    }
}
