//! What a call reads.

use crate::Room;

/// The bits of a word of rights.
pub mod right {
    macro_rules! rights {
        ($($name:ident $bit:literal $what:literal,)*) => {
            $(#[doc = $what] pub const $name: u32 = 1 << $bit;)*

            /// All of them, each with its name.
            pub const ALL: &[(&str, u32)] = &[$((stringify!($name), $name),)*];
        };
    }

    rights! {
        FUNCTION 0 "To have functions.",
        THIS 1 "To use `this`.",
        INDEXING 2 "To index.",
        PROPERTY 3 "To use properties.",
        METHOD 4 "To call methods.",
        FN_PTR 5 "To make and call function pointers.",
        CURRYING 6 "To curry.",
        SHARING 7 "To share values.",
        ARRAY 8 "To make arrays.",
        MAP 9 "To make maps.",
        CUSTOM_SYNTAX 10 "To use custom syntax.",
        EXPORT 11 "To export.",
        IMPORT 12 "To import.",
        MODULE 13 "To use qualified names.",
        FLOAT 14 "To hold floats.",
        DECIMAL 15 "To hold decimals.",
        BLOB 16 "To hold blobs.",
    }
}

/// One chunk: a span of the code that runs with an operand stack of its own. Laid out as in C.
#[repr(C)]
#[derive(Clone, Copy, Debug, Default, PartialEq, Eq)]
pub struct Chunk {
    /// The offset of its first instruction.
    pub entry: u32,
    /// The offset just past it.
    pub end: u32,
    /// The stack height that the script declares for it.
    pub max_stack: u16,
}

/// A script but for its chunks. Tables are flat words; `include/grain.h` says which word is what.
#[derive(Clone, Copy, Debug, Default, PartialEq, Eq)]
pub struct Script<'a> {
    /// What the script may do, as bits of [`right`].
    pub rights: u32,
    /// How many functions it has. Only whether it has any matters.
    pub functions: u32,
    /// For each constant the rights that it needs.
    pub constants: &'a [u32],
    /// For each name a byte that is not 0 where the name is qualified.
    pub names: &'a [u8],
    /// How many operators there are.
    pub tokens: usize,
    /// How many assignment operators there are.
    pub op_assignments: usize,
    /// Chains: root, name, operands, tail, operator, first step, steps.
    pub chains: &'a [u32],
    /// Steps: kind, name, getter, setter.
    pub steps: &'a [u32],
    /// Switches: first case, cases, first range, ranges, default.
    pub switches: &'a [u32],
    /// Cases: target, constant.
    pub cases: &'a [u32],
    /// Ranges: target.
    pub ranges: &'a [u32],
    /// The bytes of all instructions.
    pub code: &'a [u8],
}

impl Script<'_> {
    /// Room enough for this script with so many chunks: [`Room::for_code`].
    pub fn room(&self, chunk_count: usize) -> Room {
        Room::for_code(self.code, self.switches, chunk_count)
    }
}
