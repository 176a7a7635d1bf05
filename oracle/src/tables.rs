//! Document 01's tables: tags, widths, effects, rights, index checks, edges, flat entries
//! and limits.
//!
//! Everything here is looked up by a tag's number alone. What depends on the bytes behind a
//! tag or on a pool is computed by who reads the table.

macro_rules! tags {
    ($($name:ident = $number:literal,)*) => {
        /// Each tag's number under its name.
        pub mod tag {
            $(pub const $name: u8 = $number;)*
            /// All of them, in the order of their numbers.
            pub const ALL: &[(u8, &str)] = &[$(($number, stringify!($name)),)*];
        }
    };
}

tags! {
    UNIT = 0x01,
    FALSE = 0x02,
    TRUE = 0x03,
    POP = 0x04,
    TICK = 0x05,
    CHECKPOINT = 0x06,
    RETURN = 0x07,
    THROW = 0x08,
    ITER_INIT = 0x09,
    ITER_DROP = 0x0a,
    INTERPOLATE_START = 0x0b,
    INTERPOLATE_APPEND = 0x0c,
    INTERPOLATE_END = 0x0d,
    POP_HANDLER = 0x0e,
    IS_SHARED = 0x0f,
    MAKE_FN_PTR = 0x10,
    LOAD_THIS = 0x11,
    LOAD_THIS_SHARED = 0x12,
    REQUIRE_THIS = 0x13,
    ASSIGN_THIS = 0x14,
    ROTATE = 0x15,
    CURRY = 0x16,
    CALL_FN_PTR = 0x17,
    CALL_FN_PTR_CAPTURE = 0x18,
    CALL_FN_PTR_METHOD = 0x19,
    CALL_FN_PTR_ON_THIS = 0x1a,
    UNWIND_TO = 0x1b,
    STATEMENT = 0x1c,
    SHARE = 0x1d,
    SHARE_NAMED = 0x1e,
    LOAD_SHARED = 0x1f,
    LOAD_SHARED_NAMED = 0x20,
    STORE_SHARED = 0x21,
    ASSIGN_THIS_OP = 0x22,
    MAKE_CLOSURE = 0x23,
    LOAD_CONST = 0x24,
    LOAD_LOCAL = 0x25,
    LOAD_NAMED = 0x26,
    STORE_LOCAL = 0x27,
    STORE_CONST = 0x28,
    DECLARE_LOCAL = 0x29,
    DECLARE_CONST = 0x2a,
    DECLARE_GLOBAL_CONST = 0x2b,
    CHAIN = 0x2c,
    MAKE_ARRAY = 0x2d,
    MAKE_MAP = 0x2e,
    CHECK_ARRAY_SIZE = 0x2f,
    CHECK_MAP_SIZE = 0x30,
    SWITCH = 0x31,
    CUSTOM_SYNTAX = 0x32,
    ASSIGN_NAMED = 0x33,
    CALL = 0x34,
    CALL_THIS_REF = 0x35,
    CALL_FN_PTR_ON_LOCAL = 0x36,
    CALL_FN_PTR_ON_NAMED = 0x37,
    JUMP = 0x38,
    JUMP_IF_TRUE = 0x39,
    JUMP_IF_FALSE = 0x3a,
    SKIP_IF_NOT_UNIT = 0x3b,
    ITER_NEXT = 0x3c,
    PUSH_HANDLER = 0x3d,
    EXPORT_LOCAL = 0x3e,
    EXPORT_NAMED = 0x3f,
    ASSIGN_LOCAL = 0x40,
    ASSIGN_NAMED_OP = 0x41,
    CALL_OP = 0x42,
    CALL_LOCAL_REF = 0x43,
    CALL_NAMED_REF = 0x44,
    ITER_NEXT_INDEXED = 0x45,
    PUSH_HANDLER_VAR = 0x46,
    ASSIGN_LOCAL_OP = 0x47,
    IMPORT = 0x4f,
}

/// How many bytes an instruction with this tag takes; 0 for a byte that is no tag.
pub fn width(tag: u8) -> usize {
    match tag {
        0x01..=0x14 => 1,
        0x15..=0x1a => 2,
        0x1b..=0x33 | tag::IMPORT => 3,
        0x34..=0x37 => 4,
        0x38..=0x41 => 5,
        0x42..=0x44 => 6,
        0x45..=0x47 => 7,
        _ => 0,
    }
}

/// Where an instruction keeps its count n, counted from its tag.
#[derive(Clone, Copy, Debug, PartialEq, Eq)]
pub enum Count {
    Byte(usize),
    U16(usize),
}

/// Which instructions have a count, and where.
pub fn count(tag: u8) -> Option<Count> {
    use tag::*;
    match tag {
        ROTATE | CURRY | CALL_FN_PTR | CALL_FN_PTR_CAPTURE | CALL_FN_PTR_METHOD
        | CALL_FN_PTR_ON_THIS | CALL_FN_PTR_ON_LOCAL | CALL_FN_PTR_ON_NAMED => Some(Count::Byte(1)),
        CALL | CALL_OP | CALL_THIS_REF | CALL_LOCAL_REF | CALL_NAMED_REF => Some(Count::Byte(3)),
        MAKE_ARRAY | MAKE_MAP => Some(Count::U16(1)),
        _ => None,
    }
}

/// What an instruction does to the operands, with n its count.
#[derive(Clone, Copy, Debug, PartialEq, Eq)]
pub enum Effect {
    /// Needs, pops, pushes.
    Fixed(u64, u64, u64),
    /// n/0/0.
    Reorder,
    /// k/k/1 with k = times * n + plus.
    Gather { times: u64, plus: u64 },
    /// k/k/1 with k the operands word of the chain that the u16 at 1 names.
    Chain,
}

pub fn effect(tag: u8) -> Effect {
    use tag::*;
    match tag {
        UNIT | FALSE | TRUE | MAKE_CLOSURE | INTERPOLATE_START => Effect::Fixed(0, 0, 1),
        LOAD_THIS | LOAD_THIS_SHARED | LOAD_SHARED | LOAD_SHARED_NAMED | LOAD_CONST
        | LOAD_LOCAL | LOAD_NAMED => Effect::Fixed(0, 0, 1),
        ITER_NEXT | ITER_NEXT_INDEXED => Effect::Fixed(0, 0, 1),

        POP | IMPORT | RETURN | THROW | SWITCH | ITER_INIT => Effect::Fixed(1, 1, 0),
        STORE_SHARED | STORE_LOCAL | STORE_CONST => Effect::Fixed(1, 1, 0),
        DECLARE_LOCAL | DECLARE_CONST | DECLARE_GLOBAL_CONST => Effect::Fixed(1, 1, 0),
        ASSIGN_THIS | ASSIGN_THIS_OP | ASSIGN_NAMED | ASSIGN_LOCAL | ASSIGN_NAMED_OP
        | ASSIGN_LOCAL_OP => Effect::Fixed(1, 1, 0),
        JUMP_IF_TRUE | JUMP_IF_FALSE => Effect::Fixed(1, 1, 0),

        IS_SHARED | MAKE_FN_PTR | INTERPOLATE_END => Effect::Fixed(1, 1, 1),
        INTERPOLATE_APPEND => Effect::Fixed(2, 1, 0),
        SKIP_IF_NOT_UNIT | CHECK_ARRAY_SIZE | CHECK_MAP_SIZE => Effect::Fixed(1, 0, 0),

        ROTATE => Effect::Reorder,
        CALL | CALL_OP | CALL_THIS_REF | CALL_LOCAL_REF | CALL_NAMED_REF | MAKE_ARRAY => {
            Effect::Gather { times: 1, plus: 0 }
        }
        CURRY | CALL_FN_PTR | CALL_FN_PTR_CAPTURE | CALL_FN_PTR_METHOD | CALL_FN_PTR_ON_THIS
        | CALL_FN_PTR_ON_LOCAL | CALL_FN_PTR_ON_NAMED => Effect::Gather { times: 1, plus: 1 },
        MAKE_MAP => Effect::Gather { times: 2, plus: 0 },
        CHAIN => Effect::Chain,

        _ => Effect::Fixed(0, 0, 0),
    }
}

/// The rights, each a bit of a 32-bit word.
pub mod rights {
    pub const FUNCTION: u32 = 1 << 0;
    pub const THIS: u32 = 1 << 1;
    pub const INDEXING: u32 = 1 << 2;
    pub const PROPERTY: u32 = 1 << 3;
    pub const METHOD: u32 = 1 << 4;
    pub const FN_PTR: u32 = 1 << 5;
    pub const CURRYING: u32 = 1 << 6;
    pub const SHARING: u32 = 1 << 7;
    pub const ARRAY: u32 = 1 << 8;
    pub const MAP: u32 = 1 << 9;
    pub const CUSTOM_SYNTAX: u32 = 1 << 10;
    pub const EXPORT: u32 = 1 << 11;
    pub const IMPORT: u32 = 1 << 12;
    pub const MODULE: u32 = 1 << 13;
    pub const FLOAT: u32 = 1 << 14;
    pub const DECIMAL: u32 = 1 << 15;
    pub const BLOB: u32 = 1 << 16;
}

/// Which rights an instruction needs when it is reached.
#[derive(Clone, Copy, Debug, PartialEq, Eq)]
pub enum Needs {
    /// Always this word.
    Word(u32),
    /// This word, and MODULE too if the name that the u16 at 1 names is qualified.
    WordAndName(u32),
    /// What the root and the steps of the chain that the u16 at 1 names ask for.
    Chain,
}

pub fn needs(tag: u8) -> Needs {
    use tag::*;
    match tag {
        MAKE_FN_PTR | MAKE_CLOSURE | CALL_FN_PTR | CALL_FN_PTR_CAPTURE | CALL_FN_PTR_METHOD
        | CALL_FN_PTR_ON_THIS | CALL_FN_PTR_ON_LOCAL | CALL_FN_PTR_ON_NAMED => {
            Needs::Word(rights::FN_PTR)
        }
        CURRY => Needs::Word(rights::FN_PTR | rights::CURRYING),
        SHARE | SHARE_NAMED | IS_SHARED => Needs::Word(rights::SHARING),
        REQUIRE_THIS | LOAD_THIS | LOAD_THIS_SHARED | ASSIGN_THIS | ASSIGN_THIS_OP => {
            Needs::Word(rights::THIS)
        }
        MAKE_ARRAY => Needs::Word(rights::ARRAY),
        MAKE_MAP => Needs::Word(rights::MAP),
        CUSTOM_SYNTAX => Needs::Word(rights::CUSTOM_SYNTAX),
        EXPORT_LOCAL | EXPORT_NAMED => Needs::Word(rights::EXPORT),
        IMPORT => Needs::Word(rights::IMPORT),
        LOAD_NAMED | CALL | CALL_OP | CALL_LOCAL_REF | CALL_NAMED_REF => Needs::WordAndName(0),
        CALL_THIS_REF => Needs::WordAndName(rights::THIS),
        CHAIN => Needs::Chain,
        _ => Needs::Word(0),
    }
}

/// What a pool index points into, with the numbers that kind 6 gives as q.
#[derive(Clone, Copy, Debug, PartialEq, Eq)]
pub enum Pool {
    Constant = 1,
    Name = 2,
    Operator = 3,
    OpAssignment = 4,
    Chain = 5,
    Switch = 6,
    Site = 7,
}

/// The pool indices that an instruction itself holds, each a u16 at an offset from the tag,
/// in the order in which they are tested.
pub fn indices(tag: u8) -> &'static [(usize, Pool)] {
    use tag::*;
    match tag {
        LOAD_CONST => &[(1, Pool::Constant)],
        DECLARE_LOCAL | DECLARE_CONST | DECLARE_GLOBAL_CONST => &[(1, Pool::Name)],
        CALL | CALL_LOCAL_REF | CALL_THIS_REF => &[(1, Pool::Name)],
        CALL_NAMED_REF => &[(1, Pool::Name), (4, Pool::Name)],
        CALL_OP => &[(1, Pool::Name), (4, Pool::Operator)],
        CALL_FN_PTR_ON_NAMED => &[(2, Pool::Name)],
        LOAD_NAMED | LOAD_SHARED_NAMED | ASSIGN_NAMED | SHARE_NAMED | MAKE_CLOSURE => {
            &[(1, Pool::Name)]
        }
        ASSIGN_LOCAL => &[(3, Pool::Name)],
        ASSIGN_NAMED_OP => &[(1, Pool::Name), (3, Pool::OpAssignment)],
        ASSIGN_LOCAL_OP => &[(3, Pool::Name), (5, Pool::OpAssignment)],
        ASSIGN_THIS_OP => &[(1, Pool::OpAssignment)],
        EXPORT_LOCAL => &[(3, Pool::Name)],
        EXPORT_NAMED => &[(1, Pool::Name), (3, Pool::Name)],
        IMPORT => &[(1, Pool::Name)],
        CHAIN => &[(1, Pool::Chain)],
        SWITCH => &[(1, Pool::Switch)],
        CUSTOM_SYNTAX => &[(1, Pool::Site)],
        _ => &[],
    }
}

/// Where control goes after an instruction. A target that the instruction itself names is
/// the u32 at 1.
#[derive(Clone, Copy, Debug, PartialEq, Eq)]
pub enum Flow {
    /// Nowhere.
    Stop,
    /// To the target.
    Jump,
    /// To the target or to the next instruction.
    Branch,
    /// To the next instruction, and on an error to the target.
    Handler,
    /// To the target if the iterator is done, else to the next instruction.
    IterNext,
    /// To one of the targets of the switch that the u16 at 1 names.
    Switch,
    /// To the next instruction.
    Plain,
}

pub fn flow(tag: u8) -> Flow {
    use tag::*;
    match tag {
        RETURN | THROW => Flow::Stop,
        JUMP => Flow::Jump,
        JUMP_IF_TRUE | JUMP_IF_FALSE | SKIP_IF_NOT_UNIT => Flow::Branch,
        PUSH_HANDLER | PUSH_HANDLER_VAR => Flow::Handler,
        ITER_NEXT | ITER_NEXT_INDEXED => Flow::IterNext,
        SWITCH => Flow::Switch,
        _ => Flow::Plain,
    }
}

/// A chain entry: how many words, which word is which, and the values of some.
pub mod chain {
    pub const WORDS: usize = 7;
    pub const ROOT: usize = 0;
    pub const NAME: usize = 1;
    pub const OPERANDS: usize = 2;
    pub const TAIL: usize = 3;
    pub const OPERATOR: usize = 4;
    pub const FIRST_STEP: usize = 5;
    pub const STEPS: usize = 6;

    pub const ROOT_LOCAL: u32 = 0;
    pub const ROOT_NAMED: u32 = 1;
    pub const ROOT_THIS: u32 = 2;
    pub const ROOT_TEMPORARY: u32 = 3;

    pub const TAIL_READ: u32 = 0;
    pub const TAIL_ASSIGN: u32 = 1;
    pub const TAIL_ASSIGN_OP: u32 = 2;
}

/// A step entry.
pub mod step {
    pub const WORDS: usize = 4;
    pub const KIND: usize = 0;
    pub const NAME: usize = 1;
    pub const GETTER: usize = 2;
    pub const SETTER: usize = 3;

    pub const INDEX: u32 = 0;
    pub const PROPERTY: u32 = 1;
    pub const METHOD: u32 = 2;
}

/// A switch entry.
pub mod switch {
    pub const WORDS: usize = 5;
    pub const FIRST_CASE: usize = 0;
    pub const CASES: usize = 1;
    pub const FIRST_RANGE: usize = 2;
    pub const RANGES: usize = 3;
    pub const DEFAULT: usize = 4;
}

/// A case entry.
pub mod case {
    pub const WORDS: usize = 2;
    pub const TARGET: usize = 0;
    pub const CONSTANT: usize = 1;
}

/// The numbers that kind 2 gives as p.
pub mod table {
    pub const CHAIN: u64 = 1;
    pub const STEP: u64 = 2;
    pub const SWITCH: u64 = 3;
    pub const CASE: u64 = 4;
}

/// The numbers that kind 3 gives as q.
pub mod buffer {
    pub const MARKS: u64 = 1;
    pub const HEIGHTS: u64 = 2;
    pub const RECORDS: u64 = 3;
    pub const WORK: u64 = 4;
}

/// The most of each that a call takes.
pub mod limit {
    pub const CODE: u64 = 65_536;
    pub const CONSTANTS: u64 = 65_536;
    pub const NAMES: u64 = 65_536;
    pub const TOKENS: u64 = 65_536;
    pub const OP_ASSIGNMENTS: u64 = 65_536;
    pub const STEPS: u64 = 65_536;
    pub const CASES: u64 = 65_536;
    pub const RANGES: u64 = 65_536;
    pub const CHAINS: u64 = 4_096;
    pub const SWITCHES: u64 = 4_096;
    pub const CHUNKS: u64 = 1_024;
}
