//! What stands behind each tag in the code, so that any instruction can be written with
//! operands that make sense.

use crate::tables::tag;

/// One operand of an instruction.
#[derive(Clone, Copy, Debug, PartialEq, Eq)]
pub enum Field {
    /// Sixteen bits that nobody looks up.
    Slot,
    Name,
    Constant,
    Token,
    OpAssignment,
    Chain,
    Switch,
    Site,
    /// A count in one byte.
    Few,
    /// A count in two bytes.
    Many,
    /// Four bytes: where to go on.
    Target,
}

impl Field {
    pub fn size(self) -> usize {
        match self {
            Field::Few => 1,
            Field::Target => 4,
            _ => 2,
        }
    }
}

/// The operands in the order of their bytes; none for a byte that is no tag.
pub fn fields(byte: u8) -> &'static [Field] {
    use Field::*;
    match byte {
        tag::CALL | tag::CALL_THIS_REF => &[Name, Few],
        tag::CALL_FN_PTR_ON_LOCAL => &[Few, Slot],
        tag::CALL_FN_PTR_ON_NAMED => &[Few, Name],
        tag::EXPORT_LOCAL | tag::ASSIGN_LOCAL => &[Slot, Name],
        tag::EXPORT_NAMED => &[Name, Name],
        tag::ASSIGN_NAMED_OP => &[Name, OpAssignment],
        tag::CALL_OP => &[Name, Few, Token],
        tag::CALL_LOCAL_REF => &[Name, Few, Slot],
        tag::CALL_NAMED_REF => &[Name, Few, Name],
        tag::ITER_NEXT_INDEXED | tag::PUSH_HANDLER_VAR => &[Target, Slot],
        tag::ASSIGN_LOCAL_OP => &[Slot, Name, OpAssignment],
        _ => only_field(byte),
    }
}

/// The operand of an instruction that has one.
fn only_field(byte: u8) -> &'static [Field] {
    use Field::*;
    match byte {
        tag::ROTATE..=tag::CALL_FN_PTR_ON_THIS => &[Few],
        tag::UNWIND_TO | tag::STATEMENT | tag::SHARE => &[Slot],
        tag::SHARE_NAMED | tag::LOAD_SHARED_NAMED => &[Name],
        tag::LOAD_SHARED | tag::STORE_SHARED => &[Slot],
        tag::ASSIGN_THIS_OP => &[OpAssignment],
        tag::MAKE_CLOSURE | tag::LOAD_NAMED => &[Name],
        tag::LOAD_CONST => &[Constant],
        tag::LOAD_LOCAL | tag::STORE_LOCAL | tag::STORE_CONST => &[Slot],
        tag::DECLARE_LOCAL | tag::DECLARE_CONST | tag::DECLARE_GLOBAL_CONST => &[Name],
        tag::CHAIN => &[Chain],
        tag::MAKE_ARRAY | tag::MAKE_MAP => &[Many],
        tag::CHECK_ARRAY_SIZE | tag::CHECK_MAP_SIZE => &[Slot],
        tag::SWITCH => &[Switch],
        tag::CUSTOM_SYNTAX => &[Site],
        tag::ASSIGN_NAMED | tag::IMPORT => &[Name],
        tag::JUMP..=tag::PUSH_HANDLER => &[Target],
        _ => &[],
    }
}

/// The bytes of an instruction, or 0 for a byte that is no tag.
pub fn width(byte: u8) -> usize {
    let named = (1..=0x47).contains(&byte) || byte == tag::IMPORT;
    if named {
        1 + fields(byte).iter().map(|field| field.size()).sum::<usize>()
    } else {
        0
    }
}

/// The starts met when the code is read from its first byte on, as far as it can be read.
pub fn starts(code: &[u8]) -> Vec<usize> {
    let mut found = Vec::new();
    let mut at = 0;
    while at < code.len() {
        let width = width(code[at]);
        if width == 0 || width > code.len() - at {
            break;
        }
        found.push(at);
        at += width;
    }
    found
}

#[cfg(test)]
mod tests {
    use super::*;
    use crate::tables::{self, Pool};

    #[test]
    fn widths_are_those_of_the_tables() {
        for byte in 0..=255 {
            assert_eq!(width(byte), tables::width(byte), "{byte:#x}");
        }
    }

    #[test]
    fn looked_up_operands_are_those_of_the_tables() {
        for byte in 0..=255 {
            let mut found = Vec::new();
            let mut offset = 1;
            for &field in fields(byte) {
                found.extend(pool(field).map(|pool| (offset, pool)));
                offset += field.size();
            }
            assert_eq!(found, tables::indices(byte), "{byte:#x}");
        }
    }

    fn pool(field: Field) -> Option<Pool> {
        match field {
            Field::Name => Some(Pool::Name),
            Field::Constant => Some(Pool::Constant),
            Field::Token => Some(Pool::Operator),
            Field::OpAssignment => Some(Pool::OpAssignment),
            Field::Chain => Some(Pool::Chain),
            Field::Switch => Some(Pool::Switch),
            Field::Site => Some(Pool::Site),
            Field::Slot | Field::Few | Field::Many | Field::Target => None,
        }
    }
}
