//! The listing: what stands at an offset of the code, and the instructions in turn.

/// What stands at an offset of the code.
#[derive(Clone, Copy, Debug, PartialEq, Eq)]
pub enum Listed {
    /// An instruction.
    Instruction(Instruction),
    /// The code's end: the offset is past its last byte.
    End,
    /// A byte without a width: an unknown tag, or operands cut off.
    NoWidth {
        /// The offset of the byte.
        at: u64,
    },
}

/// An instruction of the code.
#[derive(Clone, Copy, Debug, PartialEq, Eq)]
pub struct Instruction {
    /// Its offset.
    pub at: u64,
    /// Its first byte.
    pub tag: u8,
    /// How many bytes it has, operands included.
    pub width: u64,
    /// The offset after it.
    pub next: u64,
}

/// An item as it crosses the boundary: `grain_item` of the header.
#[repr(C)]
struct Item {
    kind: u32,
    tag: u32,
    at: u64,
    width: u64,
    next: u64,
}

#[link(name = "grain", kind = "static")]
extern "C" {
    fn grain_item_at(code: *const u8, code_len: usize, at: usize) -> Item;
}

/// What stands at an offset of the code, whatever the offset.
///
/// ```
/// use grain::{item_at, Instruction, Listed};
///
/// // LOAD_CONST 2, and a byte that is no tag.
/// let code = [0x24, 0x02, 0x00, 0xff];
/// let load = Instruction { at: 0, tag: 0x24, width: 3, next: 3 };
/// assert_eq!(item_at(&code, 0), Listed::Instruction(load));
/// assert_eq!(item_at(&code, 3), Listed::NoWidth { at: 3 });
/// assert_eq!(item_at(&code, 4), Listed::End);
/// ```
pub fn item_at(code: &[u8], at: usize) -> Listed {
    // SAFETY: the pointer comes from a slice and goes with its length. The struct is laid out as in C.
    let item = unsafe { grain_item_at(code.as_ptr(), code.len(), at) };
    match item.kind {
        0 => Listed::Instruction(Instruction {
            at: item.at,
            tag: item.tag as u8,
            width: item.width,
            next: item.next,
        }),
        1 => Listed::End,
        2 => Listed::NoWidth { at: item.at },
        kind => unreachable!("the library gives an item one of three kinds, and not {kind}"),
    }
}

/// The instructions of a code in turn, from its first byte to where the listing ends.
///
/// ```
/// // UNIT, RETURN, and a byte that is no tag.
/// let code = [0x01, 0x07, 0xff];
/// let mut listing = grain::instructions(&code);
/// let tags: Vec<u8> = listing.by_ref().map(|instruction| instruction.tag).collect();
/// assert_eq!(tags, [0x01, 0x07]);
/// assert_eq!(listing.here(), grain::Listed::NoWidth { at: 2 });
/// ```
pub fn instructions(code: &[u8]) -> Instructions<'_> {
    Instructions { code, at: 0 }
}

/// An iterator over the instructions of a code. Where it has ended it stays, and
/// [`here`](Instructions::here) says how.
#[derive(Clone, Debug)]
pub struct Instructions<'a> {
    code: &'a [u8],
    at: usize,
}

impl Instructions<'_> {
    /// What stands where the iterator is: the instruction that it gives next, or how it ended.
    pub fn here(&self) -> Listed {
        item_at(self.code, self.at)
    }
}

impl Iterator for Instructions<'_> {
    type Item = Instruction;

    fn next(&mut self) -> Option<Instruction> {
        match self.here() {
            Listed::Instruction(instruction) => {
                self.at = instruction.next as usize;
                Some(instruction)
            }
            Listed::End | Listed::NoWidth { .. } => None,
        }
    }
}

impl std::iter::FusedIterator for Instructions<'_> {}
