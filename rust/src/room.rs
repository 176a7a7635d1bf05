//! How much memory to lend.

/// The most bytes of code, cases or ranges.
const MOST: usize = 65_536;
const MOST_SWITCHES: usize = 4_096;
const MOST_CHUNKS: usize = 1_024;

/// The words of a switch, and where among them stand how many cases and ranges it has.
const SWITCH_WORDS: usize = 5;
const CASES: usize = 1;
const RANGES: usize = 3;

/// The tag of a switch, which two bytes of an index follow.
const SWITCH: u8 = 0x31;

/// A number of elements for each buffer.
#[derive(Clone, Copy, Debug, Default, PartialEq, Eq)]
pub struct Room {
    /// Words of 64 bits, one bit for each byte of the code.
    pub marks: usize,
    /// One for each chunk.
    pub heights: usize,
    /// Words of 32 bits.
    pub records: usize,
    /// Words of 32 bits.
    pub work: usize,
}

impl Room {
    /// Room in which a script with this code, these switches and so many chunks is never refused
    /// for want of it, wherever its chunks lie: the same numbers as `grain_room_for` of the header.
    ///
    /// It is a bound from above that decodes nothing. An instruction that names one target is at
    /// least 5 bytes wide and has at most 2 edges; a switch has as many edges as targets; every
    /// other instruction has at most one edge. A byte inside an instruction may look like a switch,
    /// so the bound can be far above the need.
    ///
    /// Where the code, the switches or the chunks are over their limit all four are 0: the call
    /// refuses such a script before it asks for room. Within the limits every sum here is below
    /// 2^36.
    pub fn for_code(code: &[u8], switches: &[u32], chunk_count: usize) -> Room {
        let entries = switches.len() / SWITCH_WORDS;
        if code.len() > MOST || entries > MOST_SWITCHES || chunk_count > MOST_CHUNKS {
            return Room::default();
        }
        let arms = switch_targets(code, switches);
        Room {
            marks: code.len() / 64 + 1,
            heights: chunk_count,
            records: 4 * (1 + code.len() / 5 + arms),
            work: 4 * (1 + code.len() + arms),
        }
    }

    /// The same with no more than so many elements in records and in work. A script that needs
    /// more is refused with what it needs.
    pub fn at_most(self, elements: usize) -> Room {
        Room {
            records: self.records.min(elements),
            work: self.work.min(elements),
            ..self
        }
    }
}

/// The targets that switches can name at most: over each byte that could be the tag of a switch,
/// the cases, the ranges and the default of the entry that it would name.
fn switch_targets(code: &[u8], switches: &[u32]) -> usize {
    let named = code.windows(3).filter(|bytes| bytes[0] == SWITCH);
    let entries = named.filter_map(|bytes| {
        let index = usize::from(u16::from_le_bytes([bytes[1], bytes[2]]));
        switches.chunks_exact(SWITCH_WORDS).nth(index)
    });
    let arms = |entry: &[u32]| count(entry[CASES]) + count(entry[RANGES]) + 1;
    entries.map(arms).sum()
}

/// A count of cases or ranges. One above the limit is refused before room is asked for.
fn count(word: u32) -> usize {
    (word as usize).min(MOST)
}
