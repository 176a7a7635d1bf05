//! All short codes: nothing is left to chance where everything can be tried.

use super::room::Room;
use super::Case;
use crate::input::{Chunk, Input};

/// Every sequence of at most so many pieces, each piece some bytes, as one chunk over the
/// whole code. The empty code comes first.
#[derive(Clone, Debug)]
pub struct ShortCodes {
    pieces: Vec<Vec<u8>>,
    most: usize,
    /// Which piece stands where in the code to come; none left when this is too long.
    digits: Vec<usize>,
    /// The pools that each code gets.
    pools: Input,
}

impl ShortCodes {
    /// All codes of at most `most` bytes from `alphabet`.
    pub fn of_bytes(alphabet: &[u8], most: usize) -> ShortCodes {
        let pieces: Vec<&[u8]> = alphabet.chunks(1).collect();
        ShortCodes::of_pieces(&pieces, most, Input::default())
    }

    /// All codes of at most `most` pieces, each with these pools.
    pub fn of_pieces(pieces: &[&[u8]], most: usize, pools: Input) -> ShortCodes {
        ShortCodes {
            pieces: pieces.iter().map(|piece| piece.to_vec()).collect(),
            most,
            digits: Vec::new(),
            pools,
        }
    }

    /// Counts on by one, in numbers that grow a digit when all are at their last.
    fn advance(&mut self) {
        for digit in &mut self.digits {
            *digit += 1;
            if *digit < self.pieces.len() {
                return;
            }
            *digit = 0;
        }
        self.digits.push(0);
    }
}

impl Iterator for ShortCodes {
    type Item = Case;

    fn next(&mut self) -> Option<Case> {
        if self.digits.len() > self.most {
            return None;
        }
        let mut input = self.pools.clone();
        for &digit in &self.digits {
            input.code.extend_from_slice(&self.pieces[digit]);
        }
        self.advance();
        input.chunks.push(Chunk {
            entry: 0,
            end: input.code.len() as u32,
            declared: 9,
        });
        let room = Room::exact(&input);
        Some(Case { input, room })
    }
}
