//! Verifies two scripts: one that is sound, and one that pops from an empty stack.

use grain::{Chunk, Script, Workspace};
use std::collections::TryReserveError;

/// UNIT, RETURN; and RETURN with nothing on the stack.
pub const SCRIPTS: [(&str, &[u8]); 2] = [("01 07", &[0x01, 0x07]), ("07", &[0x07])];

/// The answer about a code without tables or rights, with one chunk over all of it.
pub fn answer(code: &[u8]) -> Result<String, TryReserveError> {
    let script = Script {
        code,
        ..Script::default()
    };
    let chunks = [Chunk {
        entry: 0,
        end: code.len() as u32,
        max_stack: 9,
    }];
    let mut workspace = Workspace::for_script(&script, chunks.len())?;
    let answer = match grain::verify(&script, &chunks, &mut workspace) {
        Ok(accepted) => format!("accepted, height {}", accepted.heights()[0]),
        Err(refusal) => format!("refused, {refusal}"),
    };
    Ok(answer)
}

fn main() -> Result<(), TryReserveError> {
    for (name, code) in SCRIPTS {
        println!("{name}: {}", answer(code)?);
    }
    Ok(())
}
