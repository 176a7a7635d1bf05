//! Lists two scripts: one whose last instruction is whole, and one whose operands are cut off.

use grain::Listed;

/// UNIT, LOAD_CONST 2, RETURN; and UNIT, LOAD_CONST without its last byte.
pub const SCRIPTS: [&[u8]; 2] = [&[0x01, 0x24, 0x02, 0x00, 0x07], &[0x01, 0x24, 0x02]];

/// A line for each instruction of a code, and one for how the listing ended.
pub fn listing(code: &[u8]) -> Vec<String> {
    let mut instructions = grain::instructions(code);
    let mut lines: Vec<String> = instructions
        .by_ref()
        .map(|i| format!("{}: tag {:#04x}, width {}", i.at, i.tag, i.width))
        .collect();
    lines.push(match instructions.here() {
        Listed::NoWidth { at } => format!("{at}: no width"),
        _ => format!("{}: the end", code.len()),
    });
    lines
}

fn main() {
    for code in SCRIPTS {
        println!("{code:02x?}");
        for line in listing(code) {
            println!("  {line}");
        }
    }
}
