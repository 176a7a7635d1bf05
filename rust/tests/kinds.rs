//! A script of each kind, asked through the safe interface.

use grain::{right, Buffer, Chunk, Kind, Limit, Pool, Refusal, Room, Script, Table, Workspace};

/// The whole of a code as one chunk that declares so much.
fn over(code: &[u8], max_stack: u16) -> Chunk {
    Chunk {
        entry: 0,
        end: code.len() as u32,
        max_stack,
    }
}

/// The refusal of a script with this chunk.
fn refused(script: Script, chunk: Chunk) -> Refusal {
    let mut workspace = Workspace::for_script(&script, 1).expect("memory for a small script");
    grain::verify(&script, &[chunk], &mut workspace).expect_err("it is to be refused")
}

/// The kind of a refusal about chunk 0, over all of a code that declares 9.
fn kind_of(code: &[u8]) -> Kind {
    let script = Script {
        code,
        ..Script::default()
    };
    let refusal = refused(script, over(code, 9));
    assert_eq!(refusal.chunk, Some(0));
    refusal.kind
}

#[test]
fn kinds_of_a_walk() {
    let jump_out = [0x38, 5, 0, 0, 0];
    let jump_in = [0x38, 1, 0, 0, 0];
    let handler = [0x3d, 6, 0, 0, 0, 0x0e, 0x01, 0x07];
    assert_eq!(
        kind_of(&jump_out),
        Kind::JumpOutOfRange { at: 0, target: 5 }
    );
    assert_eq!(
        kind_of(&jump_in),
        Kind::JumpIntoAnInstruction { at: 0, target: 1 }
    );
    let conflict = Kind::DepthConflict {
        at: 6,
        expected: 0,
        found: 0,
    };
    assert_eq!(kind_of(&handler), conflict);
    let underflow = Kind::Underflow {
        at: 0,
        need: 1,
        have: 0,
    };
    assert_eq!(kind_of(&[0x07]), underflow);
    assert_eq!(kind_of(&[0x01]), Kind::FallsOffTheEnd);
    assert_eq!(kind_of(&[0x0a]), Kind::IteratorUnderflow { at: 0 });
    assert_eq!(kind_of(&[0x0e]), Kind::HandlerUnderflow { at: 0 });
    let missing = Kind::MissingCaps {
        at: 1,
        missing: right::FN_PTR | right::CURRYING,
    };
    assert_eq!(kind_of(&[0x01, 0x16, 0, 0x07]), missing);
    assert_eq!(
        missing.to_string(),
        "at 1: no right 0x60 (FN_PTR, CURRYING)"
    );
}

#[test]
fn kinds_of_a_span() {
    let code = [0x38, 0, 0, 0, 0];
    let script = Script {
        code: &code,
        ..Script::default()
    };
    let spanned = |entry, end| {
        let chunk = Chunk {
            entry,
            end,
            max_stack: 9,
        };
        refused(script, chunk).kind
    };
    assert_eq!(spanned(0, 6), Kind::ChunkOutOfRange { entry: 0, end: 6 });
    assert_eq!(spanned(1, 5), Kind::Misaligned { entry: 1 });
}

#[test]
fn kinds_before_the_chunks() {
    let code = [0x01, 0x07];
    let script = Script {
        code: &code,
        ..Script::default()
    };
    let early = |script: Script| {
        let refusal = refused(script, over(script.code, 9));
        assert_eq!(refusal.chunk, None);
        refusal.kind
    };
    let tokens = Script {
        tokens: 65_537,
        ..script
    };
    assert_eq!(
        early(tokens),
        Kind::TooLarge {
            limit: Limit::Tokens
        }
    );
    let ragged = Script {
        steps: &[0; 9],
        ..script
    };
    let bad = Kind::BadTable {
        table: Table::Step,
        entry: 2,
    };
    assert_eq!(early(ragged), bad);
    let constant = Script {
        rights: 256,
        constants: &[768],
        ..script
    };
    let missing = Kind::MissingCaps {
        at: 0,
        missing: 768,
    };
    assert_eq!(early(constant), missing);
    let cut = Script {
        code: &[0x24, 0],
        ..script
    };
    assert_eq!(early(cut), Kind::Undecodable { at: 0 });
    let index = Script {
        code: &[0x01, 0x07, 0x24, 0, 0],
        ..script
    };
    let bad = Kind::BadIndex {
        at: 2,
        index: 0,
        pool: Pool::Constant,
    };
    assert_eq!(early(index), bad);
}

/// Two good chunks, and one that declares too little.
#[test]
fn heights_of_the_chunks_before_a_refusal() {
    let code = [0x01, 0x01, 0x04, 0x07];
    let script = Script {
        code: &code,
        ..Script::default()
    };
    let chunk = |entry, max_stack| Chunk {
        entry,
        end: 4,
        max_stack,
    };
    let mut workspace = Workspace::for_script(&script, 3).expect("memory for a small script");
    let good = [chunk(0, 2), chunk(1, 2), chunk(0, 9)];
    let lower = Kind::Underflow {
        at: 3,
        need: 1,
        have: 0,
    };
    let refusal = grain::verify(&script, &good, &mut workspace);
    assert_eq!(
        refusal,
        Err(Refusal {
            chunk: Some(1),
            kind: lower
        })
    );
    assert_eq!(workspace.heights(), [2, 0, 0]);
    let good = [chunk(0, 2), chunk(0, 3)];
    let accepted = grain::verify(&script, &good, &mut workspace).expect("both are sound");
    assert_eq!(accepted.heights(), [2, 2]);
    let starts = [0, 1, 2, 3, 4, 64, usize::MAX].map(|at| accepted.starts_at(at));
    assert_eq!(starts, [true, true, true, true, false, false, false]);
    let high = [chunk(0, 1)];
    let refusal = grain::verify(&script, &high, &mut workspace).expect_err("2 are needed");
    let exceeds = Kind::StackExceedsDeclared {
        needed: 2,
        declared: 1,
    };
    assert_eq!(refusal.kind, exceeds);
    assert_eq!(
        refusal.to_string(),
        "chunk 0: a stack of 2 needed, 1 declared"
    );
}

#[test]
fn too_little_room_is_told() {
    let code = [0x38, 0, 0, 0, 0];
    let script = Script {
        code: &code,
        ..Script::default()
    };
    let room = script.room(1);
    let in_room = |room| {
        let mut workspace = Workspace::new(room).expect("memory for a small script");
        let answer = grain::verify(&script, &[over(&code, 0)], &mut workspace);
        answer.map(|_| ()).map_err(|refusal| refusal.kind)
    };
    assert_eq!(in_room(room), Ok(()));
    let needed = |needed, buffer| Err(Kind::NoRoom { needed, buffer });
    assert_eq!(in_room(room.at_most(7)), needed(8, Buffer::Records));
    assert_eq!(in_room(Room { work: 7, ..room }), needed(8, Buffer::Work));
    assert_eq!(
        in_room(Room { heights: 0, ..room }),
        needed(1, Buffer::Heights)
    );
    assert_eq!(in_room(Room::default()), needed(1, Buffer::Marks));
}
