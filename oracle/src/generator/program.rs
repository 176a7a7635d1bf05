//! Programs that are right by construction: a statement leaves the depths as it found
//! them, and an expression leaves one operand more.

use super::builder::{any_tag, Builder};
use super::rng::Rng;
use super::values::expression;
use crate::input::Input;
use crate::tables::tag;

pub type Part = fn(&mut Builder);

/// A program of some chunks, all of which are accepted.
pub fn good(rng: &mut Rng) -> Input {
    let chunks = rng.pick(&[1, 1, 2, 2, 2, 3, 3, 4, 6]);
    let mut builder = Builder::new(rng);
    for _ in 0..chunks {
        chunk(&mut builder);
    }
    if builder.rng.one_in(4) {
        reorder(&mut builder);
    }
    builder.finish()
}

/// A program of one chunk with at least so many bytes, which is accepted.
pub fn large(rng: &mut Rng, bytes: usize) -> Input {
    let mut builder = Builder::new(rng);
    let entry = builder.open(0);
    while builder.here() < bytes {
        builder.fuel = 6;
        statement(&mut builder);
    }
    stop(&mut builder);
    let end = builder.here();
    builder.close(entry, end);
    builder.finish()
}

/// Chunks may come in any order and more than once.
fn reorder(builder: &mut Builder) {
    let count = builder.input.chunks.len();
    let (one, other) = (builder.rng.below(count), builder.rng.below(count));
    builder.input.chunks.swap(one, other);
    if builder.rng.one_in(3) {
        let again = builder.input.chunks[one];
        builder.input.chunks.push(again);
    }
}

fn chunk(builder: &mut Builder) {
    let fuel = builder.rng.pick(&[0, 1, 2, 3, 4, 6, 9]);
    let entry = builder.open(fuel);
    block(builder);
    let mut end = leave(builder, entry);
    if builder.rng.one_in(4) {
        junk(builder);
        end = builder.here();
    }
    builder.close(entry, end);
    if builder.rng.one_in(8) {
        junk(builder);
    }
}

/// Ends a chunk, and says where: a jump or a switch may reach past the chunk's end.
fn leave(builder: &mut Builder, entry: usize) -> usize {
    let at = match builder.rng.below(8) {
        0 => builder.live(tag::JUMP, entry, 0, 0),
        1 => {
            expression(builder);
            endless_switch(builder, entry)
        }
        _ => {
            stop(builder);
            return builder.here();
        }
    };
    if builder.rng.one_in(2) {
        builder.here()
    } else {
        let last = builder.here() - 1;
        builder.rng.between(at + 1, last)
    }
}

/// A switch with all its arms at the chunk's entry.
fn endless_switch(builder: &mut Builder, entry: usize) -> usize {
    let (cases, ranges) = (builder.rng.below(3), builder.rng.below(3));
    let index = builder.switch(cases, ranges);
    for arm in 0..=cases + ranges {
        builder.set_arm(index, arm, entry);
    }
    builder.live(tag::SWITCH, index, 1, 0)
}

/// Leaves the chunk, with operands left over at times.
fn stop(builder: &mut Builder) {
    let values = builder.rng.pick(&[1, 1, 1, 2, 3]);
    for _ in 0..values {
        expression(builder);
    }
    let byte = builder.rng.pick(&[tag::RETURN, tag::RETURN, tag::THROW]);
    builder.live(byte, 0, 1, 0);
}

/// Instructions that no path comes to: their indices are good, all else may be wrong.
fn junk(builder: &mut Builder) {
    for _ in 0..builder.rng.between(1, 3) {
        let byte = any_tag(builder.rng);
        let number = match byte {
            tag::CHAIN => builder.chain(7),
            tag::SWITCH => builder.switch(1, 1),
            _ => builder.rng.below(builder.here() + 4),
        };
        builder.dead(byte, number);
    }
}

fn block(builder: &mut Builder) {
    for _ in 0..builder.rng.between(0, 2) {
        statement(builder);
    }
}

fn statement(builder: &mut Builder) {
    const RICH: &[Part] = &[
        assign, assign, nothing, kept, if_else, if_else, if_else, while_loop, until_loop, for_loop,
        for_loop, try_catch, try_catch, switch, switch, early_exit, early_exit,
    ];
    const PLAIN: &[Part] = &[assign, nothing];
    choose(builder, RICH, PLAIN)(builder);
}

/// A rich part while there is fuel, then a plain one.
pub fn choose(builder: &mut Builder, rich: &[Part], plain: &[Part]) -> Part {
    if builder.fuel == 0 {
        return builder.rng.pick(plain);
    }
    builder.fuel -= 1;
    builder.rng.pick(rich)
}

/// Takes one operand.
fn consume(builder: &mut Builder) {
    let byte = builder.rng.pick(&[
        tag::POP,
        tag::STORE_SHARED,
        tag::STORE_LOCAL,
        tag::STORE_CONST,
        tag::DECLARE_LOCAL,
        tag::DECLARE_CONST,
        tag::DECLARE_GLOBAL_CONST,
        tag::ASSIGN_THIS,
        tag::ASSIGN_THIS_OP,
        tag::ASSIGN_NAMED,
        tag::ASSIGN_LOCAL,
        tag::ASSIGN_NAMED_OP,
        tag::ASSIGN_LOCAL_OP,
        tag::IMPORT,
    ]);
    builder.live(byte, 0, 1, 0);
}

fn nothing(builder: &mut Builder) {
    let byte = builder.rng.pick(&[
        tag::TICK,
        tag::CHECKPOINT,
        tag::UNWIND_TO,
        tag::STATEMENT,
        tag::SHARE,
        tag::SHARE_NAMED,
        tag::REQUIRE_THIS,
        tag::EXPORT_LOCAL,
        tag::EXPORT_NAMED,
    ]);
    builder.live(byte, 0, 0, 0);
}

fn assign(builder: &mut Builder) {
    expression(builder);
    consume(builder);
}

/// A block with something more on the stack below it.
fn kept(builder: &mut Builder) {
    expression(builder);
    block(builder);
    consume(builder);
}

/// A test, and the branch that still has to land.
pub fn test(builder: &mut Builder) -> usize {
    expression(builder);
    let byte = builder.rng.pick(&[tag::JUMP_IF_TRUE, tag::JUMP_IF_FALSE]);
    builder.live(byte, 0, 1, 0)
}

fn if_else(builder: &mut Builder) {
    let other = test(builder);
    block(builder);
    if builder.rng.one_in(2) {
        let out = builder.live(tag::JUMP, 0, 0, 0);
        builder.land(other);
        block(builder);
        builder.land(out);
    } else {
        builder.land(other);
    }
}

fn while_loop(builder: &mut Builder) {
    let top = builder.here();
    let out = test(builder);
    block(builder);
    builder.live(tag::JUMP, top, 0, 0);
    builder.land(out);
}

fn until_loop(builder: &mut Builder) {
    let top = builder.here();
    block(builder);
    expression(builder);
    builder.live(tag::JUMP_IF_FALSE, top, 1, 0);
}

fn for_loop(builder: &mut Builder) {
    expression(builder);
    builder.live(tag::ITER_INIT, 0, 1, 0);
    let top = builder.here();
    let next = builder.rng.pick(&[tag::ITER_NEXT, tag::ITER_NEXT_INDEXED]);
    let out = builder.live(next, 0, 0, 1);
    consume(builder);
    block(builder);
    let mut breaks = None;
    if builder.rng.one_in(2) {
        let stay = test(builder);
        builder.live(tag::ITER_DROP, 0, 0, 0);
        breaks = Some(builder.live(tag::JUMP, 0, 0, 0));
        builder.land(stay);
    }
    builder.live(tag::JUMP, top, 0, 0);
    builder.land(out);
    if let Some(at) = breaks {
        builder.land(at);
    }
}

fn try_catch(builder: &mut Builder) {
    let byte = builder
        .rng
        .pick(&[tag::PUSH_HANDLER, tag::PUSH_HANDLER_VAR]);
    let catch = builder.live(byte, 0, 0, 0);
    block(builder);
    builder.live(tag::POP_HANDLER, 0, 0, 0);
    let out = builder.live(tag::JUMP, 0, 0, 0);
    builder.land(catch);
    builder.live(tag::POP_HANDLER, 0, 0, 0);
    block(builder);
    builder.land(out);
}

/// Every body has an arm of its own; the other arms share.
fn switch(builder: &mut Builder) {
    expression(builder);
    let (cases, ranges) = (builder.rng.below(4), builder.rng.below(3));
    let arms = cases + ranges + 1;
    let index = builder.switch(cases, ranges);
    builder.live(tag::SWITCH, index, 1, 0);
    let bodies = builder.rng.between(1, arms);
    let mut places = Vec::new();
    let mut outs = Vec::new();
    for _ in 0..bodies {
        places.push(builder.here());
        block(builder);
        outs.push(builder.live(tag::JUMP, 0, 0, 0));
    }
    for arm in 0..arms {
        let body = if arm < bodies {
            arm
        } else {
            builder.rng.below(bodies)
        };
        builder.set_arm(index, arm, places[body]);
    }
    for out in outs {
        builder.land(out);
    }
}

/// Leaves the chunk in the middle, with dead code behind it at times.
fn early_exit(builder: &mut Builder) {
    let stay = test(builder);
    let depth = builder.depth;
    stop(builder);
    builder.depth = depth;
    if builder.rng.one_in(2) {
        junk(builder);
    }
    builder.land(stay);
}
