//! Expressions: each leaves one operand more than it found.

use super::builder::Builder;
use super::program::{choose, test, Part};
use crate::tables::tag;

pub fn expression(builder: &mut Builder) {
    const RICH: &[Part] = &[
        value,
        value,
        value,
        changed,
        call,
        call,
        pointer_call,
        array,
        map,
        text,
        chain,
        chain,
        either,
        coalesce,
        rotated,
    ];
    choose(builder, RICH, &[value])(builder);
}

fn value(builder: &mut Builder) {
    let byte = builder.rng.pick(&[
        tag::UNIT,
        tag::FALSE,
        tag::TRUE,
        tag::LOAD_THIS,
        tag::LOAD_THIS_SHARED,
        tag::LOAD_SHARED,
        tag::LOAD_SHARED_NAMED,
        tag::LOAD_CONST,
        tag::LOAD_LOCAL,
        tag::LOAD_NAMED,
        tag::MAKE_CLOSURE,
    ]);
    builder.live(byte, 0, 0, 1);
}

fn changed(builder: &mut Builder) {
    expression(builder);
    let byte = builder.rng.pick(&[tag::IS_SHARED, tag::MAKE_FN_PTR]);
    builder.live(byte, 0, 1, 1);
}

/// Some operands, many at rare times.
fn operands(builder: &mut Builder) -> usize {
    if builder.rng.one_in(100) {
        let count = builder.rng.between(200, 255);
        for _ in 0..count {
            builder.live(tag::UNIT, 0, 0, 1);
        }
        return count;
    }
    let count = builder.rng.below(4);
    for _ in 0..count {
        expression(builder);
    }
    count
}

fn call(builder: &mut Builder) {
    let count = operands(builder);
    let byte = builder.rng.pick(&[
        tag::CALL,
        tag::CALL_OP,
        tag::CALL_THIS_REF,
        tag::CALL_LOCAL_REF,
        tag::CALL_NAMED_REF,
    ]);
    builder.live(byte, count, count, 1);
}

/// The pointer itself is one operand more.
fn pointer_call(builder: &mut Builder) {
    let count = operands(builder);
    expression(builder);
    let byte = builder.rng.pick(&[
        tag::CURRY,
        tag::CALL_FN_PTR,
        tag::CALL_FN_PTR_CAPTURE,
        tag::CALL_FN_PTR_METHOD,
        tag::CALL_FN_PTR_ON_THIS,
        tag::CALL_FN_PTR_ON_LOCAL,
        tag::CALL_FN_PTR_ON_NAMED,
    ]);
    builder.live(byte, count, count + 1, 1);
}

fn array(builder: &mut Builder) {
    let count = operands(builder);
    if count > 0 {
        builder.live(tag::CHECK_ARRAY_SIZE, 0, 0, 0);
    }
    builder.live(tag::MAKE_ARRAY, count, count, 1);
}

fn map(builder: &mut Builder) {
    let count = operands(builder);
    for _ in 0..count {
        builder.live(tag::TRUE, 0, 0, 1);
        builder.live(tag::CHECK_MAP_SIZE, 0, 0, 0);
    }
    builder.live(tag::MAKE_MAP, count, 2 * count, 1);
}

fn text(builder: &mut Builder) {
    builder.live(tag::INTERPOLATE_START, 0, 0, 1);
    for _ in 0..builder.rng.below(3) {
        expression(builder);
        builder.live(tag::INTERPOLATE_APPEND, 0, 1, 0);
    }
    builder.live(tag::INTERPOLATE_END, 0, 1, 1);
}

fn chain(builder: &mut Builder) {
    let count = operands(builder);
    let index = builder.chain(count);
    builder.live(tag::CHAIN, index, count, 1);
}

/// One of two values, whichever way the test goes.
fn either(builder: &mut Builder) {
    let other = test(builder);
    expression(builder);
    let out = builder.live(tag::JUMP, 0, 0, 0);
    builder.depth -= 1;
    builder.land(other);
    expression(builder);
    builder.land(out);
}

/// A value, or another one where it is unit.
fn coalesce(builder: &mut Builder) {
    expression(builder);
    let out = builder.live(tag::SKIP_IF_NOT_UNIT, 0, 0, 0);
    builder.live(tag::POP, 0, 1, 0);
    expression(builder);
    builder.land(out);
}

/// Reaches as deep as it may.
fn rotated(builder: &mut Builder) {
    expression(builder);
    let most = builder.depth.min(255);
    let count = if builder.rng.one_in(2) {
        most
    } else {
        builder.rng.below(most + 1)
    };
    builder.live(tag::ROTATE, count, 0, 0);
}
