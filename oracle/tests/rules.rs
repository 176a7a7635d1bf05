//! The proved rules of one instruction, called through their C exports. What it needs, does and
//! leads to is compared with the oracle, for every byte as its tag; the depths after it and at
//! its targets, with document 01 in plain Rust.

use oracle::generator::Rng;
use oracle::input::Input;
use oracle::oracle as rules;
use oracle::tables::{self, case, chain, step, switch, tag, Flow};

#[repr(C)]
#[derive(Debug, PartialEq, Eq)]
struct Told {
    number: u64,
    value: u64,
}

#[repr(C)]
#[derive(Debug, Default, PartialEq, Eq)]
struct EffectTold {
    number: u64,
    needs: u64,
    pops: u64,
    pushes: u64,
}

#[repr(C)]
#[derive(Debug, Default, PartialEq, Eq)]
struct DepthsTold {
    number: u64,
    operands: u64,
    iterators: u64,
    handlers: u64,
}

#[repr(C)]
#[derive(Debug, PartialEq, Eq)]
struct NeededTold {
    iterators: u64,
    handlers: u64,
    falls: u64,
    plain: u64,
}

/// Declares exports that take the code, an offset, the tables, and perhaps something more.
macro_rules! exports {
    ($($name:ident($($more:ident: $type:ty),*) -> $told:ty;)*) => {
        #[link(name = "probe", kind = "static")]
        extern "C" {
            $(fn $name(
                code: *const u8, code_len: usize,
                at: usize,
                names: *const u8, names_len: usize,
                chains: *const u32, chains_len: usize,
                steps: *const u32, steps_len: usize,
                switches: *const u32, switches_len: usize,
                cases: *const u32, cases_len: usize,
                ranges: *const u32, ranges_len: usize,
                $($more: $type),*
            ) -> $told;)*
        }
    };
}

exports! {
    probe_effect() -> EffectTold;
    probe_required() -> Told;
    probe_targets() -> Told;
    probe_edges() -> Told;
    probe_target(k: usize) -> Told;
}

#[link(name = "probe", kind = "static")]
extern "C" {
    fn probe_after(
        tag: u8,
        needs: u32,
        pops: u32,
        pushes: u32,
        operands: u32,
        iterators: u32,
        handlers: u32,
    ) -> DepthsTold;
    fn probe_jumped(
        tag: u8,
        operands: u32,
        iterators: u32,
        handlers: u32,
        operands_after: u32,
        iterators_after: u32,
        handlers_after: u32,
    ) -> DepthsTold;
    fn probe_needed(tag: u8) -> NeededTold;
}

/// Asks one of them: each slice is its pointer and its length, which is all that the exports ask.
macro_rules! ask {
    ($export:ident, $input:expr, $at:expr $(, $more:expr)*) => {{
        let (input, at): (&Input, usize) = ($input, $at);
        unsafe {
            $export(
                input.code.as_ptr(), input.code.len(),
                at,
                input.names.as_ptr(), input.names.len(),
                input.chains.as_ptr(), input.chains.len(),
                input.steps.as_ptr(), input.steps.len(),
                input.switches.as_ptr(), input.switches.len(),
                input.cases.as_ptr(), input.cases.len(),
                input.ranges.as_ptr(), input.ranges.len(),
                $($more),*
            )
        }
    }};
}

fn told(number: u64, value: u64) -> Told {
    Told { number, value }
}

// ---------------------------------------------------------------------------------------------
// What has to be there
// ---------------------------------------------------------------------------------------------

/// The tags whose rights go by the flag of a name.
const NAMING: [u8; 6] = [
    tag::LOAD_NAMED,
    tag::CALL,
    tag::CALL_OP,
    tag::CALL_LOCAL_REF,
    tag::CALL_NAMED_REF,
    tag::CALL_THIS_REF,
];

/// Whether so many entries from a first one on lie within a table of `length`.
fn within(first: u32, count: u32, length: usize) -> bool {
    u64::from(first) + u64::from(count) <= length as u64
}

/// Whether an instruction has its width, and the name, chain or switch that it names is there.
fn is_there(input: &Input, at: usize) -> bool {
    if rules::width(&input.code, at).is_none() {
        return false;
    }
    let index = match input.code[at..] {
        [_, low, high, ..] => usize::from(low) + 256 * usize::from(high),
        _ => return true,
    };
    match input.code[at] {
        tag::CHAIN => input
            .chains
            .chunks_exact(chain::WORDS)
            .nth(index)
            .is_some_and(|entry| {
                let steps = input.steps.len() / step::WORDS;
                within(entry[chain::FIRST_STEP], entry[chain::STEPS], steps)
            }),
        tag::SWITCH => input
            .switches
            .chunks_exact(switch::WORDS)
            .nth(index)
            .is_some_and(|entry| {
                let (cases, ranges) = (input.cases.len() / case::WORDS, input.ranges.len());
                within(entry[switch::FIRST_CASE], entry[switch::CASES], cases)
                    && within(entry[switch::FIRST_RANGE], entry[switch::RANGES], ranges)
            }),
        tag if NAMING.contains(&tag) => index < input.names.len(),
        _ => true,
    }
}

// ---------------------------------------------------------------------------------------------
// One instruction against the oracle
// ---------------------------------------------------------------------------------------------

/// Number 1 and zeros from every export, where the instruction or an entry is not there.
fn nothing_told(input: &Input, at: usize) {
    let none = EffectTold {
        number: 1,
        ..EffectTold::default()
    };
    assert_eq!(ask!(probe_effect, input, at), none, "{input:x?} at {at}");
    for answer in [
        ask!(probe_required, input, at),
        ask!(probe_targets, input, at),
        ask!(probe_edges, input, at),
        ask!(probe_target, input, at, 0),
    ] {
        assert_eq!(answer, told(1, 0), "{input:x?} at {at}");
    }
}

/// The oracle's answers from every export, where all is there.
fn oracle_told(input: &Input, at: usize) {
    let (tag, code) = (input.code[at], &input.code[..]);
    let (needs, pops, pushes) = rules::effect(tag, code, at, input);
    let effect = EffectTold {
        number: 0,
        needs,
        pops,
        pushes,
    };
    assert_eq!(ask!(probe_effect, input, at), effect, "{input:x?} at {at}");
    let required = u64::from(rules::required_caps(tag, code, at, input));
    let edges = rules::edge_count(tag, code, at, input);
    let mut targets = Vec::new();
    rules::jump_targets(tag, code, at, input, &mut targets);
    let count = rules::target_count(tag, code, at, input);
    assert_eq!(count, targets.len() as u64);
    for (answer, expected) in [
        (ask!(probe_required, input, at), required),
        (ask!(probe_targets, input, at), count),
        (ask!(probe_edges, input, at), edges),
    ] {
        assert_eq!(answer, told(0, expected), "{input:x?} at {at}");
    }
    for k in (0..targets.len() + 2).chain([1 << 32, usize::MAX]) {
        let target = targets.get(k).map_or(told(1, 0), |&t| told(0, t.into()));
        assert_eq!(
            ask!(probe_target, input, at, k),
            target,
            "{input:x?} at {at}, {k}"
        );
    }
}

/// Compares what every export tells of an offset, and says whether something was there.
fn compare(input: &Input, at: usize) -> bool {
    let there = is_there(input, at);
    if there {
        oracle_told(input, at);
    } else {
        nothing_told(input, at);
    }
    there
}

// ---------------------------------------------------------------------------------------------
// Random operands and pools
// ---------------------------------------------------------------------------------------------

/// First and count: mostly within a table of `length`, at times one past it, or such that their
/// sum wraps 32 bits.
fn span(rng: &mut Rng, length: usize) -> [u32; 2] {
    let first = rng.below(length + 1);
    let left = length - first;
    match rng.below(12) {
        0 => [first as u32, left as u32 + 1],
        1 => [first as u32, u32::MAX - rng.below(first + 1) as u32],
        2 => [u32::MAX - rng.below(3) as u32, rng.below(length + 4) as u32],
        3 => [first as u32, left as u32],
        _ => [first as u32, rng.below(left + 1) as u32],
    }
}

fn words(rng: &mut Rng, count: usize) -> Vec<u32> {
    (0..count).map(|_| rng.word() as u32).collect()
}

/// Tables of random words, at times with words left over. A step has one of the three kinds that
/// there are: another is refused before any instruction is looked at.
fn pools(rng: &mut Rng) -> Input {
    let [steps, cases, ranges] = [(); 3].map(|()| rng.below(7));
    let mut input = Input {
        names: (0..rng.below(6))
            .map(|_| rng.byte() * (rng.byte() % 2))
            .collect(),
        ..Input::default()
    };
    for _ in 0..steps {
        input.steps.push(rng.below(3) as u32);
        input.steps.extend(words(rng, step::WORDS - 1));
    }
    input.cases = words(rng, cases * case::WORDS);
    input.ranges = words(rng, ranges);
    for _ in 0..rng.below(5) {
        let small = rng.below(9) as u32;
        let operands = rng.pick(&[small, 255, 65_536, u32::MAX]);
        let entry = [rng.below(5) as u32, rng.word() as u32, operands, 0, 0];
        input.chains.extend(entry);
        input.chains.extend(span(rng, steps));
    }
    for _ in 0..rng.below(5) {
        input.switches.extend(span(rng, cases));
        input.switches.extend(span(rng, ranges));
        input.switches.push(rng.word() as u32);
    }
    if rng.one_in(4) {
        let left_over = rng.below(2);
        input.steps.extend(words(rng, left_over * 3));
        input.cases.extend(words(rng, left_over));
        input.chains.extend(words(rng, left_over * 6));
        input.switches.extend(words(rng, left_over * 4));
    }
    input
}

/// A code with an instruction of this tag at the offset that comes back. Its bytes are random but
/// for the index of an entry, which lies near the end of its table; now and then some of them are
/// cut off.
fn code(rng: &mut Rng, tag: u8, input: &mut Input) -> usize {
    let at = rng.below(4);
    let mut operands: Vec<u8> = (0..8).map(|_| rng.byte()).collect();
    let entries = match tag {
        tag::CHAIN => Some(input.chains.len() / chain::WORDS),
        tag::SWITCH => Some(input.switches.len() / switch::WORDS),
        _ if NAMING.contains(&tag) => Some(input.names.len()),
        _ => None,
    };
    if let Some(entries) = entries.filter(|_| !rng.one_in(16)) {
        let past = rng.below(2);
        let index = rng.below(entries + 1 + past) as u16;
        operands[..2].copy_from_slice(&index.to_le_bytes());
    }
    let whole = tables::width(tag).saturating_sub(1);
    let kept = if rng.one_in(8) {
        rng.below(whole)
    } else {
        whole + rng.below(2)
    };
    input.code = (0..at).map(|_| rng.byte()).collect();
    input.code.push(tag);
    input.code.extend(&operands[..kept]);
    at
}

#[test]
fn every_tag_with_random_operands_and_pools() {
    let mut rng = Rng::new(72);
    let mut told = [0u32; 256];
    let mut kept_back = [0u32; 256];
    for round in 0..3_000 {
        for tag in 0..=255 {
            let mut input = pools(&mut rng);
            let at = code(&mut rng, tag, &mut input);
            let tally = if compare(&input, at) {
                &mut told
            } else {
                &mut kept_back
            };
            tally[usize::from(tag)] += 1;
            if round < 20 {
                for k in 0..10 {
                    compare(&input, input.code.len() + k);
                    compare(&input, usize::MAX - k);
                }
            }
        }
    }
    for tag in 0..=255u8 {
        let (told, kept_back) = (told[usize::from(tag)], kept_back[usize::from(tag)]);
        let known = tag::ALL.iter().any(|&(number, _)| number == tag);
        assert_eq!(told >= 500, known, "{tag:#x}: {told} compared");
        assert!(
            kept_back >= 100 || tables::width(tag) == 1,
            "{tag:#x}: {kept_back}"
        );
    }
    assert_eq!(told.iter().filter(|&&count| count > 0).count(), 72);
    println!(
        "told {}, kept back {}",
        told.iter().sum::<u32>(),
        kept_back.iter().sum::<u32>()
    );
}

/// Spans about the ends of a table and of a word, as first and as count.
const EDGES: [u32; 9] = [
    0,
    1,
    2,
    3,
    4,
    0x7fff_ffff,
    0x8000_0000,
    u32::MAX - 1,
    u32::MAX,
];

#[test]
fn spans_and_indices_at_the_ends() {
    let mut rng = Rng::new(5);
    let mut told = 0;
    for first in EDGES {
        for count in EDGES {
            for index in [0u16, 1, 2, 255, 256, u16::MAX] {
                let [low, high] = index.to_le_bytes();
                let mut input = Input {
                    steps: vec![1; 3 * step::WORDS],
                    cases: words(&mut rng, 3 * case::WORDS),
                    ranges: words(&mut rng, 3),
                    chains: [[2, 0, 7, 0, 0, first, count], [0, 0, 1, 0, 0, 1, 1]].concat(),
                    switches: [[first, count, 1, 2, 9], [0, 2, first, count, 8]].concat(),
                    ..Input::default()
                };
                for tag in [tag::CHAIN, tag::SWITCH] {
                    input.code = vec![tag, low, high];
                    told += u32::from(compare(&input, 0));
                }
            }
        }
    }
    // So many spans lie within a table of three. They decide CHAIN's first entry and both of
    // SWITCH; CHAIN's second is always whole.
    let within = (0..=3).map(|first| 4 - first).sum::<u32>();
    assert_eq!(told, 3 * within + 81);
}

// ---------------------------------------------------------------------------------------------
// Depths
// ---------------------------------------------------------------------------------------------

const ITER_NEXTS: [u8; 2] = [tag::ITER_NEXT, tag::ITER_NEXT_INDEXED];
const PUSH_HANDLERS: [u8; 2] = [tag::PUSH_HANDLER, tag::PUSH_HANDLER_VAR];

/// Operands, iterators, handlers.
type Depths = [u32; 3];

/// A tag finds the iterators and handlers that it needs, and one more of each fits.
fn holds(tag: u8, [_, iterators, handlers]: Depths) -> bool {
    let advances = tag == tag::ITER_DROP || ITER_NEXTS.contains(&tag);
    (!advances || iterators > 0)
        && (tag != tag::POP_HANDLER || handlers > 0)
        && iterators.checked_add(1).is_some()
        && handlers.checked_add(1).is_some()
}

/// Document 01: ITER_INIT and PUSH_HANDLER* add one, ITER_DROP and POP_HANDLER take one.
fn after(tag: u8, pops: u32, pushes: u32, before: Depths) -> Option<Depths> {
    let [operands, iterators, handlers] = before;
    let operands = operands.checked_sub(pops)?.checked_add(pushes)?;
    holds(tag, before).then(|| match tag {
        tag::ITER_INIT => [operands, iterators + 1, handlers],
        tag::ITER_DROP => [operands, iterators - 1, handlers],
        tag::PUSH_HANDLER | tag::PUSH_HANDLER_VAR => [operands, iterators, handlers + 1],
        tag::POP_HANDLER => [operands, iterators, handlers - 1],
        _ => [operands, iterators, handlers],
    })
}

/// Document 01: ITER_NEXT*'s exit keeps the depth with one iterator less; a handler's target has
/// the operands from before it and one handler more.
fn jumped(tag: u8, before: Depths, after: Depths) -> Option<Depths> {
    let [operands, iterators, handlers] = before;
    holds(tag, before).then(|| {
        if ITER_NEXTS.contains(&tag) {
            [operands, iterators - 1, handlers]
        } else if PUSH_HANDLERS.contains(&tag) {
            [operands, iterators, handlers + 1]
        } else {
            after
        }
    })
}

fn depths_told(depths: Option<Depths>) -> DepthsTold {
    let Some([operands, iterators, handlers]) = depths.map(|d| d.map(u64::from)) else {
        return DepthsTold {
            number: 1,
            ..DepthsTold::default()
        };
    };
    DepthsTold {
        number: 0,
        operands,
        iterators,
        handlers,
    }
}

/// Small numbers, numbers about the largest of a word, and any.
fn depth(rng: &mut Rng) -> u32 {
    let small = rng.below(4) as u32;
    let any = rng.word() as u32;
    rng.pick(&[small, small, small, u32::MAX - small, any])
}

#[test]
fn depths_after_and_at_targets() {
    let mut rng = Rng::new(3);
    let mut told = [0u32; 256];
    for _ in 0..4_000 {
        for tag in 0..=255u8 {
            let before = [(); 3].map(|()| depth(&mut rng));
            let [needs, pops, pushes] = [(); 3].map(|()| depth(&mut rng));
            let [operands, iterators, handlers] = before;
            let expected = after(tag, pops, pushes, before);
            let answer =
                unsafe { probe_after(tag, needs, pops, pushes, operands, iterators, handlers) };
            let given = (tag, pops, pushes, before);
            assert_eq!(answer, depths_told(expected), "{given:x?}");
            told[usize::from(tag)] += u32::from(expected.is_some());
            let then = expected.unwrap_or([(); 3].map(|()| depth(&mut rng)));
            let [o, i, h] = then;
            let answer = unsafe { probe_jumped(tag, operands, iterators, handlers, o, i, h) };
            let given = (tag, before, then);
            assert_eq!(answer, depths_told(jumped(tag, before, then)), "{given:x?}");
        }
    }
    assert!(told.iter().all(|&count| count >= 500), "{told:?}");
    println!("told {}", told.iter().sum::<u32>());
}

#[test]
fn what_each_tag_needs_and_whether_it_falls() {
    for tag in 0..=255u8 {
        let flow = tables::flow(tag);
        let advances = tag == tag::ITER_DROP || flow == Flow::IterNext;
        let stops = matches!(flow, Flow::Stop | Flow::Jump | Flow::Switch);
        let expected = NeededTold {
            iterators: u64::from(advances),
            handlers: u64::from(tag == tag::POP_HANDLER),
            falls: u64::from(!stops),
            plain: u64::from(flow == Flow::Plain),
        };
        assert_eq!(unsafe { probe_needed(tag) }, expected, "{tag:#x}");
    }
}
