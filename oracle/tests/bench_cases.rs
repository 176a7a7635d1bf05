//! Document 01's bench cases, asked of the oracle: every field of the answer and all of the
//! lent memory. Then cases that fix how document 01 is read where it could be read otherwise.

use oracle::bench::{self, bytes};
use oracle::input::{Chunk, Input, Lent, Verdict, NO_CHUNK};
use oracle::oracle::{listing, u16_at, u32_at, verify, verify_with, width_at};
use oracle::oracle::{Ending, Slips, WidthAt};
use oracle::second;
use oracle::tables::{self, rights};

// What the lent memory holds before a call.
const OLD_MARK: u64 = 0x5a5a_5a5a_5a5a_5a5a;
const OLD_HEIGHT: u16 = 0xbeef;
const OLD_WORD: u32 = 0xdead_beef;

/// A call's answer and what it leaves in memory.
struct Asked {
    verdict: Verdict,
    marks: Vec<u64>,
    heights: Vec<u16>,
    records: Vec<u32>,
    work: Vec<u32>,
}

/// How much is lent of each buffer.
#[derive(Clone, Copy)]
struct Sizes {
    marks: usize,
    heights: usize,
    records: usize,
    work: usize,
}

/// More than any case here needs that is not about room.
fn plenty(input: &Input) -> Sizes {
    Sizes {
        marks: input.code.len() / 64 + 3,
        heights: input.chunks.len() + 2,
        records: 600_000,
        work: 600_000,
    }
}

fn ask_with(slips: &Slips, input: &Input, sizes: Sizes) -> Asked {
    let mut marks = vec![OLD_MARK; sizes.marks];
    let mut heights = vec![OLD_HEIGHT; sizes.heights];
    let mut records = vec![OLD_WORD; sizes.records];
    let mut work = vec![OLD_WORD; sizes.work];
    let lent = Lent {
        marks: &mut marks,
        heights: &mut heights,
        records: &mut records,
        work: &mut work,
    };
    let verdict = verify_with(slips, input, lent);
    Asked {
        verdict,
        marks,
        heights,
        records,
        work,
    }
}

/// Asks the oracle, and the second opinion about its answer.
#[track_caller]
fn ask(input: &Input, sizes: Sizes) -> Asked {
    let asked = ask_with(&Slips::default(), input, sizes);
    if let Err(why) = second::agrees(input, &asked.verdict, &asked.heights) {
        panic!("the second opinion differs: {why}");
    }
    asked
}

/// The heights given, and nothing stored after them.
#[track_caller]
fn heights_are(asked: &Asked, heights: &[u16]) {
    let (stored, rest) = asked.heights.split_at(heights.len());
    assert_eq!(stored, heights, "heights");
    assert!(rest.iter().all(|&height| height == OLD_HEIGHT), "heights");
}

#[track_caller]
fn records_and_work_are_zero(asked: &Asked) {
    assert!(asked.records.iter().all(|&word| word == 0), "records");
    assert!(asked.work.iter().all(|&word| word == 0), "work");
}

/// An acceptance: counts, height of each chunk, and the instruction starts.
#[track_caller]
fn accepts(input: &Input, counts: (u64, u64, u64), heights: &[u16], starts: &[usize]) {
    accepted(&ask(input, plenty(input)), counts, heights, starts);
}

#[track_caller]
fn accepted(asked: &Asked, counts: (u64, u64, u64), heights: &[u16], starts: &[usize]) {
    let verdict = Verdict::accepted(counts.0, counts.1, counts.2);
    assert_eq!(asked.verdict, verdict);
    assert_eq!(asked.marks, marked(asked, starts), "marks");
    heights_are(asked, heights);
    records_and_work_are_zero(asked);
}

/// As many words as were lent, with the bits of these starts.
fn marked(asked: &Asked, starts: &[usize]) -> Vec<u64> {
    let mut marks = vec![0; asked.marks.len()];
    for &at in starts {
        marks[at / 64] |= 1 << (at % 64);
    }
    marks
}

/// A refusal's kind, chunk, at, p and q.
type Refusal = (u32, u32, u64, u64, u64);

fn refusal((kind, chunk, at, p, q): Refusal) -> Verdict {
    Verdict::refused(kind, chunk, at, p, q)
}

/// A refusal after the first store, with the heights of the chunks before.
#[track_caller]
fn refuses(input: &Input, what: Refusal, heights: &[u16]) {
    refuses_in(input, plenty(input), what, heights);
}

#[track_caller]
fn refuses_in(input: &Input, sizes: Sizes, what: Refusal, heights: &[u16]) {
    let asked = ask(input, sizes);
    assert_eq!(asked.verdict, refusal(what));
    assert!(asked.marks.iter().all(|&word| word == 0), "marks");
    heights_are(&asked, heights);
    records_and_work_are_zero(&asked);
}

/// A refusal before any store: kind, p and q.
#[track_caller]
fn refuses_early(input: &Input, (kind, p, q): (u32, u64, u64)) {
    refuses_early_in(input, plenty(input), (kind, p, q));
}

#[track_caller]
fn refuses_early_in(input: &Input, sizes: Sizes, (kind, p, q): (u32, u64, u64)) {
    let asked = ask(input, sizes);
    assert_eq!(asked.verdict, refusal((kind, NO_CHUNK, 0, p, q)));
    assert!(asked.marks.iter().all(|&word| word == OLD_MARK), "marks");
    heights_are(&asked, &[]);
    let words = || asked.records.iter().chain(&asked.work);
    assert!(words().all(|&word| word == OLD_WORD), "records and work");
}

fn span(entry: usize, end: usize) -> Chunk {
    Chunk {
        entry: entry as u32,
        end: end as u32,
        declared: 9,
    }
}

/// The bench's input: one chunk over all of the code, declared 9, no rights, no pools.
fn bench(text: &str) -> Input {
    Input::over(bytes(text))
}

// ---------------------------------------------------------------------------------------------
// The bench cases
// ---------------------------------------------------------------------------------------------

#[test]
fn bench_cases_have_their_answers() {
    for bench in bench::cases() {
        let asked = ask(&bench.input, plenty(&bench.input));
        assert_eq!(asked.verdict, bench.verdict, "{}", bench.name);
        assert_eq!(asked.marks, marked(&asked, &bench.starts), "{}", bench.name);
        heights_are(&asked, &bench.heights);
        records_and_work_are_zero(&asked);
    }
}

/// The Rust knows no kind 8: it decodes `01 07` from the entry and accepts.
#[test]
fn p11_as_the_rust_has_it() {
    let slips = Slips {
        kind_8_missing: true,
        ..Slips::default()
    };
    let input = bench::misaligned();
    let asked = ask_with(&slips, &input, plenty(&input));
    accepted(&asked, (1, 2, 2), &[1], &[0]);
}

// ---------------------------------------------------------------------------------------------
// Tags, widths and numbers
// ---------------------------------------------------------------------------------------------

/// Document 01 gives the widths by groups of consecutive numbers, and IMPORT by itself.
#[test]
fn tags_are_numbered_in_turn() {
    let numbers: Vec<u8> = tables::tag::ALL.iter().map(|&(tag, _)| tag).collect();
    let expected: Vec<u8> = (0x01..=0x47).chain([0x4f]).collect();
    assert_eq!(numbers, expected);
    let last = [0x14, 0x1a, 0x33, 0x37, 0x41, 0x44, 0x47];
    for tag in 0..=255u8 {
        let group = 1 + last.iter().filter(|&&last| last < tag).count();
        let width = match tag {
            0x4f => 3,
            0x01..=0x47 => group,
            _ => 0,
        };
        assert_eq!(tables::width(tag), width, "{tag:#x}");
    }
}

#[test]
fn numbers_near_the_largest_offset() {
    let code = bytes("01 02 03 04 05");
    assert_eq!(u16_at(&code, 3), Some(0x0504));
    assert_eq!(u16_at(&code, 4), None);
    assert_eq!(u32_at(&code, 1), Some(0x0504_0302));
    assert_eq!(u32_at(&code, 2), None);
    for back in 0..5 {
        assert_eq!(u16_at(&code, usize::MAX - back), None);
        assert_eq!(u32_at(&code, usize::MAX - back), None);
    }
    assert_eq!(width_at(&code, usize::MAX), WidthAt::NoByte);
}

#[test]
fn listings() {
    assert_eq!(listing(&[]), (vec![], Ending::End));
    let whole = (vec![(0, 0x01, 1), (1, 0x15, 2)], Ending::End);
    assert_eq!(listing(&bytes("01 15 00")), whole);
    let cut = (vec![(0, 0x01, 1)], Ending::NoWidth(1));
    assert_eq!(listing(&bytes("01 15")), cut);
    assert_eq!(listing(&bytes("01 48")), cut);
    assert_eq!(width_at(&bytes("01 15"), 1), WidthAt::CutOff);
    assert_eq!(width_at(&bytes("01 48"), 1), WidthAt::UnknownTag);
    assert_eq!(width_at(&bytes("01 48"), 2), WidthAt::NoByte);
}

// ---------------------------------------------------------------------------------------------
// Effects and rights
// ---------------------------------------------------------------------------------------------

#[test]
fn map_needs_pass_16_bits() {
    let mut input = bench("2e 00 80 07");
    input.rights = rights::MAP;
    refuses(&input, (12, 0, 0, 65_536, 0), &[]);
    input.code = bytes("2e ff ff 07");
    refuses(&input, (12, 0, 0, 131_070, 0), &[]);
}

#[test]
fn chain_needs_are_32_bits_wide() {
    let mut input = bench("01 2c 00 00 07");
    input.chains = vec![3, 9, u32::MAX, 0, 9, 0, 0];
    refuses(&input, (12, 0, 1, 4_294_967_295, 1), &[]);
    input.chains[2] = 1;
    accepts(&input, (3, 3, 3), &[1], &[0, 1, 4]);
}

#[test]
fn rotate_needs_its_count() {
    accepts(&bench("15 00 01 07"), (3, 3, 3), &[1], &[0, 2, 3]);
    accepts(&bench("01 15 01 07"), (3, 3, 3), &[1], &[0, 1, 3]);
    refuses(&bench("01 15 02 07"), (12, 0, 1, 2, 1), &[]);
}

#[test]
fn append_needs_two_and_switch_pops() {
    refuses(&bench("01 0c 07"), (12, 0, 1, 2, 1), &[]);
    accepts(&bench("0b 01 0c 0d 07"), (5, 5, 5), &[2], &[0, 1, 2, 3, 4]);
    let mut input = bench("01 31 00 00 07");
    input.switches = vec![0, 0, 0, 0, 4];
    refuses(&input, (12, 0, 4, 1, 0), &[]);
}

#[test]
fn indexed_iteration_pushes_one() {
    let input = bench("01 09 45 0f 00 00 00 07 00 04 38 02 00 00 00 01 07");
    accepts(&input, (7, 7, 8), &[1], &[0, 1, 2, 9, 10, 15, 16]);
}

#[test]
fn rights_come_before_operands() {
    refuses(&bench("16 00"), (4, 0, 0, 96, 0), &[]);
}

#[test]
fn functions_ask_for_function() {
    let mut input = bench("01 07");
    input.functions = 1;
    refuses(&input, (4, NO_CHUNK, 0, 1, 0), &[]);
    input.rights = rights::FUNCTION;
    accepts(&input, (2, 2, 2), &[1], &[0, 1]);
}

#[test]
fn a_qualified_name_asks_for_module() {
    let mut input = bench("35 00 00 00 07");
    input.names = vec![1];
    refuses(&input, (4, 0, 0, 8_194, 0), &[]);
    input.rights = rights::THIS;
    refuses(&input, (4, 0, 0, 8_192, 0), &[]);
    input.names = vec![0];
    accepts(&input, (2, 2, 2), &[1], &[0, 4]);
}

#[test]
fn an_unknown_right_counts_like_any_other() {
    let mut input = bench("01 07");
    input.constants = vec![1 << 31];
    refuses(&input, (4, NO_CHUNK, 0, 1 << 31, 0), &[]);
    input.rights = 1 << 31;
    accepts(&input, (2, 2, 2), &[1], &[0, 1]);
}

#[test]
fn a_chain_names_root_steps_and_operator_in_turn() {
    let mut input = bench("2c 00 00 07");
    input.rights = rights::PROPERTY | rights::METHOD | rights::INDEXING;
    input.chains = vec![0, 3, 0, 2, 7, 0, 3];
    input.steps = vec![0, 9, 9, 9, 1, 0, 1, 4, 2, 5, 9, 9];
    refuses(&input, (6, NO_CHUNK, 0, 3, 2), &[]);
    input.chains[1] = 0;
    input.names = vec![0; 1];
    refuses(&input, (6, NO_CHUNK, 0, 1, 2), &[]);
    input.names = vec![0; 4];
    refuses(&input, (6, NO_CHUNK, 0, 4, 2), &[]);
    input.names = vec![0; 5];
    refuses(&input, (6, NO_CHUNK, 0, 5, 2), &[]);
    input.names = vec![0; 6];
    refuses(&input, (6, NO_CHUNK, 0, 7, 4), &[]);
    input.op_assignments = 8;
    accepts(&input, (2, 2, 2), &[1], &[0, 3]);
    input.rights = rights::PROPERTY;
    refuses(&input, (4, 0, 0, 20, 0), &[]);
}

#[test]
fn a_site_is_never_there() {
    refuses(&bench("32 00 00"), (6, NO_CHUNK, 0, 0, 7), &[]);
}

// ---------------------------------------------------------------------------------------------
// Limits and tables
// ---------------------------------------------------------------------------------------------

#[test]
fn each_limit_has_its_number() {
    let at_limit = Input {
        tokens: 65_536,
        op_assignments: 65_536,
        constants: vec![0; 65_536],
        names: vec![0; 65_536],
        steps: vec![0; 4 * 65_536],
        cases: vec![0; 2 * 65_536],
        ranges: vec![0; 65_536],
        chains: vec![0; 7 * 4_096],
        switches: vec![0; 5 * 4_096],
        code: [vec![0x05; 65_534], vec![0x01, 0x07]].concat(),
        chunks: vec![span(65_534, 65_536); 1_024],
        ..Input::default()
    };
    let starts: Vec<usize> = (0..65_536).collect();
    accepts(&at_limit, (65_536, 2_048, 2_048), &[1; 1_024], &starts);
    let passed: [fn(&mut Input); 11] = [
        |i| i.code.push(0),
        |i| i.constants.push(0),
        |i| i.names.push(0),
        |i| i.tokens += 1,
        |i| i.op_assignments = u64::MAX,
        |i| i.steps.extend([0; 4]),
        |i| i.cases.extend([0; 2]),
        |i| i.ranges.push(0),
        |i| i.chains.extend([0; 7]),
        |i| i.switches.extend([0; 5]),
        |i| i.chunks.push(span(0, 0)),
    ];
    // From the last on, so that each is the first of those that are passed.
    let mut input = at_limit;
    for (number, push) in passed.iter().enumerate().rev() {
        push(&mut input);
        refuses_early(&input, (1, number as u64 + 1, 0));
    }
}

#[test]
fn words_left_over_are_no_entry() {
    let mut input = bench("01 07");
    input.chains = vec![0; 7 * 4_096 + 6];
    refuses_early(&input, (2, 1, 4_096));
    input.chains = vec![0; 7 * 4_097 + 6];
    refuses_early(&input, (1, 9, 0));
}

#[test]
fn ragged_tables_come_before_entries() {
    let mut input = bench("01 07");
    input.chains = vec![4, 0, 0, 0, 0, 0, 0];
    input.cases = vec![0; 3];
    refuses_early(&input, (2, 4, 1));
    input.switches = vec![0; 4];
    refuses_early(&input, (2, 3, 0));
    input.steps = vec![0; 9];
    refuses_early(&input, (2, 2, 2));
    input.chains.push(0);
    refuses_early(&input, (2, 1, 1));
}

#[test]
fn entries_upward_table_by_table() {
    let mut input = bench("01 07");
    input.switches = vec![0, 0, 0, 0, 0, 0, 0, 0, 1, 0];
    refuses_early(&input, (2, 3, 1));
    input.steps = vec![0, 0, 0, 0, 0, 0, 0, 0, 3, 0, 0, 0];
    refuses_early(&input, (2, 2, 2));
    input.chains = vec![0, 0, 0, 3, 0, 0, 0];
    refuses_early(&input, (2, 1, 0));
    input.chains = vec![4, 0, 0, 0, 0, 0, 0];
    refuses_early(&input, (2, 1, 0));
}

/// Each table's span: (first, count) over a table of two entries, and whether it is good.
#[test]
fn first_and_count_are_summed_as_numbers() {
    let spans = [
        (2, 0, true),
        (1, 1, true),
        (0, 2, true),
        (3, 0, false),
        (2, 1, false),
        (u32::MAX, 1, false),
        (1, u32::MAX, false),
        (u32::MAX, u32::MAX, false),
    ];
    for (first, count, good) in spans {
        let mut input = bench("01 07");
        input.steps = vec![0; 8];
        input.cases = vec![0; 4];
        input.ranges = vec![0; 2];
        let whole = input.clone();
        let checked = |input: &Input, table| match good {
            true => accepts(input, (2, 2, 2), &[1], &[0, 1]),
            false => refuses_early(input, (2, table, 0)),
        };
        input.chains = vec![0, 0, 0, 0, 0, first, count];
        checked(&input, 1);
        input.chains.clear();
        input.switches = vec![first, count, 0, 0, 0];
        checked(&input, 3);
        input.switches = vec![0, 0, first, count, 0];
        checked(&input, 3);
        input.switches.clear();
        assert_eq!(input, whole);
    }
}

// ---------------------------------------------------------------------------------------------
// Room
// ---------------------------------------------------------------------------------------------

#[test]
fn marks_and_heights_in_this_order() {
    let mut input = Input::over(vec![0x05; 64]);
    input.chunks = vec![span(0, 0); 3];
    let mut sizes = plenty(&input);
    (sizes.marks, sizes.heights) = (1, 2);
    refuses_early_in(&input, sizes, (3, 2, 1));
    sizes.marks = 2;
    refuses_early_in(&input, sizes, (3, 3, 2));
    sizes.heights = 3;
    refuses_in(&input, sizes, (13, 0, 0, 0, 0), &[]);
    for (length, words) in [(0, 1), (63, 1), (64, 2), (65_535, 1_024), (65_536, 1_025)] {
        let input = Input::over(vec![0x05; length]);
        sizes.marks = words as usize - 1;
        refuses_early_in(&input, sizes, (3, words, 1));
        sizes.marks = words as usize;
        refuses_in(&input, sizes, (13, 0, 0, 0, 0), &[]);
    }
}

/// The first chunk is walked and its height stored before the second has no room.
#[test]
fn records_and_work_are_asked_for_chunk_by_chunk() {
    let mut input = bench("01 07 01 38 02 00 00 00 08");
    input.chunks = vec![span(0, 2), span(2, 9)];
    let mut sizes = plenty(&input);
    // T is 0 and 1, E is 1 and 2.
    (sizes.records, sizes.work) = (7, 8);
    refuses_in(&input, sizes, (3, 1, 0, 8, 3), &[1]);
    (sizes.records, sizes.work) = (8, 11);
    refuses_in(&input, sizes, (3, 1, 0, 12, 4), &[1]);
    (sizes.records, sizes.work) = (4, 7);
    refuses_in(&input, sizes, (3, 0, 0, 8, 4), &[]);
    (sizes.records, sizes.work) = (0, 0);
    refuses_in(&input, sizes, (3, 0, 0, 4, 3), &[]);
    (sizes.records, sizes.work) = (8, 12);
    refuses_in(&input, sizes, (11, 1, 2, 0, 1), &[1]);
}

#[test]
fn an_unreached_switch_costs_its_full_room() {
    let mut input = bench("01 07 31 00 00");
    input.constants = vec![0];
    input.cases = vec![u32::MAX, 0, u32::MAX, 0];
    input.ranges = vec![u32::MAX; 3];
    input.switches = vec![0, 2, 0, 3, u32::MAX];
    let mut sizes = plenty(&input);
    sizes.records = 27;
    refuses_in(&input, sizes, (3, 0, 0, 28, 3), &[]);
    (sizes.records, sizes.work) = (28, 31);
    refuses_in(&input, sizes, (3, 0, 0, 32, 4), &[]);
    sizes.work = 32;
    accepted(&ask(&input, sizes), (3, 2, 2), &[1], &[0, 1, 2]);
}

/// 21,845 switches over full tables: what they need passes 32 bits.
#[test]
#[cfg_attr(debug_assertions, ignore = "1.4e9 constants are tested")]
fn room_for_full_switches_is_exact() {
    let mut input = Input::over(bytes("31 00 00").repeat(21_845));
    input.constants = vec![0];
    input.cases = vec![0; 2 * 65_536];
    input.ranges = vec![0; 65_536];
    input.switches = vec![0, 65_536, 0, 65_536, 0];
    refuses(&input, (3, 0, 0, 11_453_158_744, 3), &[]);
    input.switches = vec![0, 0, 0, 65_536, 0];
    refuses(&input, (3, 0, 0, 5_726_623_064, 3), &[]);
}

#[test]
fn no_chunks_need_no_room() {
    let mut input = bench("01 07 05");
    input.chunks.clear();
    let sizes = Sizes {
        marks: 1,
        heights: 0,
        records: 0,
        work: 0,
    };
    accepted(&ask(&input, sizes), (3, 0, 0), &[], &[0, 1, 2]);
}

// ---------------------------------------------------------------------------------------------
// Chunks and walk
// ---------------------------------------------------------------------------------------------

#[test]
fn spans_out_of_range() {
    let mut input = bench("01 07");
    for (entry, end) in [(0, 3), (2, 1), (3, 3), (u32::MAX, u32::MAX)] {
        input.chunks[0].entry = entry;
        input.chunks[0].end = end;
        let what = (7, 0, 0, u64::from(entry), u64::from(end));
        refuses(&input, what, &[]);
    }
}

#[test]
fn empty_chunks() {
    let mut input = bench("01 38 00 00 00 00");
    for at in [0, 1, 6] {
        input.chunks = vec![span(at, at)];
        refuses(&input, (13, 0, 0, 0, 0), &[]);
        let mut sizes = plenty(&input);
        sizes.records = 3;
        refuses_in(&input, sizes, (3, 0, 0, 4, 3), &[]);
    }
    input.chunks = vec![span(3, 3)];
    refuses(&input, (8, 0, 0, 3, 0), &[]);
}

/// A plain instruction that passes the end gives 13, a branch when its fall-through is taken.
#[test]
fn end_inside_other_instructions() {
    let mut input = bench("25 00 00 07");
    input.chunks = vec![span(0, 2)];
    refuses(&input, (13, 0, 0, 0, 0), &[]);
    let mut input = bench("01 39 00 00 00 00 01 07");
    input.chunks = vec![span(0, 3)];
    refuses(&input, (13, 0, 0, 0, 0), &[]);
}

#[test]
fn the_largest_height() {
    let mut input = Input::over([vec![0x01; 65_535], vec![0x07]].concat());
    let starts: Vec<usize> = (0..65_536).collect();
    input.chunks[0].declared = 65_534;
    refuses(&input, (14, 0, 0, 65_535, 65_534), &[]);
    input.chunks[0].declared = 65_535;
    accepts(&input, (65_536, 65_536, 65_536), &[65_535], &starts);
}

/// 14 waits for the whole walk.
#[test]
fn a_later_kind_comes_before_too_little_declared() {
    let mut input = bench("01 01 01");
    input.chunks[0].declared = 0;
    refuses(&input, (13, 0, 0, 0, 0), &[]);
}

/// Two cases, a range and the default to one place are four edges.
#[test]
fn edges_count_once_for_each_naming() {
    let mut input = bench("01 31 00 00 01 07");
    input.constants = vec![0];
    input.cases = vec![4, 0, 4, 0];
    input.ranges = vec![4];
    input.switches = vec![0, 2, 0, 1, 4];
    accepts(&input, (4, 4, 7), &[1], &[0, 1, 4, 5]);
    input.chunks = vec![span(0, 6); 2];
    accepts(&input, (4, 8, 14), &[1, 1], &[0, 1, 4, 5]);
}

/// The arms are tested in table order before any is followed, and the default is followed
/// first.
#[test]
fn the_order_of_a_switch() {
    let mut input = bench("01 31 00 00 04 07 05 0a");
    input.constants = vec![0];
    input.cases = vec![5, 0];
    input.ranges = vec![7];
    input.switches = vec![0, 1, 0, 1, 4];
    // Default: POP at 4. Range: ITER_DROP at 7. Case: RETURN at 5. Each of them fails.
    refuses(&input, (12, 0, 4, 1, 0), &[]);
    input.switches[4] = 6;
    refuses(&input, (15, 0, 7, 0, 0), &[]);
    input.ranges[0] = 3;
    refuses(&input, (10, 0, 1, 3, 0), &[]);
    input.cases[0] = 8;
    refuses(&input, (9, 0, 1, 8, 0), &[]);
}

/// The fall-through is followed before the target.
#[test]
fn the_order_of_a_branch() {
    let input = bench("01 39 07 00 00 00 0e 0a");
    refuses(&input, (16, 0, 6, 0, 0), &[]);
}

#[test]
fn heights_before_the_refused_chunk() {
    let mut input = bench("01 07 01 01 04 07 07");
    input.chunks = vec![span(0, 2), span(2, 6), span(6, 7), span(0, 2)];
    refuses(&input, (12, 2, 6, 1, 0), &[1, 2]);
    input.chunks = vec![span(2, 6), span(0, 2), span(3, 7)];
    refuses(&input, (12, 2, 5, 1, 0), &[2, 1]);
    input.chunks[2] = span(0, 7);
    accepts(&input, (7, 8, 8), &[2, 1, 1], &[0, 1, 2, 3, 4, 5, 6]);
}

/// The oracle itself is the one without slips.
#[test]
fn verify_has_no_slips() {
    let input = bench("01 07");
    let (mut marks, mut heights) = ([OLD_MARK], [OLD_HEIGHT]);
    let (mut records, mut work) = ([OLD_WORD; 4], [OLD_WORD; 8]);
    let lent = Lent {
        marks: &mut marks,
        heights: &mut heights,
        records: &mut records,
        work: &mut work,
    };
    let verdict = verify(&input, lent);
    assert_eq!(verdict, ask(&input, plenty(&input)).verdict);
    assert_eq!((marks, heights), ([3], [1]));
    assert_eq!((records, work), ([0; 4], [0; 8]));
}
