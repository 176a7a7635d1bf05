//! The original against the oracle, and against the product itself: each of the two is held to
//! what the original answers, and neither is asked for the other's sake. Where the original's
//! text is absent, every test here counts as ignored.

#[cfg(original)]
#[path = "../src/library.rs"]
#[allow(dead_code)] // the call over flat spans is compared elsewhere
mod library;

/// Names the tests in every build, so that they are counted where they cannot run.
macro_rules! compared {
    ($($name:ident)*) => {$(
        #[test]
        #[cfg_attr(not(original), ignore = "the original's text is not here")]
        fn $name() {
            #[cfg(original)]
            compared::$name();
        }
    )*};
}

compared! {
    the_page_lists_every_change
    bench_cases
    replaced_effects
    a_misaligned_entry_is_accepted
    effects_of_every_tag
    rights_of_every_tag
    indices_of_every_tag
    short_codes
    short_spans
    generated_cases
    listings_and_numbers
    wrong_verifiers_are_caught
}

#[cfg(original)]
mod compared {
    use crate::library;
    use oracle::generator::{self, Rng, ShortCodes};
    use oracle::input::{Input, NO_CHUNK};
    use oracle::mocks;
    use oracle::oracle as ours;
    use oracle::original::{self, Answer, Due, Refusal, Subject, Translated};
    use std::collections::{BTreeMap, BTreeSet};

    const ALL_RIGHTS: u32 = (1 << 17) - 1;

    /// Every byte that is a tag of document 01.
    fn tags() -> impl Iterator<Item = u8> {
        (0x01..=0x47).chain([0x4f])
    }

    /// Those that are held to the original.
    const SUBJECTS: [(&str, &Subject); 2] = [
        ("oracle", &|input, memory| {
            ours::verify(input, memory.lend())
        }),
        ("product", &|input, memory| {
            library::verify(input, memory.lend())
        }),
    ];

    /// How often each kind was due, and how many inputs took more room than is ever lent.
    #[derive(Default)]
    struct Tally {
        kinds: BTreeMap<u32, u64>,
        left_out: u64,
    }

    /// Holds both to what is due.
    fn compare(input: &Input, tally: &mut Tally) {
        let Some(due) = Due::of(input) else {
            tally.left_out += 1;
            return;
        };
        for (name, subject) in SUBJECTS {
            if let Err(why) = due.hold(input, subject) {
                panic!("{name}: {why}: {input:?}");
            }
        }
        *tally.kinds.entry(due.kind()).or_default() += 1;
    }

    /// Tells how much was compared, and sees to it that each of these kinds came up.
    fn report(name: &str, tally: &Tally, kinds: &[u32]) {
        let Tally {
            kinds: due,
            left_out,
        } = tally;
        let all: u64 = due.values().sum();
        println!("{name}: {all} compared, {left_out} left out, {due:?}");
        for kind in kinds {
            assert!(due.contains_key(kind), "{name}: kind {kind} never came");
        }
    }

    fn over(code: &[u8]) -> Input {
        Input::over(code.to_vec())
    }

    fn spanned(code: &[u8], entry: u32, end: u32) -> Input {
        Input::spanned(code.to_vec(), entry, end)
    }

    fn refused(kind: u32, chunk: u32, at: u64, p: u64, q: u64) -> Result<Vec<u16>, Refusal> {
        Err(Refusal {
            kind,
            chunk,
            at,
            p,
            q,
        })
    }

    fn original(input: &Input) -> Result<Vec<u16>, Refusal> {
        let translated = Translated::of(input);
        translated.expect("its tables are sound").verify()
    }

    /// Holds the original and both others to an answer written here.
    fn expect(input: &Input, answer: Result<Vec<u16>, Refusal>) {
        assert_eq!(original(input), answer, "{input:?}");
        compare(input, &mut Tally::default());
    }

    /// How many changes there are of each name in each file.
    fn changes() -> BTreeMap<(&'static str, &'static str), usize> {
        let mut counts = BTreeMap::new();
        let mut file = "";
        for line in original::changes().lines() {
            if let Some(name) = line.strip_prefix("+++ compiled/") {
                file = name;
            } else if let Some(place) = line.strip_prefix("@@ ") {
                let (_, label) = place.split_once(" @@ ").expect("a change has a name");
                *counts.entry((file, label)).or_default() += 1;
            }
        }
        counts
    }

    /// Each row of the page's table stands for the changes of one name in one file.
    pub fn the_page_lists_every_change() {
        println!("{}", original::changes());
        let page = include_str!("../../docs/ORIGINAL.md");
        let changes = changes();
        for ((file, label), times) in &changes {
            let row = format!("| {file} | {label} | {times} |");
            assert!(page.contains(&row), "the page lacks: {row}");
        }
        let listed = page.lines().filter(|line| {
            let cell = line.split('|').nth(1).unwrap_or("").trim();
            changes.keys().any(|(file, _)| *file == cell)
        });
        assert_eq!(listed.count(), changes.len(), "the page lists more");
    }

    pub fn bench_cases() {
        expect(&over(&[0x01, 0x07]), Ok(vec![1]));
        let mut low = over(&[0x01, 0x07]);
        low.chunks[0].declared = 0;
        expect(&low, refused(14, 0, 0, 1, 0));
        expect(&over(&[0x07]), refused(12, 0, 0, 1, 0));
        expect(&over(&[0x01]), refused(13, 0, 0, 0, 0));
        expect(&over(&[]), refused(13, 0, 0, 0, 0));
        expect(&over(&[0x38, 0, 0, 0, 0]), Ok(vec![0]));
        expect(&over(&[0x38, 1, 0, 0, 0]), refused(10, 0, 0, 1, 0));
        expect(&over(&[0x38, 5, 0, 0, 0]), refused(9, 0, 0, 5, 0));
        expect(&over(&[0x3c, 255, 255, 255, 255]), refused(15, 0, 0, 0, 0));
        let eight = [1, 9, 0x3c, 0x0d, 0, 0, 0, 4, 0x38, 2, 0, 0, 0, 1, 7];
        expect(&over(&eight), Ok(vec![1]));
        let nine = [0x3d, 6, 0, 0, 0, 0x0e, 1, 7];
        expect(&over(&nine), refused(11, 0, 6, 0, 0));
        let ten = [0x3d, 5, 0, 0, 0, 0x0e, 1, 7];
        expect(&over(&ten), Ok(vec![1]));
        more_bench_cases();
    }

    fn more_bench_cases() {
        let mut curried = over(&[0x01, 0x16, 0x00, 0x07]);
        curried.rights = 32;
        expect(&curried, refused(4, 0, 1, 64, 0));
        let mut constant = over(&[0x01, 0x07]);
        constant.rights = 256;
        constant.constants = vec![768];
        expect(&constant, refused(4, NO_CHUNK, 0, 768, 0));
        expect(&over(&[0x00]), refused(5, NO_CHUNK, 0, 0, 0));
        expect(&over(&[0x24, 0x00]), refused(5, NO_CHUNK, 0, 0, 0));
        let unreached = spanned(&[0x01, 0x07, 0x24, 0x00, 0x00], 0, 2);
        expect(&unreached, refused(6, NO_CHUNK, 2, 0, 1));
        expect(&over(&[0x01, 0x07, 0x0f]), Ok(vec![1]));
        expect(&spanned(&[0x38, 0, 0, 0, 0], 0, 3), Ok(vec![0]));
        expect(&over(&[0x01, 0x0d, 0x07]), Ok(vec![1]));
    }

    /// Cases for the effects that the build step replaces: the published ones would fail them.
    pub fn replaced_effects() {
        expect(&over(&[0x07]), refused(12, 0, 0, 1, 0));
        expect(&over(&[0x01, 0x0c, 0x01, 0x07]), refused(12, 0, 1, 2, 1));
        expect(&over(&[0x15, 0x00, 0x01, 0x07]), Ok(vec![1]));
        expect(&over(&[0x01, 0x15, 0x02, 0x07]), refused(12, 0, 1, 2, 1));
        let mut call = over(&[0x43, 0, 0, 1, 0, 0, 0x07]);
        call.names = vec![0];
        expect(&call, refused(12, 0, 0, 1, 0));
        let mut map = over(&[0x2e, 0x00, 0x00, 0x07]);
        map.rights = ALL_RIGHTS;
        expect(&map, Ok(vec![1]));
        map.code = vec![0x2e, 0x00, 0x80, 0x07];
        expect(&map, refused(12, 0, 0, 65_536, 0));
        let mut switch = over(&[0x01, 0x31, 0, 0, 0x07]);
        switch.switches = vec![0, 0, 0, 0, 4];
        expect(&switch, refused(12, 0, 4, 1, 0));
        let mut chain = over(&[0x01, 0x2c, 0, 0, 0x07]);
        chain.chains = vec![3, 0, 0, 1, 0, 0, 0];
        expect(&chain, Ok(vec![2]));
        chain.chains[2] = u32::MAX;
        expect(&chain, refused(12, 0, 1, u64::from(u32::MAX), 1));
    }

    /// P11: document 01 refuses an entry inside an instruction; the original walks from it.
    pub fn a_misaligned_entry_is_accepted() {
        let mut input = spanned(&[0x24, 0x01, 0x07], 1, 3);
        input.constants = vec![0; 1794];
        assert_eq!(original(&input), Ok(vec![1]));
        let refusal = Refusal {
            kind: 8,
            chunk: 0,
            at: 0,
            p: 1,
            q: 0,
        };
        let due = Due::Answer(Answer {
            refusal: Some(refusal),
            heights: vec![],
            instructions: 1,
        });
        assert_eq!(Due::of(&input), Some(due));
        compare(&input, &mut Tally::default());
    }

    /// An instruction whose indices are `a`, then `c` or its count `b`, in the places where
    /// its tag has them, and whose target is `landing`.
    fn instruction(tag: u8, [a, b, c]: [u8; 3], landing: u8) -> Vec<u8> {
        let bytes = match tag {
            0x38..=0x3d | 0x45 | 0x46 => [tag, landing, 0, 0, 0, c, 0],
            0x36 | 0x37 => [tag, b, a, 0, 0, 0, 0],
            0x42..=0x44 => [tag, a, 0, b, c, 0, 0],
            _ => [tag, a, 0, b, 0, c, 0],
        };
        let width = ours::width(&bytes, 0).expect("a tag");
        bytes[..width].to_vec()
    }

    /// A program around one instruction, with an iterator and a handler there to be taken:
    /// `below` operands under it, `above` taken off after it, and what it jumps to last.
    fn around(tag: u8, operands: [u8; 3], below: usize, above: usize) -> Input {
        let width = instruction(tag, operands, 0).len();
        let landing = (7 + below + width + above + 1) as u8;
        let mut code = vec![0x01, 0x09, 0x3d, landing + 2, 0, 0, 0];
        code.resize(code.len() + below, 0x01);
        code.extend(instruction(tag, operands, landing));
        code.resize(code.len() + above, 0x04);
        code.extend([0x07, 0x01, 0x07, 0x01, 0x07]);
        let landing = u32::from(landing);
        Input {
            rights: ALL_RIGHTS,
            constants: vec![0; 4],
            names: vec![0; 4],
            tokens: 4,
            op_assignments: 4,
            chains: (0..4).flat_map(|k| [k, k, k, k % 3, k, k, 1]).collect(),
            steps: (0..4).flat_map(|k| [k % 3, k, k, k]).collect(),
            switches: (0..4).flat_map(|k| [k, 1, k, 1, landing]).collect(),
            cases: (0..4).flat_map(|k| [landing, k]).collect(),
            ranges: vec![landing; 4],
            ..over(&code)
        }
    }

    pub fn effects_of_every_tag() {
        let mut tally = Tally::default();
        for tag in tags() {
            for case in 0..4 * 9 * 10 {
                let (n, below, above) = (case % 4, case / 4 % 9, case / 36);
                let mut input = around(tag, [n as u8, n as u8, 0], below, above);
                compare(&input, &mut tally);
                input.chunks[0].declared = 4;
                compare(&input, &mut tally);
            }
        }
        report("effects", &tally, &[0, 6, 12, 14]);
    }

    pub fn rights_of_every_tag() {
        let mut tally = Tally::default();
        for tag in tags() {
            for case in 0..4 * 18 * 3 * 2 {
                let (n, bit) = (case % 4, case / 4 % 18);
                let (flag, below) = (case / 72 % 3, case / 216 * 8);
                let mut input = around(tag, [n as u8, n as u8, 0], below, 0);
                input.rights &= !(1 << bit);
                input.names.fill(flag as u8);
                compare(&input, &mut tally);
                input.functions = 1;
                compare(&input, &mut tally);
            }
        }
        report("rights", &tally, &[0, 4, 12]);
    }

    /// Every index against pools of every small size, the names' size apart from the others'.
    pub fn indices_of_every_tag() {
        let mut tally = Tally::default();
        for tag in tags() {
            for case in 0u32..64 * 5 * 5 {
                let digit = |place: u32| (case >> (2 * place) & 3) as u8;
                let (names, others) = (case / 64 % 5, case / 320);
                let mut input = around(tag, [digit(0), digit(1), digit(2)], 8, 0);
                input.names.truncate(names as usize);
                input.constants.truncate(others as usize);
                input.tokens = u64::from(others);
                input.op_assignments = u64::from(others);
                compare(&input, &mut tally);
                input.chains.truncate(7 * others as usize);
                input.switches.truncate(5 * others as usize);
                compare(&input, &mut tally);
            }
        }
        report("indices", &tally, &[0, 6]);
    }

    pub fn short_codes() {
        let alphabet = [0x00, 0x01, 0x04, 0x07, 0x09, 0x0a, 0x0e, 0x15, 0x2d];
        let bytes: Vec<&[u8]> = alphabet.chunks(1).collect();
        let pools = Input {
            rights: ALL_RIGHTS,
            ..Input::default()
        };
        let mut tally = Tally::default();
        for case in ShortCodes::of_pieces(&bytes, 6, pools) {
            compare(&case.input, &mut tally);
        }
        report("short codes", &tally, &[0, 5, 12, 13, 15, 16]);
    }

    /// Up to three instructions, branches to all places that these can have among them, and
    /// every span over the code.
    pub fn short_spans() {
        let mut pieces: Vec<Vec<u8>> = vec![vec![1], vec![4], vec![7], vec![9], vec![0x0e]];
        for branch in [0x38, 0x39, 0x3b, 0x3c, 0x3d] {
            for target in [0, 1, 2, 5, 6, 10] {
                pieces.push(vec![branch, target, 0, 0, 0]);
            }
        }
        let pieces: Vec<&[u8]> = pieces.iter().map(Vec::as_slice).collect();
        let mut tally = Tally::default();
        for case in ShortCodes::of_pieces(&pieces, 3, Input::default()) {
            let length = case.input.code.len() as u32;
            for entry in 0..=length {
                for end in entry.saturating_sub(1)..=length + 1 {
                    let input = spanned(&case.input.code, entry, end);
                    compare(&input, &mut tally);
                }
            }
        }
        report("short spans", &tally, &[0, 7, 8, 9, 10, 11, 12, 13, 15, 16]);
    }

    pub fn generated_cases() {
        let mut tally = Tally::default();
        for seed in 0..500_000 {
            let case = generator::case(seed);
            compare(&case.input, &mut tally);
        }
        let all = [0, 1, 2, 4, 5, 6, 7, 8, 9, 10, 11, 12, 13, 14, 15, 16];
        report("generated cases", &tally, &all);
    }

    /// Mostly tags, so that a listing goes on for some instructions.
    fn mostly_tags(rng: &mut Rng) -> Vec<u8> {
        let byte = |rng: &mut Rng| match rng.below(16) {
            0 => rng.byte(),
            _ => rng.below(0x50) as u8,
        };
        (0..rng.below(24)).map(|_| byte(rng)).collect()
    }

    pub fn listings_and_numbers() {
        let mut rng = Rng::new(3);
        for _ in 0..200_000 {
            let code = mostly_tags(&mut rng);
            let (listed, _) = ours::listing(&code);
            assert_eq!(original::disassemble(&code), listed, "{code:?}");
            for at in 0..code.len() + 3 {
                let found = (
                    original::width(&code, at),
                    original::u16_at(&code, at),
                    original::u32_at(&code, at),
                );
                let wanted = (
                    ours::width(&code, at),
                    ours::u16_at(&code, at),
                    ours::u32_at(&code, at),
                );
                assert_eq!(found, wanted, "{code:?} at {at}");
            }
        }
        for byte in 0..=255 {
            let code = [byte, 0, 0, 0, 0, 0, 0];
            for length in 0..=7 {
                let cut = &code[..length];
                assert_eq!(original::width(cut, 0), ours::width(cut, 0), "{cut:?}");
            }
        }
    }
    /// The wrong verifiers that pass, by what is wrong with them: the original does not tell it.
    const UNTOLD: [(&str, &[&str]); 5] = [
        (
            "marks, records and work, which it does not have",
            &[
                "a last word without a bit stays",
                "all stays when no chunk is come to",
                "marks are not cleared after a refusal",
                "marks cleared before kind 1",
                "marks cleared before kind 2",
                "marks past the needed words stay",
                "only starts in chunks are marked",
                "records cleared before kind 1",
                "records cleared before kind 2",
                "records stay after a refusal",
                "records stay after acceptance",
                "starts stay after a refusal",
                "the code's end is marked",
                "the last record stays",
                "the last work item stays",
                "work cleared before kind 1",
                "work cleared before kind 2",
                "work stays after a refusal",
                "work stays after acceptance",
                "writes before the marks",
                "writes before the records",
                "writes before the work",
                "writes behind the marks",
                "writes behind the records",
                "writes behind the work",
            ],
        ),
        (
            "too little room, which it does not know",
            &[
                "all stays when a chunk finds no room",
                "default_not_in_t",
                "heights cleared before kind 3",
                "marks cleared before kind 3",
                "records cleared before kind 3",
                "room counted in bytes",
                "room in 32 bits",
                "work cleared before kind 3",
            ],
        ),
        (
            "counts that it does not answer",
            &[
                "invents counts",
                "reached_counts_dropped",
                "refuses with the instructions counted",
                "taken counts edges only",
                "taken counts no item that is dropped",
            ],
        ),
        (
            "numbers of kinds 0, 1 and 2, which are document 01's",
            &[
                "accepts with chunk 0",
                "entries counted from 1",
                "limits numbered as the arguments are",
            ],
        ),
        (
            "changes of what is read, which its types rule out",
            &["changes the code", "lowers the declared heights"],
        ),
    ];

    /// The names of the wrong verifiers that pass over generated cases.
    fn passing() -> BTreeSet<String> {
        let mut left = mocks::all();
        for seed in 0..10_000 {
            let input = generator::case(seed).input;
            let Some(due) = Due::of(&input) else { continue };
            left.retain(|mock| {
                let subject: &Subject = &|input, memory| (mock.ask)(&mut input.clone(), memory);
                due.hold(&input, subject).is_ok()
            });
        }
        left.into_iter().map(|mock| mock.name).collect()
    }

    pub fn wrong_verifiers_are_caught() {
        let untold = UNTOLD.iter().flat_map(|(_, names)| *names);
        let untold: BTreeSet<String> = untold.map(|name| name.to_string()).collect();
        let caught = mocks::all().len() - untold.len();
        assert_eq!(passing(), untold);
        println!("{caught} wrong verifiers caught, {} untold", untold.len());
    }
}
