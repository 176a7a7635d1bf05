//! The long run: generated cases, each answered by the product and by the oracle, and compared
//! down to each element of the lent memory; one case in eight over flat spans too.
//!
//! The arguments are the number of cases and the first seed. It prints how often each answer came
//! and how long the run took, or the first case in which something differs.

#[cfg(library)]
#[path = "../library.rs"]
mod library;

#[cfg(library)]
fn main() -> std::process::ExitCode {
    use library::Spans;
    use oracle::compare;
    use std::process::ExitCode;
    use std::time::Instant;

    const FLAT: usize = 8;
    let mut arguments = std::env::args().skip(1).map(|text| text.parse());
    let (Some(Ok(cases)), Some(Ok(first)), None) =
        (arguments.next(), arguments.next(), arguments.next())
    else {
        eprintln!("the arguments are a number of cases and the first seed");
        return ExitCode::FAILURE;
    };
    let seeds = first..first + cases;
    let begun = Instant::now();
    let flat = compare::sweep(seeds.clone().step_by(FLAT), &|input, lent| {
        library::verify_flat(input, &Spans::of(&input.chunks), lent)
    });
    match flat.and_then(|_| compare::sweep(seeds, &library::verify)) {
        Ok(tally) => {
            print!("{tally}");
            println!("seeds from {first}, {:.0} s", begun.elapsed().as_secs_f64());
            ExitCode::SUCCESS
        }
        Err(finding) => {
            println!("{finding}");
            ExitCode::FAILURE
        }
    }
}

#[cfg(not(library))]
fn main() {
    panic!("`rt lib` in crates/grain and in crates/probe makes what this program links");
}
