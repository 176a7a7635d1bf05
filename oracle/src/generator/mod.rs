//! Cases to try a verifier on, each repeated by its seed.
//!
//! - `rng`: the numbers drawn.
//! - `shapes`: what stands behind each tag.
//! - `room`: how much memory is lent.
//! - `builder`, `program`, `values`: programs that are right by construction.
//! - `damage`: such programs with something broken.
//! - `random`: instructions, bytes and table words without a plan.
//! - `limits`: everything at its bounds.
//! - `short`: all short codes.
//! - `tally`: how often each answer came.

mod builder;
mod damage;
mod limits;
mod program;
mod random;
mod rng;
mod room;
mod shapes;
mod short;
mod tally;
mod values;

pub use limits::{with_count, LIMITS};
pub use program::large;
pub use rng::Rng;
pub use room::{chunk_needs, Room};
pub use short::ShortCodes;
pub use tally::Tally;

use crate::input::Input;

/// An input, and how much memory is lent for it.
#[derive(Clone, Debug, PartialEq, Eq)]
pub struct Case {
    pub input: Input,
    pub room: Room,
}

/// One way to make cases.
#[derive(Clone, Copy, Debug)]
pub struct Family {
    pub name: &'static str,
    /// How often it is drawn, against the others.
    pub weight: usize,
    pub make: fn(&mut Rng) -> Case,
}

/// All families, with the weights of a mixed run.
pub fn families() -> &'static [Family] {
    const fn family(name: &'static str, weight: usize, make: fn(&mut Rng) -> Case) -> Family {
        Family { name, weight, make }
    }
    const FAMILIES: &[Family] = &[
        family("balanced", 4000, balanced),
        family("damaged", 3600, damage::damaged),
        family("instructions", 1200, random::instructions),
        family("bytes", 300, random::bytes),
        family("words", 200, random::words),
        family("rooms", 500, limits::at_the_room),
        family("marks", 180, limits::at_a_word),
        family("limits", 40, limits::at_a_limit),
        family("extremes", 5, limits::extreme),
    ];
    FAMILIES
}

/// A good program with enough room.
fn balanced(rng: &mut Rng) -> Case {
    let input = program::good(rng);
    let room = Room::enough(rng, &input);
    Case { input, room }
}

/// The case of a seed, from all families mixed.
pub fn case(seed: u64) -> Case {
    let mut rng = Rng::new(seed);
    let all = families().iter().map(|family| family.weight).sum();
    let mut draw = rng.below(all);
    for family in families() {
        if draw < family.weight {
            return (family.make)(&mut rng);
        }
        draw -= family.weight;
    }
    unreachable!("the draw is below the sum of the weights")
}

/// The case of a seed from the family of this name, where there is one.
pub fn case_of(name: &str, seed: u64) -> Option<Case> {
    let family = families().iter().find(|family| family.name == name)?;
    Some((family.make)(&mut Rng::new(seed)))
}
