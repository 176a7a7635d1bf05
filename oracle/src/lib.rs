//! The judge of the Rattle code: what document 01 says, in plain Rust.
//!
//! - `input`: what goes in, what is lent, what comes back.
//! - `tables`: document 01's tables, looked up by a tag's number.
//! - `oracle`: the right answer, and wrong ones on demand.
//! - `second`: a second opinion on the chunks, from the definition instead of the walk.
//! - `bench`: document 01's bench cases with their answers.
//! - `generator`: cases to try a verifier on, each repeated by its seed.
//! - `compare`: the oracle and another verifier on the same case, down to each element.
//! - `mocks`: wrong verifiers, which the comparison has to tell from the right one.
//! - `tuned`: the same answers as fast as plain Rust gives them, to measure against.
//! - `original`: the code that the oracle stands for, compiled where its text is at hand.
//!
//! `library.rs` is no module of this crate, so that the crate can be built where the proved
//! libraries are not: the programs that link them take that file in by its path.

pub mod bench;
pub mod compare;
pub mod generator;
pub mod input;
pub mod mocks;
pub mod oracle;
pub mod original;
pub mod second;
pub mod tables;
pub mod tuned;
