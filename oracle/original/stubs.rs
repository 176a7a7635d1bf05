//! Stand-ins for the types whose text is absent or which document 01 lays out anew.
//!
//! Only what the compiled texts touch is here. Fields and cases have the original's names,
//! since the texts use them; what they hold comes from document 01's flat tables.

use std::fmt::{self, Display, Formatter};
use std::ops::{BitOr, Deref, Sub};
use std::rc::Rc;

/// The original's integer, which a text names and does not use once `constant_caps` is cut.
#[allow(clippy::upper_case_acronyms)]
pub type INT = i64;

/// A constant: all that is known of it is the rights word that the caller lends.
#[derive(Clone, Copy, Debug)]
pub struct Dynamic(pub u32);

impl Dynamic {
    /// Document 01's 0 is the original's `None`.
    pub fn lent_rights(self) -> Option<Caps> {
        (self.0 != 0).then_some(Caps(self.0))
    }
}

/// A script's function: only whether there is one is asked.
#[derive(Clone, Copy, Debug)]
pub struct Function;

/// An operator token, which a text names in a type that is not used here.
#[derive(Clone, Debug, PartialEq)]
pub struct Token;

/// Rights as a plain word, with document 01's bits. Its last three, FLOAT, DECIMAL and BLOB,
/// were named by the cut body of `constant_caps` alone.
#[derive(Clone, Copy, Debug, PartialEq, Eq)]
pub struct Caps(pub u32);

impl Caps {
    pub const FUNCTION: Self = Self(1);
    pub const THIS: Self = Self(1 << 1);
    pub const INDEXING: Self = Self(1 << 2);
    pub const PROPERTY: Self = Self(1 << 3);
    pub const METHOD: Self = Self(1 << 4);
    pub const FN_PTR: Self = Self(1 << 5);
    pub const CURRYING: Self = Self(1 << 6);
    pub const SHARING: Self = Self(1 << 7);
    pub const ARRAY: Self = Self(1 << 8);
    pub const MAP: Self = Self(1 << 9);
    pub const CUSTOM_SYNTAX: Self = Self(1 << 10);
    pub const EXPORT: Self = Self(1 << 11);
    pub const IMPORT: Self = Self(1 << 12);
    pub const MODULE: Self = Self(1 << 13);

    pub fn empty() -> Self {
        Self(0)
    }

    pub fn contains(self, other: Self) -> bool {
        other.0 & !self.0 == 0
    }

    pub fn insert(&mut self, other: Self) {
        self.0 |= other.0;
    }
}

impl BitOr for Caps {
    type Output = Self;

    fn bitor(self, other: Self) -> Self {
        Self(self.0 | other.0)
    }
}

impl Sub for Caps {
    type Output = Self;

    fn sub(self, other: Self) -> Self {
        Self(self.0 & !other.0)
    }
}

/// The original's refusals hold rights as a string: here the word in decimal.
impl Display for Caps {
    fn fmt(&self, f: &mut Formatter<'_>) -> fmt::Result {
        write!(f, "{}", self.0)
    }
}

/// The names: of each only the flag byte that says whether it is qualified.
#[derive(Clone, Copy, Debug)]
pub struct Strings<'a>(pub &'a [u8]);

impl Strings<'_> {
    pub fn get(&self, index: u32) -> Option<u8> {
        self.0.get(index as usize).copied()
    }

    pub fn len(&self) -> usize {
        self.0.len()
    }
}

pub mod names {
    /// A name has two parts where its lent flag byte is not 0. The parts themselves are not
    /// asked for.
    pub fn split_qualified(flag: u8) -> Option<()> {
        (flag != 0).then_some(())
    }
}

/// A span of a flat table. The table is shared, so that many long spans cost nothing.
#[derive(Clone, Debug)]
pub struct Span<T> {
    pub table: Rc<[T]>,
    pub first: usize,
    pub count: usize,
}

impl<T> Deref for Span<T> {
    type Target = [T];

    fn deref(&self) -> &[T] {
        &self.table[self.first..self.first + self.count]
    }
}

impl<'a, T> IntoIterator for &'a Span<T> {
    type Item = &'a T;
    type IntoIter = std::slice::Iter<'a, T>;

    fn into_iter(self) -> Self::IntoIter {
        self.iter()
    }
}

impl<'a, T: Clone> IntoIterator for &'a mut Span<T> {
    type Item = &'a mut T;
    type IntoIter = std::slice::IterMut<'a, T>;

    fn into_iter(self) -> Self::IntoIter {
        let span = self.first..self.first + self.count;
        Rc::make_mut(&mut self.table)[span].iter_mut()
    }
}

/// A case map as a list: its values come in table order.
#[derive(Clone, Debug)]
pub struct Cases(pub Span<(u32, u32)>);

impl Cases {
    pub fn values(&self) -> std::slice::Iter<'_, (u32, u32)> {
        self.0.iter()
    }

    pub fn values_mut(&mut self) -> std::slice::IterMut<'_, (u32, u32)> {
        (&mut self.0).into_iter()
    }
}

#[derive(Clone, Debug)]
pub struct Switch {
    pub cases: Option<Cases>,
    pub ranges: Span<SwitchRange>,
    pub default: u32,
}

#[derive(Clone, Copy, Debug)]
pub struct SwitchRange {
    pub target: u32,
}

#[derive(Clone, Debug)]
pub struct Chain {
    pub root: Root,
    pub steps: Span<Step>,
    pub tail: Tail,
    pub operands: u32,
}

impl Chain {
    /// Document 01's CHAIN takes its operands word and nothing for its root or its tail.
    pub fn consumes(&self) -> usize {
        self.operands as usize
    }
}

#[derive(Clone, Copy, Debug)]
pub enum Root {
    Local { name: u32 },
    Named { name: u32 },
    This,
    Temporary,
}

#[derive(Clone, Copy, Debug)]
pub enum Step {
    Index,
    Property { name: u32, getter: u32, setter: u32 },
    Method { name: u32 },
}

#[derive(Clone, Copy, Debug)]
pub enum Tail {
    Read,
    Assign { op: Option<u32> },
}

/// A site of custom syntax. Document 01 has none for now, so none is ever made.
#[derive(Clone, Debug)]
pub struct CustomSyntaxSite {
    pub key: u32,
    pub state: u32,
    pub inputs: Vec<((), Option<u32>)>,
}
