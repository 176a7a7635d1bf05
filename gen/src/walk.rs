//! A walk of a printed file, followed step by step: its context, and the holes for those of its steps that name
//! positions. The hole of a step is `WALK: STEP`.

use crate::context::Context;
use crate::template::Holes;

pub struct Walk<'a> {
    name: &'a str,
    pub context: Context,
    holes: &'a mut Holes,
}

impl<'a> Walk<'a> {
    pub fn new(name: &'a str, context: Context, holes: &'a mut Holes) -> Walk<'a> {
        Walk { name, context, holes }
    }

    /// A step that changes no position.
    pub fn step(&mut self, step: &str, text: impl Into<String>) {
        self.holes.set(format!("{}: {step}", self.name), text);
    }

    /// These entries first, and then the others.
    pub fn first(&mut self, step: &str, names: &[String]) {
        let text = self.context.first(names);
        self.step(step, text);
    }

    /// These entries and no others.
    pub fn only(&mut self, step: &str, names: &[String]) {
        let text = self.context.only(names);
        self.step(step, text);
    }

    /// These entries first, and then made one.
    pub fn gather(&mut self, step: &str, names: &[String], one: &str) {
        let first = self.context.first(names);
        let group = self.context.group(names.len(), one);
        self.step(step, format!("{first} {group}"));
    }

    /// An entry first, and then taken apart.
    pub fn scatter(&mut self, step: &str, one: &str, names: &[String]) {
        let first = self.context.first(&[one.to_string()]);
        let spread = self.context.spread(names);
        self.step(step, format!("{first} {spread}"));
    }
}
