//! A walk's context by names. Each step of a walk speaks of entries by their positions; here it is asked for by the
//! entries' names, prints itself and changes the context as antt does.

use crate::text;

pub struct Context {
    entries: Vec<String>,
    /// The locals. Where all of them are named in a row, their positions are printed as `locals-at` of the first.
    locals: Vec<String>,
}

impl Context {
    pub fn new(entries: Vec<String>, locals: &[String]) -> Context {
        let mut context = Context { entries: Vec::new(), locals: locals.to_vec() };
        context.became(0, &entries);
        context
    }

    /// Where the entry of this name stands.
    pub fn at(&self, name: &str) -> usize {
        let found = self.entries.iter().position(|entry| entry == name);
        found.unwrap_or_else(|| panic!("no entry {name}"))
    }

    /// These entries first, and then the others.
    pub fn first(&mut self, names: &[String]) -> String {
        let step = format!("move ! ({}) $", self.positions(names));
        self.entries.retain(|entry| !names.contains(entry));
        self.became(0, names);
        step
    }

    /// These entries and no others.
    pub fn only(&mut self, names: &[String]) -> String {
        let step = format!("keep ! ({}) $", self.positions(names));
        self.became(self.entries.len(), names);
        step
    }

    /// The first so many entries made one.
    pub fn group(&mut self, count: usize, name: &str) -> String {
        self.became(count, &[name.to_string()]);
        format!("group ! {count} $")
    }

    /// The first entry taken apart into these.
    pub fn spread(&mut self, names: &[String]) -> String {
        self.became(1, names);
        format!("spread ! {} $", names.len() - 1)
    }

    /// A step that prints itself elsewhere made these of the first so many entries.
    pub fn became(&mut self, count: usize, names: &[String]) {
        self.entries.splice(..count, names.iter().cloned());
        for (at, entry) in self.entries.iter().enumerate() {
            assert!(!self.entries[..at].contains(entry), "two entries {entry}");
        }
    }

    fn positions(&self, names: &[String]) -> String {
        let numbers: Vec<usize> = names.iter().map(|name| self.at(name)).collect();
        let texts: Vec<String> = numbers.iter().map(usize::to_string).collect();
        let Some(start) = self.locals_among(names) else {
            return text::list(texts);
        };
        let end = start + self.locals.len();
        assert!(numbers[start..end].windows(2).all(|two| two[0] + 1 == two[1]), "the locals stand apart");
        let run = format!("locals-at {}", numbers[start]);
        let behind = text::list(&texts[end..]);
        let run = if end < names.len() { format!("{run} ++ ({behind})") } else { run };
        text::ended("∷", &texts[..start], &run)
    }

    /// Where all locals stand in a row among these names.
    fn locals_among(&self, names: &[String]) -> Option<usize> {
        let starts = 0..names.len();
        starts.into_iter().find(|&start| !self.locals.is_empty() && names[start..].starts_with(&self.locals))
    }
}

#[cfg(test)]
mod tests {
    use super::*;
    use crate::text::laid_out;

    fn named(names: &str) -> Vec<String> {
        names.split_whitespace().map(str::to_string).collect()
    }

    #[test]
    fn entries_move_by_their_names() {
        let mut context = Context::new(named("a b c d"), &named("x y"));
        assert_eq!(laid_out(&context.first(&named("d b"))), "move ! (3 ∷ 1 ∷ []) $\n");
        assert_eq!(context.group(2, "db"), "group ! 2 $");
        assert_eq!(context.spread(&named("d b e")), "spread ! 2 $");
        assert_eq!(laid_out(&context.only(&named("c e"))), "keep ! (4 ∷ 2 ∷ []) $\n");
        assert_eq!(context.at("e"), 1);
    }

    #[test]
    fn all_locals_in_a_row_are_named_at_once() {
        let mut context = Context::new(named("a x y b"), &named("x y"));
        assert_eq!(laid_out(&context.first(&named("x y"))), "move ! (locals-at 1) $\n");
        assert_eq!(laid_out(&context.first(&named("b x y"))), "move ! (3 ∷ locals-at 0) $\n");
        assert_eq!(laid_out(&context.only(&named("x y a"))), "keep ! (locals-at 1 ++ (3 ∷ [])) $\n");
    }

    #[test]
    #[should_panic(expected = "the locals stand apart")]
    fn locals_that_stand_apart_are_not_named_at_once() {
        Context::new(named("x a y"), &named("x y")).first(&named("x y"));
    }

    #[test]
    #[should_panic(expected = "no entry z")]
    fn an_entry_that_is_not_there_is_refused() {
        Context::new(named("a"), &named("x")).at("z");
    }

    #[test]
    #[should_panic(expected = "two entries b")]
    fn two_entries_of_one_name_are_refused() {
        Context::new(named("a b"), &named("x")).became(1, &named("b"));
    }
}
