//! A text with holes. A hole is a name in `⟨⟩`; a text with several lines that fills one stands as far in as its line.

use std::collections::{BTreeMap, BTreeSet};

/// What stands in each hole, by the hole's name.
#[derive(Default)]
pub struct Holes(BTreeMap<String, String>);

impl Holes {
    /// Panics where the hole has a text already: one of the two would be lost.
    pub fn set(&mut self, name: impl Into<String>, text: impl Into<String>) {
        let name = name.into();
        assert!(!self.0.contains_key(&name), "two texts for the hole {name}");
        self.0.insert(name, text.into());
    }

    /// The template with every hole filled. Panics where a hole has no text, or a text no hole.
    pub fn fill(&self, template: &str) -> String {
        let mut used = BTreeSet::new();
        let lines: Vec<String> = template.lines().map(|line| self.fill_line(line, &mut used)).collect();
        let unused: Vec<&String> = self.0.keys().filter(|name| !used.contains(*name)).collect();
        assert!(unused.is_empty(), "no hole for {unused:?}");
        lines.join("\n") + "\n"
    }

    fn fill_line(&self, line: &str, used: &mut BTreeSet<String>) -> String {
        let indent = " ".repeat(line.len() - line.trim_start_matches(' ').len());
        let mut filled = String::new();
        let mut rest = line;
        while let Some((before, behind)) = rest.split_once('⟨') {
            let (name, after) = behind.split_once('⟩').expect("a hole that is not closed");
            let text = self.0.get(name).unwrap_or_else(|| panic!("no text for the hole {name}"));
            used.insert(name.to_string());
            filled.push_str(before);
            filled.push_str(&text.replace('\n', &format!("\n{indent}")));
            rest = after;
        }
        filled + rest
    }
}

#[cfg(test)]
mod tests {
    use super::*;

    fn holes() -> Holes {
        let mut holes = Holes::default();
        holes.set("a", "1");
        holes.set("b", "2\n3");
        holes
    }

    #[test]
    fn holes_are_filled_and_lines_stand_under_each_other() {
        assert_eq!(holes().fill("x ⟨a⟩ y\n  ⟨b⟩"), "x 1 y\n  2\n  3\n");
    }

    #[test]
    #[should_panic(expected = "no text for the hole c")]
    fn a_hole_wants_a_text() {
        holes().fill("⟨a⟩ ⟨b⟩ ⟨c⟩");
    }

    #[test]
    #[should_panic(expected = "no hole for")]
    fn a_text_wants_a_hole() {
        holes().fill("⟨a⟩");
    }
}
