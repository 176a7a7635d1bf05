//! Lists and tuples as antt writes them, and lines broken where they may be.

/// The longest line that is printed where it can be broken.
pub const WIDTH: usize = 120;

/// Where a line may be broken; a space where it is not.
const BREAK: char = '\t';

/// `a op b op c`, which may be broken behind each `op`.
pub fn chain<S: AsRef<str>>(op: &str, items: impl IntoIterator<Item = S>) -> String {
    let items: Vec<S> = items.into_iter().collect();
    let items: Vec<&str> = items.iter().map(AsRef::as_ref).collect();
    items.join(&format!(" {op}{BREAK}"))
}

/// `a ∷ b ∷ c`.
pub fn conses<S: AsRef<str>>(items: impl IntoIterator<Item = S>) -> String {
    chain("∷", items)
}

/// The list `a ∷ b ∷ []`.
pub fn list<S: AsRef<str>>(items: impl IntoIterator<Item = S>) -> String {
    ended("∷", items, "[]")
}

/// The tuple `a ▸ b ▸ tt`, which is `(a, (b, tt))`.
pub fn tuple<S: AsRef<str>>(items: impl IntoIterator<Item = S>) -> String {
    ended("▸", items, "tt")
}

/// `a op b op end`.
pub fn ended<S: AsRef<str>>(op: &str, items: impl IntoIterator<Item = S>, end: &str) -> String {
    let items = items.into_iter().map(|item| item.as_ref().to_string());
    chain(op, items.chain([end.to_string()]))
}

/// `a b c`, which may be broken between any two.
pub fn words<S: AsRef<str>>(items: impl IntoIterator<Item = S>) -> String {
    let items: Vec<String> = items.into_iter().map(|item| item.as_ref().to_string()).collect();
    items.join(&BREAK.to_string())
}

/// One to a line.
pub fn lines<S: AsRef<str>>(items: impl IntoIterator<Item = S>) -> String {
    let items: Vec<String> = items.into_iter().map(|item| item.as_ref().to_string()).collect();
    items.join("\n")
}

/// `(op a (op b end))`, which may be broken before each bracket but the first.
pub fn nest<S: AsRef<str>>(op: &str, items: impl IntoIterator<Item = S>, end: &str) -> String {
    let opened: Vec<String> = items.into_iter().map(|item| format!("({op} {}{BREAK}", item.as_ref())).collect();
    format!("{}{end}{}", opened.concat(), ")".repeat(opened.len()))
}

/// The part of a tuple with this number: `value .1 .1 .0` is the part 2.
pub fn part(value: &str, number: usize) -> String {
    format!("{value}{} .0", " .1".repeat(number))
}

/// The text with no line longer than `WIDTH` that can be broken. What is broken off stands as far in as its line.
pub fn laid_out(text: &str) -> String {
    let lines: Vec<String> = text.lines().map(str::trim_end).map(broken).collect();
    lines.join("\n") + "\n"
}

fn broken(line: &str) -> String {
    let indent = " ".repeat(line.len() - line.trim_start_matches(' ').len());
    let mut pieces = line.split(BREAK);
    let mut lines = Vec::new();
    let mut last = pieces.next().unwrap_or_default().to_string();
    for piece in pieces {
        if last.chars().count() + 1 + piece.chars().count() <= WIDTH {
            last = format!("{last} {piece}");
        } else {
            lines.push(std::mem::replace(&mut last, format!("{indent}{piece}")));
        }
    }
    lines.push(last);
    lines.join("\n")
}

#[cfg(test)]
mod tests {
    use super::*;

    #[test]
    fn lists_and_tuples_read_as_antt() {
        assert_eq!(laid_out(&list(["a", "b"])), "a ∷ b ∷ []\n");
        assert_eq!(laid_out(&tuple(["a", "b"])), "a ▸ b ▸ tt\n");
        assert_eq!(
            laid_out(&nest("and-then !", ["a", "b"], "(no-more !)")),
            "(and-then ! a (and-then ! b (no-more !)))\n"
        );
        assert_eq!(part("ws", 0), "ws .0");
        assert_eq!(part("ws", 2), "ws .1 .1 .0");
    }

    #[test]
    fn a_long_line_is_broken_and_a_short_one_is_not() {
        let long = format!("    {}", list(vec!["x".repeat(50); 3]));
        let x = "x".repeat(50);
        assert_eq!(laid_out(&long), format!("    {x} ∷ {x} ∷\n    {x} ∷ []\n"));
        assert_eq!(laid_out(&"y".repeat(200)), format!("{}\n", "y".repeat(200)));
    }
}
