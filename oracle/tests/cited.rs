//! What a page cites is there. The pages are README.md and those of docs/; the sources are all
//! other files of the repository but this one, what is hidden, and what is built.
//!
//! - A relative link leads to a file or a folder, seen from its page.
//! - A path that begins with a folder of the repository's root leads to one, too.
//! - A crate's name, `/` and a name that begins with a capital are the crate's file of that name, in
//!   its specs, in its proofs, or in both.
//! - A word in backquotes, or each part of it where `::`, `.` or `/` divide it, is a word of the
//!   sources or of their paths. In it `*` stands for anything, and a last `-` for what may follow.
//!   Several words in backquotes are an example, and are not looked at.
//! - A path with `::` leads to something that is declared where the path says.
//! - Names in backquotes before "in" and a file, or the text of a link that stands on the page,
//!   are declared in that file. Before "in" and a crate the last name is declared in the crate, or
//!   is an edit of it.
//! - Names in backquotes after "edit" or "edits", or in a column headed so, are must-fail edits.
//! - A table of crates has a row for each crate of crates.txt, and for no other.
//!
//! Of docs/LANDINGS.md, docs/PORT.md and docs/DESIGN-PASS.md only the links count: they tell what was.

use std::collections::{BTreeMap, BTreeSet};
use std::fs;
use std::path::Path;

/// The pages that tell what was.
const HISTORY: [&str; 3] = ["docs/LANDINGS.md", "docs/PORT.md", "docs/DESIGN-PASS.md"];

/// Where a path leads to what is built.
const BUILT: [&str; 2] = ["target", "out"];

/// Words that a page may cite though no source has them, each with the reason.
const ELSEWHERE: [(&str, &str); 1] = [("decode", "a function of the original")];

/// The folders of the root that a path may begin with.
const FOLDERS: [&str; 6] = ["crates", "docs", "examples", "include", "oracle", "rust"];

/// How many citations the pages have at least: with fewer, they are not read right.
const LEAST: usize = 300;

/// Files by their paths from the root.
type Files = BTreeMap<String, String>;

// ---------------------------------------------------------------------------------------------
// The repository
// ---------------------------------------------------------------------------------------------

struct House {
    pages: Files,
    sources: Files,
    /// The words of the sources and of their paths.
    words: BTreeSet<String>,
    crates: BTreeSet<String>,
}

impl House {
    fn of(files: Files) -> House {
        let (pages, sources): (Files, Files) = files
            .into_iter()
            .partition(|(path, _)| path.ends_with(".md"));
        let listed = sources["crates.txt"].lines();
        let listed = listed.filter_map(|line| line.split_once(':'));
        let named = listed.filter_map(|(line, _)| line.split_whitespace().next());
        let crates = named.map(str::to_string).collect();
        let texts = sources.iter().flat_map(|(path, text)| [path, text]);
        let words = texts.flat_map(|text| words_of(text)).map(str::to_string);
        House {
            words: words.collect(),
            pages,
            sources,
            crates,
        }
    }

    /// Whether there is a file or a folder of this path.
    fn is_there(&self, path: &str) -> bool {
        let mut all = self.pages.keys().chain(self.sources.keys());
        all.any(|file| lies_in(file, path))
    }

    /// The files of a crate's specs and proofs that a short path names, as `sums/Sums`.
    fn short(&self, path: &str) -> Option<Vec<String>> {
        let (folder, file) = path.split_once('/')?;
        let named = self.crates.contains(folder) && file.starts_with(char::is_uppercase);
        let parts = ["specs", "proofs"].map(|part| format!("crates/{folder}/{part}/{file}.antt"));
        named.then(|| {
            let there = parts.into_iter().filter(|path| self.is_there(path));
            there.collect()
        })
    }

    /// The sources in a folder, or the one of this path.
    fn sources_in<'a>(&'a self, place: &str) -> Vec<(&'a str, &'a str)> {
        let all = self.sources.iter();
        all.filter(|(path, _)| lies_in(path, place))
            .map(|(path, text)| (path.as_str(), text.as_str()))
            .collect()
    }

    /// Whether a file, or one of a folder's files, declares a name or has it as its own.
    fn stands_in(&self, name: &str, place: &str) -> bool {
        let files = self.sources_in(place);
        files
            .iter()
            .any(|(path, text)| stem(path) == name || declares(path, text, name))
    }

    fn is_edit(&self, name: &str) -> bool {
        let file = format!("/must-fail/{name}.edit");
        self.sources.keys().any(|path| path.ends_with(&file))
    }

    /// Whether some word of the sources is this part of a name, or fits it.
    fn knows(&self, part: &str) -> bool {
        let pattern = match part.strip_suffix('-') {
            Some(head) => format!("{head}-*"),
            None => part.to_string(),
        };
        match pattern.contains('*') {
            true => self.words.iter().any(|word| fits(word, &pattern)),
            false => self.words.contains(part),
        }
    }

    /// Whether a path with `::` leads to something: from a crate, else from a file or a type of
    /// any crate, on to files and to what they declare.
    fn declares(&self, name: &str) -> bool {
        let mut parts = name.split("::");
        let first = parts.next().unwrap_or("");
        let mut files = match first {
            "oracle" => self.sources_in("oracle/src"),
            _ if self.crates.contains(first) => self.sources_in(&format!("crates/{first}/src")),
            _ => narrowed(self.sources_in(""), first),
        };
        for part in parts {
            files = narrowed(files, part);
        }
        !files.is_empty()
    }
}

/// The files of this name, or those that declare it where no file has it.
fn narrowed<'a>(files: Vec<(&'a str, &'a str)>, name: &str) -> Vec<(&'a str, &'a str)> {
    let named = files.iter().any(|(path, _)| stem(path) == name);
    let keeps = |(path, text): &(&str, &str)| match named {
        true => stem(path) == name,
        false => declares(path, text, name),
    };
    files.into_iter().filter(keeps).collect()
}

/// Whether a source declares a name: a definition begins a line of its own, and anything else
/// stands behind a word that says what it is. In a header each word counts.
fn declares(path: &str, text: &str, name: &str) -> bool {
    const BEFORE: [&str; 7] = ["fn", "struct", "enum", "const", "mod", "type", "trait"];
    const MARKS: [&str; 6] = ["pub", "abbrev", "unfoldable", "record", "data", "module"];
    if path.ends_with(".antt") {
        let first = |line| words_of(line).find(|word| !MARKS.contains(word));
        return text.lines().any(|line| first(line) == Some(name));
    }
    let words: Vec<&str> = words_of(text).collect();
    let header = path.ends_with(".h") && words.contains(&name);
    let behind = |pair: &[&str]| pair[1] == name && BEFORE.contains(&pair[0]);
    header || words.windows(2).any(behind)
}

/// Whether a file is the one of this path, or lies in the folder of this path.
fn lies_in(file: &str, place: &str) -> bool {
    let place = place.trim_end_matches('/');
    let rest = file.strip_prefix(place);
    place.is_empty() || rest.is_some_and(|rest| rest.is_empty() || rest.starts_with('/'))
}

/// The name of a file without its ending.
fn stem(path: &str) -> &str {
    let name = path.rsplit('/').next().unwrap_or(path);
    name.split('.').next().unwrap_or(name)
}

/// Reads the files below a folder, which is given from the root.
fn read(root: &Path, folder: &str, files: &mut Files) {
    for entry in fs::read_dir(root.join(folder)).expect("a folder can be listed") {
        let entry = entry.expect("an entry can be listed");
        let name = entry.file_name().to_string_lossy().into_owned();
        let path = format!("{folder}{name}");
        if name.starts_with('.')
            || BUILT.contains(&name.as_str())
            || path == "oracle/tests/cited.rs"
        {
            continue;
        }
        if entry.path().is_dir() {
            read(root, &format!("{path}/"), files);
        } else {
            let bytes = fs::read(entry.path()).expect("a file can be read");
            files.insert(path, String::from_utf8_lossy(&bytes).into_owned());
        }
    }
}

// ---------------------------------------------------------------------------------------------
// Words, and what a line of a page has
// ---------------------------------------------------------------------------------------------

/// Letters, digits, `_` and `-` make words.
fn words_of(text: &str) -> impl Iterator<Item = &str> {
    let parts = |letter: char| !(letter.is_alphanumeric() || "_-".contains(letter));
    text.split(parts).filter(|word| !word.is_empty())
}

/// Whether a word fits a pattern, in which `*` stands for anything.
fn fits(word: &str, pattern: &str) -> bool {
    let Some((head, tail)) = pattern.split_once('*') else {
        return word == pattern;
    };
    let Some(rest) = word.strip_prefix(head) else {
        return false;
    };
    let mut places = rest.char_indices().map(|(at, _)| at).chain([rest.len()]);
    places.any(|at| fits(&rest[at..], tail))
}

/// Whether what stands in backquotes is a name, a pattern or a path.
fn is_name(quoted: &str) -> bool {
    let allowed = |letter: char| letter.is_alphanumeric() || "_-*:./".contains(letter);
    quoted.chars().all(allowed) && quoted.contains(char::is_alphabetic)
}

/// What stands in backquotes one after the other, with commas or an "and" between, and the text
/// on both sides.
struct Run<'a> {
    names: Vec<&'a str>,
    before: &'a str,
    after: &'a str,
}

fn runs(line: &str) -> Vec<Run<'_>> {
    let mut runs: Vec<Run> = Vec::new();
    let mut rest = line;
    while let Some((before, name, after)) = quoted(rest) {
        let joined = matches!(before, ", " | " and " | ", and ");
        match runs.last_mut().filter(|_| joined) {
            Some(run) => {
                run.names.push(name);
                run.after = after;
            }
            None => runs.push(Run {
                names: vec![name],
                before,
                after,
            }),
        }
        rest = after;
    }
    runs
}

/// What stands first in backquotes, with the text on both sides.
fn quoted(text: &str) -> Option<(&str, &str, &str)> {
    let (before, rest) = text.split_once('`')?;
    let (name, after) = rest.split_once('`')?;
    Some((before, name, after))
}

/// The relative links of a line: their texts and where they lead.
fn links(line: &str) -> Vec<(&str, &str)> {
    let mut links = Vec::new();
    for (at, _) in line.match_indices("](") {
        let text = line[..at].rsplit('[').next().unwrap_or("");
        let target = line[at + 2..].split([')', '#']).next().unwrap_or("");
        if !target.is_empty() && !target.contains("://") {
            links.push((text, target));
        }
    }
    links
}

/// The cells of a table's row; none where a line is no row.
fn cells(line: &str) -> Vec<&str> {
    let row = line.strip_prefix('|').and_then(|row| row.strip_suffix('|'));
    row.map_or(Vec::new(), |row| row.split('|').map(str::trim).collect())
}

// ---------------------------------------------------------------------------------------------
// The rules
// ---------------------------------------------------------------------------------------------

/// A page under way.
struct Reader<'a> {
    house: &'a House,
    path: &'a str,
    /// Where the links of each text lead, from the root.
    linked: BTreeMap<&'a str, Vec<String>>,
    cited: usize,
    complaints: Vec<String>,
}

impl<'a> Reader<'a> {
    fn demand(&mut self, holds: bool, why: &str, what: &str) {
        self.cited += 1;
        if !holds {
            let complaint = format!("{}: {why}: {what}", self.path);
            self.complaints.push(complaint);
        }
    }

    /// A link's target, seen from the root.
    fn seen_from_root(&self, target: &str) -> String {
        match (self.path.starts_with("docs/"), target.strip_prefix("../")) {
            (true, Some(path)) => path.to_string(),
            (true, None) => format!("docs/{target}"),
            (false, _) => target.to_string(),
        }
    }

    fn follow_links(&mut self, line: &'a str) {
        for (text, target) in links(line) {
            let path = self.seen_from_root(target);
            self.demand(self.house.is_there(&path), "no such file", target);
            self.linked.entry(text).or_default().push(path);
        }
    }

    fn check_line(&mut self, line: &str) {
        self.check_paths(line);
        for run in runs(line) {
            run.names.iter().for_each(|name| self.check_name(name));
            self.check_places(&run);
            if ["edit ", "edits "]
                .iter()
                .any(|word| run.before.ends_with(word))
            {
                self.check_edits(&run);
            }
        }
    }

    fn check_paths(&mut self, line: &str) {
        let parts = |letter: char| !(letter.is_alphanumeric() || "_-./".contains(letter));
        for word in line.split(parts) {
            let path = word.trim_end_matches(['.', '/']);
            let folder = path.split_once('/').map(|(folder, _)| folder);
            let built = path.split('/').any(|step| BUILT.contains(&step));
            if folder.is_some_and(|folder| FOLDERS.contains(&folder)) && !built {
                self.demand(self.house.is_there(path), "no such path", path);
            }
            if let Some(files) = self.house.short(path) {
                self.demand(!files.is_empty(), "no such file", path);
            }
        }
    }

    fn check_name(&mut self, name: &str) {
        let elsewhere = ELSEWHERE.iter().any(|(word, _)| *word == name);
        if !is_name(name) || elsewhere || name.starts_with("../shared/") {
            return;
        }
        let mut parts = name.split([':', '.', '/']).filter(|part| !part.is_empty());
        let known = parts.all(|part| self.house.knows(part));
        self.demand(known, "no source has it", name);
        if name.contains("::") {
            self.demand(self.house.declares(name), "not declared there", name);
        }
    }

    /// Names before "in" and a place. One with `::` says itself where it stands.
    fn check_places(&mut self, run: &Run) {
        let Some(text) = run.after.strip_prefix(" in ") else {
            return;
        };
        let (places, names) = match text.strip_prefix('`') {
            Some(text) => (self.crate_named(text), &run.names[run.names.len() - 1..]),
            None => (self.files_named(text), &run.names[..]),
        };
        for name in names {
            if places.is_empty() || !is_name(name) || name.contains("::") {
                continue;
            }
            let last = name.rsplit('.').next().unwrap_or(name);
            let there = places.iter().any(|place| self.house.stands_in(last, place));
            self.demand(there, "not there", &format!("{name} in {places:?}"));
        }
    }

    fn crate_named(&self, text: &str) -> Vec<String> {
        let name = text.split('`').next().unwrap_or("");
        let folder = format!("crates/{name}");
        let known = self.house.crates.contains(name);
        known.then_some(folder).into_iter().collect()
    }

    /// The files that a text begins with: a link, a path, or the texts of links.
    fn files_named(&self, text: &str) -> Vec<String> {
        if text.starts_with('[') {
            let first = links(text).into_iter().take(1);
            return first
                .map(|(_, target)| self.seen_from_root(target))
                .collect();
        }
        let mut files = Vec::new();
        for word in text.split([' ', ',']).filter(|word| !word.is_empty()) {
            let name = word.trim_end_matches([';', ':', '.', ')']);
            match self.linked.get(name) {
                Some(paths) => files.extend(paths.clone()),
                None if name.contains('/') => match self.house.short(name) {
                    Some(paths) => files.extend(paths),
                    None => files.push(name.to_string()),
                },
                None if name == "and" => {}
                None => break,
            }
            if name != word {
                break;
            }
        }
        files
    }

    fn check_edits(&mut self, run: &Run) {
        for name in &run.names {
            self.demand(self.house.is_edit(name), "no such edit", name);
        }
    }

    /// Edits in a column headed so. "as for" leads to another row.
    fn check_edit_column(&mut self, rows: &[&str]) {
        let mut heads = cells(rows[0]).into_iter();
        let headed = |head: &str| words_of(head).any(|word| word == "edits");
        let Some(column) = heads.position(headed) else {
            return;
        };
        for row in &rows[2..] {
            let cell = cells(row).get(column).copied().unwrap_or("");
            for run in runs(cell) {
                if !run.before.ends_with("as for ") {
                    self.check_edits(&run);
                }
            }
        }
    }

    /// A row for each crate. Folders have a row too, with a `/` behind their name.
    fn check_crates(&mut self, rows: &[&str]) {
        if cells(rows[0])[0] != "crate" {
            return;
        }
        let names = rows[2..].iter().filter_map(|row| quoted(row));
        let names = names.map(|(_, name, _)| name.to_string());
        let names: BTreeSet<String> = names.filter(|name| !name.ends_with('/')).collect();
        let other: Vec<&String> = names.symmetric_difference(&self.house.crates).collect();
        self.demand(other.is_empty(), "other crates", &format!("{other:?}"));
    }
}

/// Reads a page: how much it cites, and what of that is not there.
fn read_page(house: &House, path: &str, text: &str) -> (usize, Vec<String>) {
    let mut reader = Reader {
        house,
        path,
        linked: BTreeMap::new(),
        cited: 0,
        complaints: Vec::new(),
    };
    let lines: Vec<&str> = text.lines().collect();
    lines.iter().for_each(|line| reader.follow_links(line));
    if !HISTORY.contains(&path) {
        lines.iter().for_each(|line| reader.check_line(line));
        let tables = lines.split(|line| cells(line).is_empty());
        for rows in tables.filter(|rows| rows.len() > 2) {
            reader.check_edit_column(rows);
            reader.check_crates(rows);
        }
    }
    (reader.cited, reader.complaints)
}

#[test]
fn what_the_pages_cite_is_there() {
    let mut files = Files::new();
    read(
        &Path::new(env!("CARGO_MANIFEST_DIR")).join(".."),
        "",
        &mut files,
    );
    let house = House::of(files);
    let (mut cited, mut complaints) = (0, Vec::new());
    for (path, text) in &house.pages {
        let (count, found) = read_page(&house, path, text);
        println!("{path}: {count}");
        cited += count;
        complaints.extend(found);
    }
    assert!(complaints.is_empty(), "{}", complaints.join("\n"));
    assert!(cited >= LEAST, "only {cited} citations were found");
}

// ---------------------------------------------------------------------------------------------
// The rules themselves
// ---------------------------------------------------------------------------------------------

/// A small house to try them on.
fn invented() -> House {
    let files = [
        ("crates.txt", "sums:\nlists: sums\n"),
        (
            "crates/sums/src/lib.rt",
            "pub mod digits;\npub fn add_all() {}\n",
        ),
        ("crates/sums/src/digits.rt", "pub fn last_digit() {}\n"),
        (
            "crates/sums/specs/Sums.antt",
            "use Tags.{MAKE_SUM_OF}\nabbrev pub totalOf : Sum\n  adds-up : Law\n",
        ),
        ("crates/sums/must-fail/first_skipped.edit", "\n"),
        (
            "crates/lists/src/lib.rt",
            "pub struct Row;\npub fn rows_of() {}\n",
        ),
        ("docs/OTHER.md", "\n"),
    ];
    let owned = files.map(|(path, text)| (path.to_string(), text.to_string()));
    House::of(Files::from(owned))
}

/// Text for docs/PAGE.md, and how many complaints it has to give.
const TRIED: [(&str, usize); 38] = [
    ("[Sums](../crates/sums/specs/Sums.antt)", 0),
    ("[Sums](../crates/sums/specs/Terms.antt)", 1),
    ("[other](OTHER.md#part) [web](https://example.org/x)", 0),
    ("[other](OTHERS.md)", 1),
    ("see crates/sums/specs/Sums.antt, and crates/lists/.", 0),
    ("see crates/sums/specs/Terms.antt.", 1),
    ("sums/Sums, and `adds-up` in sums/Sums", 0),
    ("sums/Terms", 1),
    ("`rows_of` in sums/Sums", 1),
    ("sums/terms and/or", 0),
    ("`totalOf`, `adds-up`, `Sums`, `MAKE_*_OF`, `adds-`", 0),
    ("`total_of`", 1),
    ("`addsUp`", 1),
    ("`MAKE_*_FROM`", 1),
    ("`totals-`", 1),
    ("`let x = total_of(y)` and `07`", 0),
    ("`decode`", 0),
    (
        "`sums::add_all`, `sums::digits::last_digit`, `sums::digits`",
        0,
    ),
    ("`digits::last_digit`, `Row::rows_of`", 0),
    ("`lists::add_all`", 1),
    ("`sums::digits::add_all`", 1),
    ("`Row::add_all`", 1),
    (
        "`adds-up`, `totalOf` in [Sums](../crates/sums/specs/Sums.antt)",
        0,
    ),
    (
        "`adds-up`, `rows_of` in [Sums](../crates/sums/specs/Sums.antt)",
        1,
    ),
    ("`MAKE_SUM_OF` in crates/sums/specs/Sums.antt.", 1),
    ("`rows_of` in crates/sums/specs/Sums.antt.", 1),
    (
        "[Sums](../crates/sums/specs/Sums.antt): `rows_of` in Sums",
        1,
    ),
    (
        "[Sums](../crates/sums/specs/Sums.antt): `adds-up` in Sums",
        0,
    ),
    ("`rows_of`, `add_all` in `sums`", 0),
    ("`add_all`, `rows_of` in `sums`", 1),
    ("edits `first_skipped` and `add_all`", 1),
    ("the edit `first_skipped`", 0),
    (
        "| what | edits |\n|---|---|\n| `add_all` | `first_skipped` |",
        0,
    ),
    (
        "| what | edits |\n|---|---|\n| `first_skipped` | `add_all` |",
        1,
    ),
    (
        "| what | edits |\n|---|---|\n| `rows_of` | as for `add_all` |",
        0,
    ),
    (
        "| crate | |\n|---|---|\n| `sums` | |\n| `lists` | |\n| `crates/` | |",
        0,
    ),
    ("| crate | |\n|---|---|\n| `sums` | |", 1),
    (
        "| crate | |\n|---|---|\n| `sums` | |\n| `lists` | |\n| `digits` | |",
        1,
    ),
];

#[test]
fn what_is_not_there_is_found() {
    let house = invented();
    for (text, count) in TRIED {
        let (_, complaints) = read_page(&house, "docs/PAGE.md", text);
        assert_eq!(complaints.len(), count, "{text}: {complaints:?}");
    }
}

#[test]
fn of_the_history_only_links_count() {
    let house = invented();
    let text = "[other](OTHERS.md), `total_of`, crates/sums/specs/Terms.antt";
    assert_eq!(read_page(&house, "docs/PAGE.md", text).1.len(), 3);
    assert_eq!(read_page(&house, HISTORY[0], text).1.len(), 1);
}
