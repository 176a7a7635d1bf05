//! Says where the proved libraries lie, and makes the original ready to compile: its published
//! text, with document 01's tables put in.
//!
//! The text is not in this repository. It is read from `../shared/docs/src`, seen from the
//! repository's root. Where that folder is absent, nothing is made, and the comparisons with
//! the original count as skipped. docs/ORIGINAL.md lists every change made here.

use std::fs;
use std::path::{Path, PathBuf};

/// The features that the text asks about. `no_ast` is on and no other.
const FEATURES: &str = r#""internals", "no_ast", "no_module", "no_std""#;

/// Document 01's tags in the order of their numbers, from 0x01, with the last of each width.
const TAGS: [(u8, &str); 7] = [
    (
        0x14,
        "UNIT FALSE TRUE POP TICK CHECKPOINT RETURN THROW ITER_INIT ITER_DROP \
         INTERPOLATE_START INTERPOLATE_APPEND INTERPOLATE_END POP_HANDLER IS_SHARED \
         MAKE_FN_PTR LOAD_THIS LOAD_THIS_SHARED REQUIRE_THIS ASSIGN_THIS",
    ),
    (
        0x1a,
        "ROTATE CURRY CALL_FN_PTR CALL_FN_PTR_CAPTURE CALL_FN_PTR_METHOD CALL_FN_PTR_ON_THIS",
    ),
    (
        0x33,
        "UNWIND_TO STATEMENT SHARE SHARE_NAMED LOAD_SHARED LOAD_SHARED_NAMED STORE_SHARED \
         ASSIGN_THIS_OP MAKE_CLOSURE LOAD_CONST LOAD_LOCAL LOAD_NAMED STORE_LOCAL STORE_CONST \
         DECLARE_LOCAL DECLARE_CONST DECLARE_GLOBAL_CONST CHAIN MAKE_ARRAY MAKE_MAP \
         CHECK_ARRAY_SIZE CHECK_MAP_SIZE SWITCH CUSTOM_SYNTAX ASSIGN_NAMED",
    ),
    (
        0x37,
        "CALL CALL_THIS_REF CALL_FN_PTR_ON_LOCAL CALL_FN_PTR_ON_NAMED",
    ),
    (
        0x41,
        "JUMP JUMP_IF_TRUE JUMP_IF_FALSE SKIP_IF_NOT_UNIT ITER_NEXT PUSH_HANDLER EXPORT_LOCAL \
         EXPORT_NAMED ASSIGN_LOCAL ASSIGN_NAMED_OP",
    ),
    (0x44, "CALL_OP CALL_LOCAL_REF CALL_NAMED_REF"),
    (0x47, "ITER_NEXT_INDEXED PUSH_HANDLER_VAR ASSIGN_LOCAL_OP"),
];

/// One exact replacement: its name in docs/ORIGINAL.md, how often the old text must occur,
/// the old text and the new one.
type Swap = (&'static str, usize, &'static str, &'static str);

/// Paths lead to the module that holds the texts and the stubs; effects are document 01's.
const VERIFY: [Swap; 13] = [
    (
        "paths",
        2,
        "use crate::grain::bytecode::",
        "use crate::original::text::",
    ),
    (
        "paths",
        1,
        "use crate::grain::format::",
        "use crate::original::text::",
    ),
    (
        "paths",
        1,
        "use crate::grain::program::",
        "use crate::original::text::",
    ),
    (
        "paths",
        1,
        "use crate::{Dynamic",
        "use crate::original::text::{Dynamic",
    ),
    (
        "SWITCH",
        1,
        "Op::Switch(..) => (1, 0, 0)",
        "Op::Switch(..) => (1, 1, 0)",
    ),
    (
        "CALL_LOCAL_REF",
        1,
        "(*argc as usize).saturating_sub(1)",
        "*argc as usize",
    ),
    (
        "ROTATE",
        1,
        "*under as usize + 1,
            *under as usize + 1,
            *under as usize + 1,",
        "*under as usize,
            0,
            0,",
    ),
    ("MAKE_MAP", 1, "2 * *len as usize + 1", "2 * *len as usize"),
    (
        "CHECK_*",
        1,
        "Op::CheckSize { .. } => (1, 1, 1)",
        "Op::CheckSize { .. } => (1, 0, 0)",
    ),
    (
        "INTERPOLATE_APPEND",
        1,
        "Op::InterpolateAppend => (1, 1, 0)",
        "Op::InterpolateAppend => (2, 1, 0)",
    ),
    (
        "ITER_NEXT*",
        1,
        "Op::IterNext { .. } | Op::IterDrop => (0, 0, 0)",
        "Op::IterNext { .. } => (0, 0, 1),
        Op::IterDrop => (0, 0, 0)",
    ),
    (
        "RETURN",
        1,
        "Op::Return => (0, 0, 0)",
        "Op::Return => (1, 1, 0)",
    ),
    (
        "CUSTOM_SYNTAX",
        1,
        "Op::CustomSyntax(..) => (0, 0, 1)",
        "Op::CustomSyntax(..) => (0, 0, 0)",
    ),
];

const CODE: [Swap; 3] = [
    ("paths", 1, "use alloc::borrow::Cow", "use std::borrow::Cow"),
    (
        "paths",
        1,
        "use crate::grain::bytecode::",
        "use crate::original::text::",
    ),
    (
        "visibility",
        1,
        "#[crate::expose_under_internals]\nfn ",
        "pub fn ",
    ),
];

const OP: [Swap; 1] = [(
    "paths",
    1,
    "use crate::types::Token",
    "use crate::original::text::Token",
)];

const CHUNK: [Swap; 2] = [
    (
        "paths",
        2,
        "use crate::grain::bytecode::",
        "use crate::original::text::",
    ),
    (
        "visibility",
        1,
        "#[crate::expose_under_internals]\n    fn ",
        "pub fn ",
    ),
];

/// A change to a text: the bytes `start..end` of the published text give way to `put`.
struct Edit {
    label: &'static str,
    start: usize,
    end: usize,
    put: String,
}

fn main() {
    link();
    println!("cargo:rustc-check-cfg=cfg(library)");
    println!("cargo:rustc-check-cfg=cfg(original)");
    println!("cargo:rustc-check-cfg=cfg(feature, values({FEATURES}))");
    println!("cargo:rerun-if-changed=build.rs");
    let source = variable("CARGO_MANIFEST_DIR").join("../../shared/docs/src/grain/bytecode");
    // Also where it is absent: a folder that comes later has to be noticed.
    println!("cargo:rerun-if-changed={}", source.display());
    if !source.is_dir() {
        return;
    }
    make(&source, &variable("OUT_DIR").join("original"));
    println!("cargo:rustc-cfg=original");
    println!("cargo:rustc-cfg=feature=\"no_ast\"");
}

/// Where `rt lib` puts the proved libraries, libgrain.a and libprobe.a. The tests link them in
/// any case; a program that can do without asks whether both are there.
fn link() {
    let made = ["grain", "probe"].map(|name| {
        let folder = variable("CARGO_MANIFEST_DIR").join(format!("../crates/{name}/out"));
        let library = folder.join(format!("lib{name}.a"));
        println!("cargo:rustc-link-search=native={}", folder.display());
        println!("cargo:rerun-if-changed={}", library.display());
        library.is_file()
    });
    if made == [true, true] {
        println!("cargo:rustc-cfg=library");
    }
}

fn variable(name: &str) -> PathBuf {
    PathBuf::from(std::env::var_os(name).expect("cargo sets it for a build step"))
}

/// Writes the four texts, the list of modules and the list of changes into `out`.
fn make(source: &Path, out: &Path) {
    fs::create_dir_all(out).expect("the build's own folder can be written");
    let mut modules = String::new();
    let mut changes = String::new();
    for (name, swaps) in [
        ("verify", &VERIFY[..]),
        ("code", &CODE[..]),
        ("op", &OP[..]),
        ("chunk", &CHUNK[..]),
    ] {
        let file = format!("{name}.rs");
        let text = fs::read_to_string(source.join(&file)).expect("the folder holds this text");
        let edits = edits(name, &text, swaps);
        write(out, &file, &apply(&text, &edits));
        changes += &listed(&file, &text, &edits);
        modules += &format!("pub mod {name};\n");
    }
    write(out, "modules.rs", &modules);
    write(out, "changes.diff", &changes);
}

fn write(out: &Path, file: &str, text: &str) {
    fs::write(out.join(file), text).expect("the build's own folder can be written");
}

/// All changes to one text, in the order of their places.
fn edits(name: &str, text: &str, swaps: &[Swap]) -> Vec<Edit> {
    let mut edits: Vec<Edit> = swaps.iter().flat_map(|swap| swapped(text, swap)).collect();
    match name {
        "verify" => edits.push(lent_rights(text)),
        "code" => edits.extend(tags(text)),
        _ => {}
    }
    edits.sort_by_key(|edit| edit.start);
    edits
}

/// The places of one replacement. A text that has changed must stop the build, not pass it.
fn swapped(text: &str, &(label, times, old, new): &Swap) -> Vec<Edit> {
    let places: Vec<usize> = text.match_indices(old).map(|(at, _)| at).collect();
    assert_eq!(places.len(), times, "{label}: the text holds it otherwise");
    let edit = |start| Edit {
        label,
        start,
        end: start + old.len(),
        put: new.to_string(),
    };
    places.into_iter().map(edit).collect()
}

/// The body of `constant_caps` gives way to the word that the caller lends.
fn lent_rights(text: &str) -> Edit {
    let head = "pub fn constant_caps(value: &Dynamic) -> Option<Caps> {\n";
    assert_eq!(text.matches(head).count(), 1, "constant_caps: its head");
    let start = text.find(head).expect("counted") + head.len();
    let length = text[start..].find("\n}\n").expect("a body has an end");
    Edit {
        label: "constant_caps",
        start,
        end: start + length,
        put: "    value.lent_rights()".to_string(),
    }
}

/// Document 01's numbers for the tags. IMPORT keeps its own, the two of the feature that is
/// off do not matter.
fn tags(text: &str) -> Vec<Edit> {
    let mut edits = Vec::new();
    let mut number = 0;
    for (last, names) in TAGS {
        for name in names.split_whitespace() {
            number += 1;
            edits.push(tag(text, name, number));
        }
        assert_eq!(number, last, "the tags are numbered as document 01 says");
    }
    let import = "pub const IMPORT: u8 = 0x4f;";
    assert_eq!(text.matches(import).count(), 1, "IMPORT has its number");
    let named = text.matches(": u8 = 0x").count();
    assert_eq!(
        named,
        edits.len() + 3,
        "tags: the text holds them otherwise"
    );
    edits
}

fn tag(text: &str, name: &str, number: u8) -> Edit {
    let head = format!("pub const {name}: u8 = 0x");
    assert_eq!(text.matches(&head).count(), 1, "{name}: one tag");
    let start = text.find(&head).expect("counted") + head.len();
    assert_eq!(&text[start + 2..start + 3], ";", "{name}: two digits");
    Edit {
        label: "tags",
        start,
        end: start + 2,
        put: format!("{number:02x}"),
    }
}

fn apply(text: &str, edits: &[Edit]) -> String {
    let mut made = String::new();
    let mut from = 0;
    for edit in edits {
        made += &text[from..edit.start];
        made += &edit.put;
        from = edit.end;
    }
    made + &text[from..]
}

/// The changes to one file as a unified list of whole lines without context.
fn listed(file: &str, text: &str, edits: &[Edit]) -> String {
    let mut list = format!("--- published/{file}\n+++ compiled/{file}\n");
    let mut last = 0;
    let mut shift = 0;
    for edit in edits {
        let first = text[..edit.start].rfind('\n').map_or(0, |at| at + 1);
        let past = edit.end + text[edit.end..].find('\n').expect("a last line ends");
        assert!(first >= last, "{}: two changes in one line", edit.label);
        last = past;
        let old = &text[first..past];
        let new = [&text[first..edit.start], &edit.put, &text[edit.end..past]].concat();
        let (before, after) = (old.lines().count(), new.lines().count());
        let line = text[..first].lines().count() + 1;
        let place = line as isize + shift;
        shift += after as isize - before as isize;
        list += &format!("@@ -{line},{before} +{place},{after} @@ {}\n", edit.label);
        list.extend(old.lines().map(|line| format!("-{line}\n")));
        list.extend(new.lines().map(|line| format!("+{line}\n")));
    }
    list
}
