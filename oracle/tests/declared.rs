//! The C functions are declared alike in the header, the Rattle source and the Rust package: names,
//! order and types of the parameters, and the result. (The oracle's own declarations are made of the
//! header by build.rs.)

use std::collections::BTreeMap;
use std::fs;
use std::path::{Path, PathBuf};

use oracle::header::{self, TYPES};

/// What the package leaves out: its version is its own, and the leaves are there for comparing and
/// measuring.
const NOT_IN_THE_PACKAGE: [&str; 8] = [
    "nup_version",
    "nup_to_bytes",
    "nup_round_to_i32s",
    "nup_sqrt32",
    "nup_sqrt64",
    "nup_to_f32s",
    "nup_copy",
    "nup_clear",
];

/// Where Rattle's name of a parameter of `KINDS` is another: a kind bears its channel's name there.
const KINDS: &str = "nup_component_transfer";
const RENAMED: [(&str, &str); 4] = [
    ("red", "kind_r"),
    ("green", "kind_g"),
    ("blue", "kind_b"),
    ("alpha", "kind_a"),
];

/// Each function's name, and the rest of its declaration as Rust would have it.
type Declared = BTreeMap<String, String>;

fn text(file: &str) -> String {
    let path = Path::new(env!("CARGO_MANIFEST_DIR")).join("..").join(file);
    fs::read_to_string(path).unwrap_or_else(|error| panic!("{file}: {error}"))
}

fn rust(kind: &str) -> &str {
    TYPES
        .iter()
        .find(|(c, _)| *c == kind)
        .map_or(kind, |(_, rust)| rust)
}

fn in_header() -> Declared {
    let functions = header::all_functions(&text("include/nuprikhen.h"));
    let declared = functions.iter().map(|f| {
        let params = f
            .params
            .iter()
            .map(|p| (p.name.clone(), rust(&p.kind).to_string()));
        (f.name.clone(), shown(params.collect(), rust(&f.result)))
    });
    declared.collect()
}

fn shown(params: Vec<(String, String)>, result: &str) -> String {
    let params: Vec<String> = params
        .iter()
        .map(|(name, kind)| format!("{name}: {kind}"))
        .collect();
    format!("({}) -> {result}", params.join(", "))
}

/// What follows each `start` in a text of Rust or Rattle: NAME(PARAMS) -> RESULT.
fn in_rust(text: &str, start: &str) -> Declared {
    let declared = text.split(start).skip(1).map(|rest| {
        let (name, rest) = rest.split_once('(').expect("a list of parameters");
        let (params, rest) = rest.split_once(')').expect("its end");
        let result = rest.trim_start_matches([' ', '-', '>']);
        let end = result
            .find(|c: char| !c.is_alphanumeric() && c != '_')
            .expect("an end");
        let result = rust(&result[..end]);
        let params = params.split(',').filter_map(|param| param.split_once(':'));
        let params = params.flat_map(|(param, kind)| parameter(name, param.trim(), kind.trim()));
        (name.to_string(), shown(params.collect(), result))
    });
    declared.collect()
}

/// A parameter as the C boundary has it: a slice is its start and its number of elements.
fn parameter(function: &str, name: &str, kind: &str) -> Vec<(String, String)> {
    let renamed = RENAMED
        .iter()
        .find(|(rattle, _)| function == KINDS && *rattle == name);
    let name = renamed.map_or(name, |(_, c)| *c);
    let start = match kind.strip_suffix(']') {
        None => return vec![(name.to_string(), kind.to_string())],
        Some(slice) => slice.replace("&mut [", "*mut ").replace("&[", "*const "),
    };
    vec![
        (name.to_string(), start),
        (format!("{name}_len"), "usize".to_string()),
    ]
}

/// A line for each function that one of the two has not, or has otherwise.
fn differences(header: &Declared, place: &str, there: &Declared) -> Vec<String> {
    let lines = header
        .iter()
        .filter_map(|(name, wanted)| match there.get(name) {
            None => Some(format!("{name} is in the header and not in {place}")),
            Some(found) if found != wanted => Some(format!(
                "{name} in {place}: {found}, in the header: {wanted}"
            )),
            Some(_) => None,
        });
    let more = there.keys().filter(|name| !header.contains_key(*name));
    let more = more.map(|name| format!("{name} is in {place} and not in the header"));
    lines.chain(more).collect()
}

const RATTLE: &str = "crates/nuprikhen/src";

/// The whole Rattle source.
fn rattle() -> String {
    let folder = Path::new(env!("CARGO_MANIFEST_DIR"))
        .join("..")
        .join(RATTLE);
    let files = fs::read_dir(folder)
        .unwrap()
        .map(|entry| entry.unwrap().path());
    files
        .map(|file: PathBuf| fs::read_to_string(file).unwrap())
        .collect()
}

#[test]
fn rattle_has_the_headers_functions() {
    let there = in_rust(&rattle(), "pub extern \"C\" fn ");
    let found = differences(&in_header(), RATTLE, &there);
    assert!(found.is_empty(), "{}", found.join("\n"));
}

#[test]
fn the_package_has_the_headers_functions() {
    let mut header = in_header();
    for name in NOT_IN_THE_PACKAGE {
        header.remove(name).expect(name);
    }
    let text = text("rust/src/library.rs");
    let (_, block) = text.split_once("unsafe extern \"C\" {").unwrap();
    let there = in_rust(block, "pub fn ");
    let found = differences(&header, "rust/src/library.rs", &there);
    assert!(found.is_empty(), "{}", found.join("\n"));
}

/// The fields of an answer with their types in Rust.
type Fields = &'static [(&'static str, &'static str)];

/// The answers: their names in C and Rattle and in Rust, and their fields.
const ANSWERS: [(&str, &str, Fields); 3] = [
    ("nup_answer", "Answer", &[BYTES[0], BYTES[1]]),
    (
        "nup_run_answer",
        "RunAnswer",
        &[BYTES[0], BYTES[1], ("offset", "u64")],
    ),
    (
        "nup_reach_answer",
        "ReachAnswer",
        &[BYTES[0], BYTES[1], BYTES[2], ("offset", "u64")],
    ),
];
const BYTES: [(&str, &str); 3] = [("number", "u8"), ("step", "u8"), ("reaches", "u8")];

/// The fields of a struct in a text: they follow its name, or in C stand before it.
fn fields<'a>(text: &'a str, in_c: &str, name: &str) -> Option<&'a str> {
    if let Some((_, rest)) = text.split_once(&format!("#[repr(C)]\npub struct {name} {{")) {
        return Some(rest.split_once('}')?.0);
    }
    let (before, _) = text.split_once(&format!("}} {in_c};"))?;
    Some(before.rsplit_once("typedef struct {")?.1)
}

/// An answer has the same fields in the same order wherever it is declared.
#[test]
fn the_answers_are_alike() {
    let files = [
        "include/nuprikhen.h",
        "oracle/bridge/bridge.c",
        "oracle/src/case.rs",
        "rust/src/library.rs",
    ];
    for (in_c, in_rust, wanted) in ANSWERS {
        let others = files.map(|file| (file, text(file), in_rust));
        for (file, text, name) in others.into_iter().chain([(RATTLE, rattle(), in_c)]) {
            let fields = fields(&text, in_c, name).unwrap_or_else(|| panic!("{name} in {file}"));
            let words = fields.split(|c: char| !c.is_alphanumeric() && c != '_');
            let words: Vec<&str> = words.filter(|w| !["", "pub"].contains(w)).collect();
            let rust: Vec<&str> = wanted
                .iter()
                .flat_map(|(name, kind)| [*name, *kind])
                .collect();
            let c: Vec<String> = wanted
                .iter()
                .flat_map(|(name, kind)| [kind.replace('u', "uint") + "_t", name.to_string()])
                .collect();
            assert!(words == rust || words == c, "{name} in {file}: {fields}");
        }
    }
}
