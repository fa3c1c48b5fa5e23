//! The C functions as include/nuprikhen.h declares them. build.rs makes the oracle's own declarations of
//! them; tests/declared.rs compares them with the others.

/// A function: its name, its parameters and its result. A type is as in C.
#[derive(Clone, Debug, PartialEq, Eq)]
pub struct Function {
    pub name: String,
    pub params: Vec<Param>,
    pub result: String,
}

#[derive(Clone, Debug, PartialEq, Eq)]
pub struct Param {
    pub kind: String,
    pub name: String,
}

/// The types of the header, and the same in Rust.
pub const TYPES: [(&str, &str); 16] = [
    ("uint8_t", "u8"),
    ("uint32_t", "u32"),
    ("size_t", "usize"),
    ("int32_t", "i32"),
    ("float", "f32"),
    ("double", "f64"),
    ("const uint8_t *", "*const u8"),
    ("const float *", "*const f32"),
    ("const double *", "*const f64"),
    ("uint8_t *", "*mut u8"),
    ("int32_t *", "*mut i32"),
    ("float *", "*mut f32"),
    ("double *", "*mut f64"),
    ("nup_answer", "Answer"),
    ("nup_run_answer", "RunAnswer"),
    ("nup_reach_answer", "ReachAnswer"),
];

/// The functions that answer, in the header's order: all but nup_version.
pub fn functions(header: &str) -> Vec<Function> {
    let mut answering = all_functions(header);
    answering.retain(|function| function.result.ends_with("answer"));
    answering
}

/// All functions in the header's order.
pub fn all_functions(header: &str) -> Vec<Function> {
    let statements = without_comments(header);
    let calls = statements
        .split(';')
        .filter_map(|text| text.strip_suffix(')')?.split_once('('));
    calls.map(|(head, params)| function(head, params)).collect()
}

fn function(head: &str, params: &str) -> Function {
    let head = param(head.lines().last().unwrap());
    Function {
        name: head.name,
        params: match params {
            "void" => Vec::new(),
            _ => params.split(',').map(param).collect(),
        },
        result: head.kind,
    }
}

/// A type and, after it, a name.
fn param(text: &str) -> Param {
    let text = text.trim();
    let end = text.rfind([' ', '*']).expect("a type before a name") + 1;
    Param {
        kind: text[..end].trim().to_string(),
        name: text[end..].to_string(),
    }
}

fn without_comments(text: &str) -> String {
    let parts = text.split("/*").enumerate();
    let outside = parts.map(|(i, part)| match i {
        0 => part,
        _ => part.split_once("*/").expect("a comment ends").1,
    });
    outside.collect()
}
