//! The header's functions over those of an unproved program, for ../edits: in C, and as the program's main.

use crate::header::{Function, functions};

/// The C text, made of the header's. The functions that it calls take the place of their answer first.
pub fn shims(header: &str) -> String {
    let each: String = functions(header).iter().map(shim).collect();
    format!("#include \"nuprikhen.h\"\n{each}")
}

fn shim(function: &Function) -> String {
    let Function {
        name,
        params,
        result,
    } = function;
    let declared = params.iter().map(|p| format!("{} {}", p.kind, p.name));
    let declared = declared.collect::<Vec<_>>().join(", ");
    let given: String = params.iter().map(|p| format!(", {}", p.name)).collect();
    format!(
        "void inner_{name}({result} *answer, {declared});\n{result} {name}({declared}) {{\n    {result} answer;\n    inner_{name}(&answer{given});\n    return answer;\n}}\n"
    )
}

/// The main in Rattle, which reaches each function, as only what a program reaches is compiled, and calls none.
pub fn main(header: &str) -> String {
    let each: String = functions(header).iter().map(call).collect();
    format!("\nfn main() {{\n    let never = [0u8];\n    if never[0] != 0 {{\n{each}    }}\n}}\n")
}

fn call(Function { name, params, .. }: &Function) -> String {
    let given = params.iter().filter_map(|p| match p.kind.as_str() {
        "size_t" => None,
        "float" | "double" => Some("0.0"),
        kind if !kind.ends_with('*') => Some("0"),
        kind if kind.starts_with("const") => Some("&[]"),
        _ => Some("&mut []"),
    });
    let given = given.collect::<Vec<_>>().join(", ");
    format!("        let _ = {name}({given});\n")
}
