//! Makes the lent copies, declares the header's functions, and links the static library or says why it
//! cannot be called.

use std::path::{Path, PathBuf};
use std::process::Command;
use std::{env, fs};

include!("src/lent_lines.rs");

#[path = "src/header.rs"]
mod header;
use header::{Function, Param, TYPES};

const HEADER: &str = "../include/nuprikhen.h";

fn main() {
    println!("cargo::rerun-if-changed=build.rs");
    println!("cargo::rerun-if-changed=src/lent_lines.rs");
    println!("cargo::rerun-if-changed=src/header.rs");
    println!("cargo::rerun-if-changed={HEADER}");
    for (file, lines) in LENT {
        lent_copy(file, lines);
    }
    println!("cargo::rustc-check-cfg=cfg(direct, bridged)");
    let functions = header::functions(&fs::read_to_string(HEADER).expect("the header"));
    fs::write(out("library.rs"), declared(&functions)).unwrap();
    fs::write(out("calls.h"), calls(&functions)).unwrap();
    if let Err(why) = link_library(&functions) {
        println!(
            "cargo::rustc-env=ORACLE_ABSENT={}",
            why.trim().replace('\n', " ")
        );
    }
}

/// Writes OUT_DIR/FILE_lent.rs: the file with the given lines replaced, each of which stands once.
fn lent_copy(file: &str, lines: &[(&str, &str)]) {
    let from = format!("resvg/filter/{file}.rs");
    println!("cargo::rerun-if-changed={from}");
    let mut text = fs::read_to_string(&from).expect("the copy of resvg's file");
    for (rust, lent) in lines {
        let places = text.lines().filter(|l| l.trim_start() == *rust).count();
        assert_eq!(places, 1, "{from} must have the line `{rust}` once");
        let new: Vec<String> = text
            .lines()
            .map(|l| match l.trim_start() == *rust {
                true => l.replace(rust, lent),
                false => l.to_string(),
            })
            .collect();
        text = new.join("\n") + "\n";
    }
    fs::write(out(&format!("{file}_lent.rs")), text).unwrap();
}

fn out(file: &str) -> PathBuf {
    PathBuf::from(env::var_os("OUT_DIR").unwrap()).join(file)
}

/// The functions as src/ours.rs declares them.
fn declared(functions: &[Function]) -> String {
    let rust = |kind: &str| match TYPES.iter().find(|(c, _)| *c == kind) {
        Some((_, rust)) => rust,
        None => panic!("{HEADER}: src/header.rs has no type {kind}"),
    };
    let param = |p: &Param| format!("{}: {}", p.name, rust(&p.kind));
    let lines = functions.iter().enumerate().map(|(i, f)| {
        let params: Vec<String> = f.params.iter().map(param).collect();
        let params = params.join(", ");
        format!("{i} {}({params}) -> {};\n", f.name, rust(&f.result))
    });
    format!("library! {{\n{}}}\n", lines.collect::<String>())
}

/// The functions as bridge.c declares and calls them.
fn calls(functions: &[Function]) -> String {
    let (mut text, mut cases) = (String::new(), String::new());
    for (i, f) in functions.iter().enumerate() {
        let joined =
            |each: fn(&Param) -> String| f.params.iter().map(each).collect::<Vec<_>>().join(", ");
        let params = joined(|p| format!("{} {}", p.kind, p.name));
        text += &format!("{} {}({params});\n", f.result, f.name);
        let reads: String = f.params.iter().map(read).collect();
        let given = joined(|p| p.name.clone());
        let called = format!("of_{}({}({given}))", f.result, f.name);
        cases += &format!("case {i}: {{\n{reads}return {called};\n}}\n");
    }
    text + "static told call(void) {\nswitch (word()) {\n"
        + &cases
        + "default: for (;;) leave(1);\n}\n}\n"
}

/// A parameter as the next of a call's words; a length is that of the slice before it.
fn read(Param { kind, name }: &Param) -> String {
    let value = match kind.as_str() {
        "size_t" => "slices[lent - 1].count".to_string(),
        "float" => "number()".to_string(),
        "double" => "long_number()".to_string(),
        _ if kind.ends_with('*') => {
            let written = !kind.starts_with("const") as u8;
            format!("({kind})next_slice(sizeof *{name}, {written})->now")
        }
        _ => format!("({kind})word()"),
    };
    format!("{kind} {name} = {value};\n")
}

/// Links the archive, or makes the bridge where it is for another processor than the oracle. The
/// error says why the library cannot be called: all of its functions can, or none.
fn link_library(functions: &[Function]) -> Result<(), String> {
    println!("cargo::rerun-if-env-changed=NUPRIKHEN_ARCHIVE");
    let named = env::var_os("NUPRIKHEN_ARCHIVE");
    let named = named.unwrap_or("../target/library/libnuprikhen.a".into());
    let archive = Path::new(&named);
    println!("cargo::rerun-if-changed={}", archive.display());
    let bytes = fs::read(archive).map_err(|error| format!("{}: {error}", archive.display()))?;
    let names = defined(archive)?;
    if let Some(function) = functions.iter().find(|f| !names.contains(&f.name)) {
        return Err(format!(
            "{} has no function {}",
            archive.display(),
            function.name
        ));
    }
    if processor(&bytes) == env::var("CARGO_CFG_TARGET_ARCH").unwrap() {
        let folder = archive.parent().unwrap().canonicalize().unwrap();
        println!("cargo::rustc-cfg=direct");
        println!("cargo::rustc-link-search=native={}", folder.display());
        println!("cargo::rustc-link-lib=static=nuprikhen");
        return Ok(());
    }
    make_bridge(archive).map_err(|what| format!("the bridge is not made: {what}"))
}

/// The processor that the archive's first object is for.
fn processor(archive: &[u8]) -> &'static str {
    let object = archive
        .windows(4)
        .position(|four| four == b"\x7fELF")
        .expect("an object");
    match archive[object + 18..object + 20] {
        [62, 0] => "x86_64",
        [183, 0] => "aarch64",
        _ => "another",
    }
}

/// The names that the archive defines.
fn defined(archive: &Path) -> Result<Vec<String>, String> {
    let listed = done(
        Command::new("nm")
            .args(["--defined-only", "-g"])
            .arg(archive),
    )?;
    let names = listed.lines().filter_map(|line| line.split(' ').nth(2));
    Ok(names.map(str::to_string).collect())
}

/// Compiles bridge.c for x86-64 with the archive, by the tools of the Rattle kit, or those of PATH.
fn make_bridge(archive: &Path) -> Result<(), String> {
    println!("cargo::rerun-if-changed=bridge/bridge.c");
    let tools = kit_tools();
    let (object, bridge) = (out("bridge.o"), out("bridge"));
    let flags = [
        "--target=x86_64-unknown-linux-gnu",
        "-O2",
        "-ffreestanding",
        "-fno-builtin",
    ];
    let mut clang = Command::new(tools.join("clang"));
    clang.arg("-I").arg(out("")).args(flags).args([
        "-fno-stack-protector",
        "-fno-pic",
        "-c",
        "bridge/bridge.c",
        "-o",
    ]);
    done(clang.arg(&object))?;
    let mut linker = Command::new(tools.join("ld.lld"));
    linker.args(["-static", "-o"]).arg(&bridge).arg(&object);
    done(linker.arg("--whole-archive").arg(archive))?;
    println!("cargo::rustc-env=ORACLE_BRIDGE={}", bridge.display());
    println!("cargo::rustc-cfg=bridged");
    Ok(())
}

/// The folder of the kit's compiler and linker; none, and so those of PATH, without a kit.
fn kit_tools() -> PathBuf {
    let Ok(rt) = Command::new("rt").arg("doc").output() else {
        return PathBuf::new();
    };
    let guide = String::from_utf8_lossy(&rt.stdout).trim().to_string();
    let kit = Path::new(&guide).parent().unwrap_or(Path::new(""));
    kit.join("toolchain/bin")
}

/// What the command prints; the error is what it says.
fn done(command: &mut Command) -> Result<String, String> {
    match command.output() {
        Ok(output) if output.status.success() => {
            Ok(String::from_utf8_lossy(&output.stdout).into_owned())
        }
        Ok(output) => Err(String::from_utf8_lossy(&output.stderr).into_owned()),
        Err(error) => Err(format!(
            "{}: {error}",
            command.get_program().to_string_lossy()
        )),
    }
}
