//! The one program of the oracle: stored lists, comparison, all patterns, measuring.

use std::path::Path;
use std::process::ExitCode;
use std::{env, fs};

use oracle::compare::Wanted;
use oracle::primitives::ALL;
use oracle::{
    bench, compare, dirty, floats, lowest_seed, patterns, places, recipe, stored, unproved,
};

const HELP: &str = "\
usage: oracle COMMAND

  write CRATES                    write the stored lists below the folder of the crates: vectors/data/floats.bin
                                  and a NAME.bin for each primitive, and recipes/data/messages.bin
  compare [NAME] [--cases N] [--seed S]
                                  compare the library with the Rust and the table of refusals, N cases
                                  each (20,000), drawn from the seed S, up to 16 hexadecimal digits
  patterns [NAME] [--one-in N]    compare the float leaves: those of an f32 over all 2^32 patterns, those
                                  of an f64 over every boundary and drawn ones, 100,663,296 each; or
                                  over one block of 2^20 in N (N up to 4,096)
  places [--calls N]              call displacement_map.rs N times (10,000,000): no pixel comes from beyond its reach
  lowest-seed                     where turbulence.rs starts at the seed -2147483648, which compare leaves out
  bench [--slow]                  measure the library beside the Rust, as a Markdown table;
                                  --slow: morphology at radius 40 too
  dirty WIDTH HEIGHT SOURCE OLD RUST LIBRARY
                                  compose SOURCE into a destination that holds OLD, by the Rust and by the
                                  library; all are files of raw premultiplied pixels, the last two are written
  unproved [main]                 print the C functions over those of an unproved program, or the main of that
                                  program, for ./edits

compare, patterns, bench and dirty use target/library/libnuprikhen.a of the repository; build it first
(./build there) and run this program by `cargo run --release --`, which links it.
Names: to_bytes round_to_i32s sqrt32 sqrt64 to_f32s copy clear morphology color_matrix composite component_transfer
convolve_matrix displacement_map turbulence diffuse_lighting specular_lighting messages.
Status: 0 no difference, 1 a difference or a library that cannot be called, 2 a wrong command.";

const HEADER: &str = include_str!("../../include/nuprikhen.h");

fn main() -> ExitCode {
    let args: Vec<String> = env::args().skip(1).collect();
    let words: Vec<&str> = args.iter().map(String::as_str).collect();
    match words[..] {
        ["write", crates] => status(write(Path::new(crates)).map_err(|e| format!("{crates}: {e}"))),
        ["compare", ref rest @ ..] => match wanted(rest) {
            Some(wanted) => status(compare::run(&wanted)),
            None => wrong(),
        },
        ["patterns", ref rest @ ..] => match blocks(rest) {
            Some((name, part)) => status(patterns::run(name, part)),
            None => wrong(),
        },
        ["places"] => status(places::run(10_000_000, compare::SEED)),
        ["places", "--calls", calls] => match calls.parse() {
            Ok(calls) => status(places::run(calls, compare::SEED)),
            Err(_) => wrong(),
        },
        ["lowest-seed"] => status(lowest_seed::run()),
        ["bench"] => bench::run(false),
        ["bench", "--slow"] => bench::run(true),
        ["dirty", width, height, ref files @ ..] => compose(width, height, files),
        ["unproved"] => {
            print!("{}", unproved::shims(HEADER));
            ExitCode::SUCCESS
        }
        ["unproved", "main"] => {
            print!("{}", unproved::main(HEADER));
            ExitCode::SUCCESS
        }
        ["help" | "--help" | "-h"] => {
            println!("{HELP}");
            ExitCode::SUCCESS
        }
        _ => wrong(),
    }
}

fn compose(width: &str, height: &str, files: &[&str]) -> ExitCode {
    let (Ok(width), Ok(height), &[source, old, rust, library]) =
        (width.parse(), height.parse(), files)
    else {
        return wrong();
    };
    let files = dirty::Files {
        source,
        old,
        rust,
        library,
    };
    status(dirty::run(width, height, &files))
}

fn wrong() -> ExitCode {
    eprintln!("{HELP}");
    ExitCode::from(2)
}

fn status(result: Result<(), String>) -> ExitCode {
    match result {
        Ok(()) => ExitCode::SUCCESS,
        Err(what) => {
            println!("{what}");
            ExitCode::FAILURE
        }
    }
}

fn write(crates: &Path) -> std::io::Result<()> {
    let (vectors, recipes) = (crates.join("vectors/data"), crates.join("recipes/data"));
    fs::create_dir_all(&vectors)?;
    fs::create_dir_all(&recipes)?;
    fs::write(recipes.join("messages.bin"), recipe::list())?;
    fs::write(vectors.join("floats.bin"), floats::bytes())?;
    for primitive in &ALL {
        let name = format!("{}.bin", primitive.name);
        fs::write(vectors.join(name), stored::list(primitive))?;
    }
    Ok(())
}

/// The leaf that `patterns` is asked for, or all, and one block in how many.
fn blocks<'a>(words: &[&'a str]) -> Option<(Option<&'a str>, u32)> {
    let (name, rest) = match words {
        [name, rest @ ..] if !name.starts_with('-') => (Some(*name), rest),
        _ => (None, words),
    };
    let part = match rest {
        [] => 1,
        ["--one-in", part] => part.parse().ok().filter(|n| (1..=4096).contains(n))?,
        _ => return None,
    };
    Some((name, part))
}

fn wanted(words: &[&str]) -> Option<Wanted> {
    let mut wanted = Wanted {
        name: None,
        cases: 20_000,
        seed: compare::SEED,
    };
    let mut words = words.iter();
    while let Some(word) = words.next() {
        match *word {
            "--cases" => wanted.cases = words.next()?.parse().ok().filter(|n| *n > 0)?,
            "--seed" => wanted.seed = u64::from_str_radix(words.next()?, 16).ok()?,
            name if !name.starts_with('-') && wanted.name.is_none() => {
                wanted.name = Some(name.to_string());
            }
            _ => return None,
        }
    }
    Some(wanted)
}
