//! Filters a PNG or PAM picture by a recipe, through the proved library. help.txt says how.

mod files;
mod pam;
mod picture;
mod png;
mod recipes;

use std::env;
use std::ffi::OsString;
use std::io::{self, Write};
use std::path::Path;
use std::process::ExitCode;

use files::{Form, shown};
use nuprikhen::recipe::Sheets;
use picture::Picture;
use recipes::Ready;

const HELP: &str = include_str!("../help.txt");
const VERSION: &str = concat!("card ", env!("CARGO_PKG_VERSION"), "\n");

fn main() -> ExitCode {
    let told = match asked(env::args_os().skip(1).collect()) {
        Asked::Text(text) => io::stdout()
            .write_all(text.as_bytes())
            .map_err(|error| error.to_string()),
        Asked::Filter(words) => filter(&words),
    };
    match told {
        Ok(()) => ExitCode::SUCCESS,
        Err(what) => {
            eprintln!("card: {what}");
            ExitCode::FAILURE
        }
    }
}

/// What the words ask for.
#[derive(Debug, PartialEq)]
enum Asked {
    Text(&'static str),
    /// A recipe, a picture and a result, if there are three.
    Filter(Vec<OsString>),
}

/// These words alone are options, up to the first `--`; all others are names, with or without a dash.
fn asked(mut words: Vec<OsString>) -> Asked {
    let end = words.iter().position(|word| word == "--");
    for word in &words[..end.unwrap_or(words.len())] {
        match word.to_str() {
            Some("-h" | "--help") => return Asked::Text(HELP),
            Some("--version") => return Asked::Text(VERSION),
            _ => {}
        }
    }
    if let Some(end) = end {
        words.remove(end);
    }
    Asked::Filter(words)
}

/// Filters a picture. Nothing is written unless all went well before.
fn filter(words: &[OsString]) -> Result<(), String> {
    let [recipe, from, to] = words else {
        return Err("wants RECIPE IN OUT; --help says more".to_string());
    };
    let [recipe, from, to] = [recipe, from, to].map(Path::new);
    let at = |path: &Path| {
        let path = shown(path);
        move |what: String| format!("{path}: {what}")
    };
    let form = Form::of(to).map_err(at(to))?;
    files::test_place(to).map_err(at(to))?;
    let ready = recipes::named(recipe).map_err(at(recipe))?;
    let picture = files::read_picture(from).map_err(at(from))?;
    let result = run(&ready, picture).map_err(at(recipe))?;
    files::write_whole(to, &form.file(&result)).map_err(at(to))?;
    // The result stands, whether or not anybody hears of it.
    let _ = writeln!(
        io::stdout(),
        "{} of {}: {}",
        shown(recipe),
        shown(from),
        shown(to)
    );
    Ok(())
}

/// The picture by the recipe, straight before and after.
fn run(ready: &Ready, picture: Picture) -> Result<Picture, String> {
    let Picture {
        width,
        height,
        sheet: mut source,
    } = picture;
    picture::from_straight(ready.source, &mut source);
    let mut sheets = Sheets::new(ready.source, width, height, source);
    let result = ready
        .recipe
        .run(&mut sheets)
        .map_err(|refusal| refusal.to_string())?;
    let mut sheet = result.to_vec();
    picture::to_straight(ready.result, &mut sheet);
    Ok(Picture {
        width,
        height,
        sheet,
    })
}

#[cfg(test)]
mod tests {
    use super::*;

    fn asked_by(words: &[&str]) -> Asked {
        asked(words.iter().map(OsString::from).collect())
    }

    #[test]
    fn options_stand_before_two_dashes() {
        for words in [
            &["--help"][..],
            &["-h"],
            &["fade", "--help"],
            &["--help", "--"],
        ] {
            assert_eq!(asked_by(words), Asked::Text(HELP), "{words:?}");
        }
        assert_eq!(asked_by(&["--version"]), Asked::Text(VERSION));
        let names = |words: &[&str]| Asked::Filter(words.iter().map(OsString::from).collect());
        assert_eq!(
            asked_by(&["fade", "-a", "-b"]),
            names(&["fade", "-a", "-b"])
        );
        assert_eq!(
            asked_by(&["fade", "--", "--help", "--"]),
            names(&["fade", "--help", "--"])
        );
        assert_eq!(asked_by(&["--", "-h"]), names(&["-h"]));
    }

    #[test]
    fn three_names_are_wanted() {
        for count in [0, 1, 2, 4] {
            let told = filter(&vec!["fade".into(); count]).expect_err("a wrong count");
            assert!(told.starts_with("wants RECIPE IN OUT"), "{told}");
        }
    }

    #[test]
    fn the_result_is_looked_at_first() {
        let words = ["glow", "no/such.png", "out.jpg"].map(OsString::from);
        let told = filter(&words).expect_err("all is wrong");
        assert_eq!(told, "out.jpg: the result's name must end in .png or .pam");
    }
}
