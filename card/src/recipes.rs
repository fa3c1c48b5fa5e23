//! The built-in recipes, and those that stand in files.

use std::path::Path;

use nuprikhen::color_matrix::ColorMatrix;
use nuprikhen::component_transfer::TransferFunction;
use nuprikhen::convolve_matrix::{ConvolveMatrix, EdgeMode};
use nuprikhen::displacement_map::ColorChannel;
use nuprikhen::lighting::{Color, LightSource};
use nuprikhen::morphology::MorphologyOperator::{Dilate, Erode};
use nuprikhen::recipe::{Kind, Recipe, Sheets};

use crate::files;

/// A file of more bytes is no message: 16 steps with 16,384 numbers are far fewer.
const MESSAGE_LIMIT: u64 = 1 << 24;

/// A name, and what makes the recipe.
type BuiltIn = (&'static str, fn() -> Recipe);

/// In the order of the help.
const BUILT_IN: [BuiltIn; 9] = [
    ("relief", relief),
    ("outline", outline),
    ("fade", fade),
    ("poster", poster),
    ("edges", edges),
    ("ripple", ripple),
    ("clouds", clouds),
    ("dilate", || {
        Recipe::new().morphology(0, 1, Dilate, 4.0, 4.0)
    }),
    ("erode", || Recipe::new().morphology(0, 1, Erode, 4.0, 4.0)),
];

/// Each colour halved, and half of white.
#[rustfmt::skip]
const FADE: [f32; 20] = [
    0.5, 0.0, 0.0, 0.0, 0.5,
    0.0, 0.5, 0.0, 0.0, 0.5,
    0.0, 0.0, 0.5, 0.0, 0.5,
    0.0, 0.0, 0.0, 1.0, 0.0,
];

/// Pale, and thicker where there is more noise.
#[rustfmt::skip]
const CLOUDS: [f32; 20] = [
    0.0, 0.0, 0.0, 0.0, 0.6,
    0.0, 0.0, 0.0, 0.0, 0.7,
    0.0, 0.0, 0.0, 0.0, 0.8,
    4.0, 0.0, 0.0, 0.0, -1.6,
];

/// A square kernel, its target in the middle; beyond the edges the nearest pixel counts.
fn kernel(numbers: &[f32], divisor: f32) -> ConvolveMatrix<'_> {
    let side = numbers.len().isqrt() as u32;
    ConvolveMatrix {
        columns: side,
        rows: side,
        target_x: side / 2,
        target_y: side / 2,
        matrix: numbers,
        divisor,
        bias: 0.0,
        edge_mode: EdgeMode::Duplicate,
    }
}

/// A kernel of a single 1 that preserves alpha: it premultiplies.
fn premultiply(recipe: Recipe, input: u32, output: u32) -> Recipe {
    recipe.convolve_matrix_preserving_alpha(input, output, &kernel(&[1.0], 1.0))
}

/// The picture under the light that its brightness, a little blurred, throws back.
fn relief() -> Recipe {
    let light = LightSource::Distant(-0.48, -0.6, 0.64);
    let white = Color {
        red: 255,
        green: 255,
        blue: 255,
    };
    let bright = Recipe::new().color_matrix(0, 1, &ColorMatrix::LuminanceToAlpha);
    let lit = premultiply(bright, 1, 2)
        .convolve_matrix(2, 1, &kernel(&[1.0; 9], 9.0))
        .diffuse_lighting(1, 2, light, 4.0, 1.5, white);
    premultiply(premultiply(lit, 2, 1), 0, 2).arithmetic(2, 1, 3, 1.0, 0.0, 0.0, 0.0)
}

/// The picture dilated, less the picture: what the dilation added round its edges.
fn outline() -> Recipe {
    Recipe::new()
        .morphology(0, 1, Dilate, 2.0, 2.0)
        .arithmetic(1, 0, 3, 0.0, 1.0, -1.0, 0.0)
}

fn fade() -> Recipe {
    Recipe::new().color_matrix(0, 1, &ColorMatrix::Matrix(&FADE))
}

/// Each colour is cut down to one of four levels; alpha is left alone.
fn poster() -> Recipe {
    let levels = TransferFunction::Discrete(&[0.0, 0.34, 0.67, 1.0]);
    Recipe::new().component_transfer(0, 1, &levels, &levels, &levels, &TransferFunction::Identity)
}

/// Each colour against its eight neighbours'.
fn edges() -> Recipe {
    let mut numbers = [-1.0; 9];
    numbers[4] = 8.0;
    Recipe::new().convolve_matrix_preserving_alpha(0, 1, &kernel(&numbers, 1.0))
}

/// Moved by noise, as if seen through water.
fn ripple() -> Recipe {
    let (x, y) = (ColorChannel::R, ColorChannel::G);
    Recipe::new()
        .turbulence(1, 0.0, 0.0, 1.0, 1.0, 0.01, 0.03, 1, 3, true)
        .displacement_map(0, 1, 2, x, y, 1.0, 1.0, 32.0)
}

/// Noise screened over the picture.
fn clouds() -> Recipe {
    let noise = Recipe::new()
        .turbulence(1, 0.0, 0.0, 1.0, 1.0, 0.006, 0.02, 4, 7, true)
        .color_matrix(1, 2, &ColorMatrix::Matrix(&CLOUDS));
    premultiply(premultiply(noise, 2, 1), 0, 2).arithmetic(2, 1, 3, -1.0, 1.0, 1.0, 0.0)
}

/// A recipe that no test refuses, with the kinds of its source and its result.
#[derive(Debug)]
pub struct Ready {
    pub recipe: Recipe,
    pub source: Kind,
    pub result: Kind,
}

impl Ready {
    /// Tests the recipe on a single pixel: no test looks at what a sheet holds. A source that may be of either kind
    /// is straight, as files are.
    fn new(recipe: Recipe) -> Result<Ready, String> {
        let mut kinds = [Kind::Straight, Kind::Premultiplied].into_iter();
        let (source, result) = kinds
            .find_map(|source| Some((source, recipe.result_kind(source)?)))
            .unwrap_or((Kind::Straight, Kind::Straight));
        let pixel = Sheets::new(source, 1, 1, [0; 4]);
        recipe
            .reaches(&pixel)
            .map_err(|refusal| refusal.to_string())?;
        Ok(Ready {
            recipe,
            source,
            result,
        })
    }
}

/// The recipe that is asked for: a file's, where the name ends in .recipe, else a built-in one.
pub fn named(name: &Path) -> Result<Ready, String> {
    if files::ends_in(name, "recipe") {
        let message = files::read(name, MESSAGE_LIMIT)?;
        let recipe = Recipe::from_bytes(&message).map_err(|refusal| refusal.to_string())?;
        return Ready::new(recipe);
    }
    match BUILT_IN.iter().find(|(known, _)| name == Path::new(known)) {
        Some((_, recipe)) => Ready::new(recipe()),
        None => {
            let known = BUILT_IN.map(|(name, _)| name).join(", ");
            Err(format!(
                "no such recipe; there are: {known}, and files that end in .recipe"
            ))
        }
    }
}

#[cfg(test)]
mod tests {
    use super::*;
    use crate::picture::Picture;

    fn ready(name: &str) -> Ready {
        named(Path::new(name)).expect(name)
    }

    /// Shades without a sharp edge and without a clear pixel, as a photograph has them.
    fn photograph() -> Picture {
        let pixel = |i: u32| {
            let (x, y) = ((i % 48) as f64, (i / 48) as f64);
            let wave = |a: f64, b: f64| (128.0 + 90.0 * (a * x + b * y).sin()) as u8;
            [wave(0.2, 0.1), wave(0.1, 0.3), wave(-0.2, 0.2), 255]
        };
        Picture {
            width: 48,
            height: 32,
            sheet: (0..48 * 32).flat_map(pixel).collect(),
        }
    }

    #[test]
    fn every_recipe_is_taken_and_stands_in_the_help() {
        let help = include_str!("../help.txt");
        let lines: Vec<&str> = help
            .lines()
            .filter_map(|line| line.strip_prefix("  "))
            .collect();
        let names: Vec<&str> = lines
            .iter()
            .filter_map(|line| line.split(' ').next())
            .collect();
        let known = BUILT_IN.map(|(name, _)| name);
        assert_eq!(names, [&known[..], &["FILE.recipe"]].concat());
        for name in known {
            crate::run(&ready(name), photograph()).expect(name);
        }
    }

    /// How many of a thousand pixels differ by more than eight in a channel.
    fn changed(name: &str, picture: &Picture) -> usize {
        let result = crate::run(&ready(name), picture.clone()).expect(name);
        let pairs = picture
            .sheet
            .chunks_exact(4)
            .zip(result.sheet.chunks_exact(4));
        let far = |(a, b): &(&[u8], &[u8])| a.iter().zip(*b).any(|(a, b)| a.abs_diff(*b) > 8);
        1000 * pairs.filter(far).count() / (picture.sheet.len() / 4)
    }

    #[test]
    fn the_default_is_seen_on_a_photograph() {
        assert!(changed("relief", &photograph()) > 500);
        let result = crate::run(&ready("relief"), photograph()).expect("done");
        assert!(result.sheet.chunks_exact(4).all(|pixel| pixel[3] == 255));
        assert!(result.sheet.chunks_exact(4).any(|pixel| pixel[0] > 60));
    }

    #[test]
    fn an_outline_is_straight_colour() {
        // A pixel of half alpha on a clear ground, one row.
        let mut sheet = vec![0; 4 * 7];
        sheet[12..16].copy_from_slice(&[200, 100, 0, 128]);
        let picture = Picture {
            width: 7,
            height: 1,
            sheet,
        };
        let result = crate::run(&ready("outline"), picture).expect("done");
        let line = [199, 100, 0, 128];
        let wanted = [[0; 4], line, line, [0; 4], line, line, [0; 4]].concat();
        assert_eq!(result.sheet, wanted);
    }

    #[test]
    fn wrong_names() {
        let told = named(Path::new("glow")).expect_err("no recipe");
        assert!(told.starts_with("no such recipe; there are: relief, outline, "));
        assert_eq!(
            named(Path::new("no/such.recipe")).expect_err("no file"),
            "no such file"
        );
    }
}
