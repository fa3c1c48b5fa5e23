//! Writes the messages of examples/recipes: `cargo run --example recipes -- ../examples/recipes` in rust/.
//! Each takes a picture of straight colour and gives one of premultiplied colour.

use std::path::Path;
use std::process::ExitCode;
use std::{env, fs};

use nuprikhen::color_matrix::ColorMatrix;
use nuprikhen::convolve_matrix::{ConvolveMatrix, EdgeMode};
use nuprikhen::lighting::{Color, LightSource};
use nuprikhen::morphology::MorphologyOperator;
use nuprikhen::recipe::Recipe;

/// The name of a file and what makes its recipe.
type Named = (&'static str, fn() -> Recipe);

const RECIPES: [Named; 2] = [("emboss.recipe", emboss), ("shadow.recipe", shadow)];

/// No colour, and six tenths of alpha.
#[rustfmt::skip]
const DARK: [f32; 20] = [
    0.0, 0.0, 0.0, 0.0, 0.0,
    0.0, 0.0, 0.0, 0.0, 0.0,
    0.0, 0.0, 0.0, 0.0, 0.0,
    0.0, 0.0, 0.0, 0.6, 0.0,
];

/// A kernel of a single 1: where alpha is preserved it premultiplies.
const ONE: ConvolveMatrix = ConvolveMatrix {
    columns: 1,
    rows: 1,
    target_x: 0,
    target_y: 0,
    matrix: &[1.0],
    divisor: 1.0,
    bias: 0.0,
    edge_mode: EdgeMode::None,
};

/// The mean of 7 by 7 pixels, of which this one is in the given column and row.
fn mean(target: u32, edge_mode: EdgeMode) -> ConvolveMatrix<'static> {
    ConvolveMatrix {
        columns: 7,
        rows: 7,
        target_x: target,
        target_y: target,
        matrix: &[1.0; 49],
        divisor: 49.0,
        bias: 0.0,
        edge_mode,
    }
}

/// The picture under the light that its blurred alpha throws back, from the upper left.
fn emboss() -> Recipe {
    let light = LightSource::Distant(-0.48, -0.6, 0.64);
    let white = Color {
        red: 255,
        green: 255,
        blue: 255,
    };
    Recipe::new()
        .convolve_matrix_preserving_alpha(0, 1, &ONE)
        .convolve_matrix(1, 2, &mean(3, EdgeMode::Duplicate))
        .diffuse_lighting(2, 3, light, 5.0, 1.5, white)
        .convolve_matrix_preserving_alpha(3, 2, &ONE)
        .arithmetic(1, 2, 3, 1.0, 0.0, 0.0, 0.0)
}

/// The picture over its own shape, dark, widened, blurred and moved by three pixels to the lower right.
fn shadow() -> Recipe {
    let operator = MorphologyOperator::Dilate;
    Recipe::new()
        .color_matrix(0, 1, &ColorMatrix::Matrix(&DARK))
        .convolve_matrix_preserving_alpha(1, 2, &ONE)
        .morphology(2, 1, operator, 2.0, 2.0)
        .convolve_matrix(1, 2, &mean(6, EdgeMode::None))
        .convolve_matrix_preserving_alpha(0, 1, &ONE)
        .arithmetic(1, 2, 3, -1.0, 1.0, 1.0, 0.0)
}

fn main() -> ExitCode {
    let Some(folder) = env::args_os().nth(1) else {
        println!("usage: recipes FOLDER    writes the messages of examples/recipes there");
        return ExitCode::SUCCESS;
    };
    for (name, recipe) in RECIPES {
        let path = Path::new(&folder).join(name);
        if let Err(error) = fs::write(&path, recipe().to_bytes()) {
            eprintln!("{}: {error}", path.display());
            return ExitCode::FAILURE;
        }
    }
    ExitCode::SUCCESS
}

#[cfg(test)]
mod tests {
    use super::*;
    use nuprikhen::recipe::{Kind, Sheets};

    #[test]
    fn the_files_are_these_messages() {
        let folder = Path::new(env!("CARGO_MANIFEST_DIR")).join("../examples/recipes");
        for (name, recipe) in RECIPES {
            let bytes = fs::read(folder.join(name)).expect(name);
            assert_eq!(bytes, recipe().to_bytes(), "{name}");
        }
    }

    /// A clear sheet of 24 by 24 with an opaque square of 8 by 8 in its middle.
    fn square() -> Sheets<Vec<u8>, Vec<u8>> {
        let inside = |n: usize| (8..16).contains(&n);
        let pixel = |i: usize| match inside(i % 24) && inside(i / 24) {
            true => [200, 100, 50, 255],
            false => [0; 4],
        };
        Sheets::new(Kind::Straight, 24, 24, (0..576).flat_map(pixel).collect())
    }

    fn pixel(sheet: &[u8], x: usize, y: usize) -> [u8; 4] {
        let start = 4 * (24 * y + x);
        sheet[start..start + 4].try_into().expect("a pixel")
    }

    #[test]
    fn an_embossed_square_is_brighter_at_its_upper_left() {
        let mut sheets = square();
        assert_eq!(emboss().reaches(&sheets), Ok(true));
        let sheet = emboss().run(&mut sheets).expect("done");
        let [near, far] = [(8, 8), (15, 15)].map(|(x, y)| pixel(sheet, x, y));
        assert!(near[0] > far[0] && near[3] == 255 && far[3] == 255);
        assert_eq!(pixel(sheet, 0, 0), [0; 4]);
    }

    #[test]
    fn a_shadow_falls_to_the_lower_right() {
        let mut sheets = square();
        let sheet = shadow().run(&mut sheets).expect("done");
        assert_eq!(pixel(sheet, 12, 12), [200, 100, 50, 255]);
        assert_eq!(pixel(sheet, 3, 3), [0; 4]);
        let shade = pixel(sheet, 17, 17);
        assert!(shade[..3] == [0; 3] && shade[3] > 100);
    }
}
