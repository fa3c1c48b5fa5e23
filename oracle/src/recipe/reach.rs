//! Reach, worked out backwards: which bytes a wanted byte reads, step by step down to slot 0.

use super::{Kernel, Recipe, Step, Work, answer};

/// The source bytes that byte `k` of the result reaches; none where the run is refused.
pub fn reach(recipe: &Recipe, k: usize) -> Vec<usize> {
    backwards(recipe, |j| j == k)
}

/// Whether some byte of the result reaches slot 0.
pub fn reaches(recipe: &Recipe) -> bool {
    !backwards(recipe, |_| true).is_empty()
}

fn backwards(recipe: &Recipe, of: impl Fn(usize) -> bool) -> Vec<usize> {
    if answer(recipe).number != 0 {
        return vec![];
    }
    let size = recipe.sheets[0].len();
    let mut wanted = vec![vec![false; size]; 4];
    let last = recipe.taken().last().expect("a step");
    wanted[last.output as usize] = (0..size).map(of).collect();
    for step in recipe.taken().iter().rev() {
        let asked = std::mem::replace(&mut wanted[step.output as usize], vec![false; size]);
        for k in (0..size).filter(|k| asked[*k]) {
            for (input, j) in reads(recipe, step, k) {
                wanted[step.inputs[input] as usize][j] = true;
            }
        }
    }
    (0..size).filter(|j| wanted[0][*j]).collect()
}

/// What byte `k` of a step's output reads: an input, 0 or 1, and a byte of it.
fn reads(recipe: &Recipe, step: &Step, k: usize) -> Vec<(usize, usize)> {
    let (pixel, channel) = (k / 4, k % 4);
    let (own, alpha) = ((0, k), (0, 4 * pixel + 3));
    match step.work {
        Work::Morphology(_, rx, ry) => {
            let (rx, ry) = (rx.round() as usize, ry.round() as usize);
            around(recipe, pixel, rx, ry, channel)
        }
        Work::Arithmetic(_) => vec![own, alpha, (1, k), (1, 4 * pixel + 3)],
        Work::Transfer(_) => vec![own],
        Work::Convolve(kernel) => {
            let mut bytes = vec![alpha];
            for pixel in convolved(recipe, &kernel, pixel) {
                bytes.extend([(0, 4 * pixel + channel), (0, 4 * pixel + 3)]);
            }
            bytes
        }
        Work::Displacement(channels, [sx, sy, scale]) => {
            let (dx, dy) = (distance(sx, scale), distance(sy, scale));
            let mut bytes = around(recipe, pixel, dx, dy, channel);
            bytes.extend(channels.map(|channel| (1, 4 * pixel + channel as usize)));
            bytes
        }
        Work::Turbulence(..) => vec![],
        Work::Diffuse(_) | Work::Specular(..) => around(recipe, pixel, 1, 1, 3),
        _ => (4 * pixel..4 * pixel + 4).map(|j| (0, j)).collect(),
    }
}

/// A channel of the first input within so many columns and rows of a pixel, clipped.
fn around(
    recipe: &Recipe,
    pixel: usize,
    columns: usize,
    rows: usize,
    channel: usize,
) -> Vec<(usize, usize)> {
    let width = recipe.width as usize;
    let columns = window(columns, pixel % width, width);
    let rows = window(rows, pixel / width, recipe.height as usize);
    rows.flat_map(|y| {
        columns
            .clone()
            .map(move |x| (0, 4 * (width * y + x) + channel))
    })
    .collect()
}

/// The places within the radius of `at`, clipped to `0..side`.
fn window(radius: usize, at: usize, side: usize) -> std::ops::Range<usize> {
    at.saturating_sub(radius)..(at + radius + 1).min(side)
}

/// The least whole number not below |s x scale| / 2 + 1: a double holds the product exactly.
fn distance(s: f32, scale: f32) -> usize {
    (s as f64 * scale as f64 / 2.0).abs().ceil() as usize + 1
}

/// The pixels under a kernel whose target is `pixel`, by the edge mode.
fn convolved(recipe: &Recipe, kernel: &Kernel, pixel: usize) -> Vec<usize> {
    let width = recipe.width as usize;
    let at = |place: usize, step: u32, target: u32, side: u32| {
        let place = place as i64 + step as i64 - target as i64;
        let last = side as i64 - 1;
        match kernel.edge {
            0 => (0..=last).contains(&place).then_some(place as usize),
            1 => Some(place.clamp(0, last) as usize),
            _ => Some(place.rem_euclid(side as i64) as usize),
        }
    };
    let columns = |x| at(pixel % width, x, kernel.target_x, recipe.width);
    let rows = |y| at(pixel / width, y, kernel.target_y, recipe.height);
    let rows = (0..kernel.rows).filter_map(rows);
    rows.flat_map(|y| {
        (0..kernel.columns)
            .filter_map(columns)
            .map(move |x| width * y + x)
    })
    .collect()
}
