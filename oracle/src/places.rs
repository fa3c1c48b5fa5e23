//! How far displacement_map.rs moves a pixel: random calls, of pictures whose pixels say where they stand.

use rgb::FromSlice;
use usvg::filter::{ColorChannel, DisplacementMap};

use crate::filter::{self, ImageRef, ImageRefMut};
use crate::nasty;
use crate::rng::Rng;
use crate::table::{CANVAS, SCALE};

/// The columns of a row, and the rows of a column.
const SIDE: u32 = 64;

/// What was found: pixels that came from the sheet, those beyond D - 1, those as far as that.
#[derive(Default)]
struct Found {
    moved: u64,
    beyond: u64,
    farthest: u64,
}

pub fn run(calls: u64, seed: u64) -> Result<(), String> {
    let mut rng = Rng::new(seed);
    let mut found = Found::default();
    for _ in 0..calls {
        call(&mut rng, &mut found);
    }
    println!(
        "{calls} calls: {} pixels moved, {} beyond D - 1, {} as far as that",
        found.moved, found.beyond, found.farthest
    );
    match found.beyond {
        0 => Ok(()),
        _ => Err("a pixel came from beyond its reach".into()),
    }
}

/// One call over a row or a column, by a map of noise.
fn call(rng: &mut Rng, found: &mut Found) {
    let along = rng.one_in(2);
    let (width, height) = if along { (SIDE, 1) } else { (1, SIDE) };
    let scale = drawn_scale(rng);
    let fe = DisplacementMap {
        scale,
        x_channel_selector: ColorChannel::R,
        y_channel_selector: ColorChannel::R,
    };
    let s = drawn_canvas(rng);
    let (sx, sy) = if along { (s, 0.0) } else { (0.0, s) };
    // Red is the place and one more: 0 is off the sheet.
    let picture: Vec<u8> = (0..SIDE as u8).flat_map(|i| [i + 1, 0, 0, 0]).collect();
    let map: Vec<u8> = (0..4 * SIDE).map(|_| rng.byte()).collect();
    let mut result = vec![0; 4 * SIDE as usize];
    filter::displacement_map::apply(
        &fe,
        sx,
        sy,
        ImageRef::new(width, height, picture.as_rgba()),
        ImageRef::new(width, height, map.as_rgba()),
        ImageRefMut::new(width, height, result.as_rgba_mut()),
    );
    let limit = least_distance(s, scale);
    let reds = result.iter().step_by(4).enumerate();
    for (i, &red) in reds.filter(|&(_, &red)| red > 0) {
        let distance = (red as i64 - 1 - i as i64).unsigned_abs();
        found.moved += 1;
        found.beyond += (distance > limit) as u64;
        found.farthest += (distance == limit) as u64;
    }
}

/// docs/LAW.md's D less one: the least whole number not below |s x scale| / 2. The product of two f32 is exact in f64.
fn least_distance(s: f32, scale: f32) -> u64 {
    ((s as f64 * scale as f64).abs() / 2.0).ceil() as u64
}

fn drawn_canvas(rng: &mut Rng) -> f32 {
    match rng.below(3) {
        0 => nasty::float(rng, CANVAS),
        1 => rng.pick(&[1.0, -1.0, 0.5, 2.0]),
        _ => 4.0 * rng.unit() - 2.0,
    }
}

/// Mostly so small that the targets lie about the sheet.
fn drawn_scale(rng: &mut Rng) -> f32 {
    match rng.below(4) {
        0 => nasty::float(rng, SCALE),
        1 => rng.below(2 * SIDE) as f32,
        _ => (2.0 * rng.unit() - 1.0) * 2.0 * SIDE as f32,
    }
}
