//! Morphology: operator, two radii; the sheet in place, and scratch.

use rgb::FromSlice;
use usvg::filter::MorphologyOperator;

use super::{Primitive, alphas, long_rows};
use crate::case::{Answer, Case, Param};
use crate::filter::{self, ImageRefMut};
use crate::nasty;
use crate::ours;
use crate::rng::Rng;
use crate::table::{RADII, Reading};

pub const PRIMITIVE: Primitive = Primitive {
    name: "morphology",
    code: 1,
    large: 50,
    known,
    draw,
    spoil,
    reading,
    rust,
    dest: None,
    scratch: Some(1),
    ours,
};

const DILATE: u32 = 0;
const ERODE: u32 = 1;

/// Where both sides are longer radii are at most 4: the Rust slows with their product.
const WIDEST: u32 = 64;

fn case(width: u32, height: u32, op: u32, rx: f32, ry: f32, src: Vec<u8>) -> Case {
    let scratch = (0..src.len()).map(|i| 200 - i as u8 % 100).collect();
    let params = vec![Param::Choice(op), Param::float(rx), Param::float(ry)];
    Case {
        width,
        height,
        params,
        sheets: vec![src, scratch],
    }
}

fn known() -> Vec<Case> {
    let row = || alphas(&[10, 200, 30]);
    let mut cases = vec![
        case(3, 1, DILATE, 1.0, 0.0, row()),
        case(3, 1, ERODE, 1.0, 0.0, row()),
        case(3, 1, ERODE, 65536.0, 0.0, row()),
        case(3, 1, DILATE, 0.5, 0.0, row()),
        case(3, 1, DILATE, 0.499_999_97, 0.0, row()),
        case(1, 3, DILATE, 0.0, 1.0, row()),
        case(3, 1, DILATE, -0.0, -0.0, row()),
        case(3, 1, 2, 1.0, 0.0, row()),
        case(3, 1, 2, f32::NAN, 0.0, row()),
    ];
    cases.extend(long_rows(|width, row| {
        case(width, 1, DILATE, 3.0, 0.0, row)
    }));
    cases
}

fn draw(rng: &mut Rng, width: u32, height: u32) -> Case {
    let src = nasty::sheet(rng, width, height);
    let (rx, ry) = match width.min(height) {
        0..=WIDEST => (nasty::radius(rng, width), nasty::radius(rng, height)),
        _ => (rng.below(9) as f32 / 2.0, rng.below(9) as f32 / 2.0),
    };
    case(width, height, rng.pick(&[DILATE, ERODE]), rx, ry, src)
}

/// An operator that names no case.
fn spoil(rng: &mut Rng, case: &mut Case) {
    case.params[0] = Param::Choice(rng.pick(&[2, 3, 128, 254, 255]));
}

fn reading(case: &Case) -> Reading {
    let mut reading = Reading {
        unnamed: case.choice(0) > ERODE,
        ..Reading::default()
    };
    reading.range(&[case.float(1), case.float(2)], RADII);
    reading
}

fn rust(case: &Case, sheets: &mut [Vec<u8>]) {
    let operator = match case.choice(0) {
        DILATE => MorphologyOperator::Dilate,
        _ => MorphologyOperator::Erode,
    };
    let image = ImageRefMut::new(case.width, case.height, sheets[0].as_rgba_mut());
    filter::morphology::apply(operator, case.float(1), case.float(2), image);
}

fn ours(case: &Case, sheets: &mut [&mut [u8]]) -> Answer {
    let [src, scratch] = sheets else {
        unreachable!()
    };
    unsafe {
        ours::nup_morphology(
            case.width,
            case.height,
            case.choice(0) as u8,
            case.float(1),
            case.float(2),
            src.as_mut_ptr(),
            src.len(),
            scratch.as_mut_ptr(),
            scratch.len(),
        )
    }
}
