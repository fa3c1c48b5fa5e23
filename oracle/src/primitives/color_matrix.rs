//! Colour matrix: Matrix, Saturate, HueRotate with a lent pair, LuminanceToAlpha; in place.

use rgb::FromSlice;
use usvg::PositiveF32;
use usvg::filter::ColorMatrixKind;

use super::{Primitive, long_rows};
use crate::case::{Answer, Case, Param};
use crate::exact;
use crate::filter::{self, ImageRefMut, lent};
use crate::nasty;
use crate::ours;
use crate::rng::Rng;
use crate::table::{Reading, WIDE};

pub const PRIMITIVE: Primitive = Primitive {
    name: "color_matrix",
    code: 2,
    large: 600,
    known,
    draw,
    spoil,
    reading,
    rust,
    dest: None,
    scratch: None,
    ours,
};

const MATRIX: u32 = 0;
const SATURATE: u32 = 1;
const HUE_ROTATE: u32 = 2;
const LUMINANCE_TO_ALPHA: u32 = 3;

#[rustfmt::skip]
const IDENTITY: [f32; 20] = [
    1.0, 0.0, 0.0, 0.0, 0.0,
    0.0, 1.0, 0.0, 0.0, 0.0,
    0.0, 0.0, 1.0, 0.0, 0.0,
    0.0, 0.0, 0.0, 1.0, 0.0,
];

fn matrix(m: &[f32]) -> Vec<Param> {
    vec![Param::Choice(MATRIX), Param::Rest(Param::floats(m))]
}

fn saturate(v: f32) -> Vec<Param> {
    vec![Param::Choice(SATURATE), Param::float(v)]
}

fn hue_rotate(cosine: f32, sine: f32) -> Vec<Param> {
    vec![
        Param::Choice(HUE_ROTATE),
        Param::float(cosine),
        Param::float(sine),
    ]
}

fn luminance_to_alpha() -> Vec<Param> {
    vec![Param::Choice(LUMINANCE_TO_ALPHA)]
}

fn known() -> Vec<Case> {
    let mut inverse = IDENTITY.map(|x| -x);
    (inverse[4], inverse[9], inverse[14], inverse[18]) = (1.0, 1.0, 1.0, 1.0);
    let params = [
        matrix(&IDENTITY),
        matrix(&inverse),
        matrix(&IDENTITY[..19]),
        matrix(&[]),
        saturate(0.0),
        saturate(-0.0),
        saturate(-65536.0),
        saturate(1.0),
        hue_rotate(1.0, 0.0),
        hue_rotate(0.0, -1.0),
        hue_rotate(1.0, 1.0 / 32.0),
        hue_rotate(1.0, f32::next_up(1.0 / 32.0)),
        luminance_to_alpha(),
    ];
    let mut cases: Vec<Case> = params
        .into_iter()
        .map(|params| {
            let src = (0..64)
                .map(|i| (i * 67 + params.len() * 13) as u8)
                .collect();
            Case {
                width: 4,
                height: 4,
                params,
                sheets: vec![src],
            }
        })
        .collect();
    cases.extend(long_rows(|width, row| Case {
        width,
        height: 1,
        params: saturate(0.5),
        sheets: vec![row],
    }));
    cases
}

fn draw(rng: &mut Rng, width: u32, height: u32) -> Case {
    let params = match rng.below(8) {
        0..3 => matrix(&draw_matrix(rng)),
        3 | 4 => saturate(nasty::float(rng, WIDE)),
        5 | 6 => {
            let (cosine, sine) = draw_pair(rng);
            hue_rotate(cosine, sine)
        }
        _ => luminance_to_alpha(),
    };
    Case {
        width,
        height,
        params,
        sheets: vec![nasty::sheet(rng, width, height)],
    }
}

fn draw_matrix(rng: &mut Rng) -> [f32; 20] {
    let style = rng.below(4);
    let mut m = IDENTITY;
    for x in &mut m {
        match style {
            0 => *x = nasty::float(rng, WIDE),
            1 => *x = 4.0 * rng.unit() - 2.0,
            2 => *x = rng.unit() / 2.0,
            _ if rng.one_in(4) => *x = nasty::float(rng, WIDE),
            _ => {}
        }
    }
    m
}

/// A pair that is taken: an angle's, a corner, or one at an edge of what is taken.
fn draw_pair(rng: &mut Rng) -> (f32, f32) {
    match rng.below(4) {
        0 => rng.pick(&[
            (1.0, 0.0),
            (-0.0, 1.0),
            (-1.0, -0.0),
            (1.0, 1.0 / 32.0),
            (0.25, 31.0 / 32.0),
        ]),
        1 => edge_pair(rng, true),
        _ => {
            let angle = (720.0 * rng.unit() - 360.0).to_radians();
            (angle.cos(), angle.sin())
        }
    }
}

/// A pair one step inside or outside an edge of what is taken.
fn edge_pair(rng: &mut Rng, inside: bool) -> (f32, f32) {
    let upper = rng.one_in(2);
    let x = 2.0 * rng.unit() - 1.0;
    let Some(before) = exact::last_before(&[x.to_bits()], upper) else {
        return edge_pair(rng, inside);
    };
    // Inside is before the upper edge and after the lower one.
    let y = f32::from_bits(if upper == inside { before } else { before + 1 });
    let y = if rng.one_in(2) { y } else { -y };
    if rng.one_in(2) { (x, y) } else { (y, x) }
}

/// A matrix of another length, or a pair just off the unit circle.
fn spoil(rng: &mut Rng, case: &mut Case) {
    if let Some(Param::Rest(m)) = case.params.get_mut(1) {
        m.resize(rng.pick(&[0, 1, 4, 16, 19, 21, 24, 40]), 0);
    } else if case.choice(0) == HUE_ROTATE {
        let (cosine, sine) = edge_pair(rng, false);
        case.params = hue_rotate(cosine, sine);
    }
}

fn reading(case: &Case) -> Reading {
    let mut reading = Reading::default();
    match case.choice(0) {
        MATRIX => {
            let m = case.floats(1);
            reading.misshapen = m.len() != 20;
            reading.range(&m, WIDE);
        }
        SATURATE => reading.range(&[case.float(1)], WIDE),
        HUE_ROTATE => reading.unit = vec![case.float(1), case.float(2)],
        _ => {}
    }
    reading
}

fn rust(case: &Case, sheets: &mut [Vec<u8>]) {
    let image = ImageRefMut::new(case.width, case.height, sheets[0].as_rgba_mut());
    match case.choice(0) {
        MATRIX => filter::color_matrix::apply(&ColorMatrixKind::Matrix(case.floats(1)), image),
        SATURATE => {
            let v = PositiveF32::new(case.float(1));
            filter::color_matrix::apply(&ColorMatrixKind::Saturate(v), image);
        }
        HUE_ROTATE => {
            lent::lend_pair(case.float(1), case.float(2));
            filter::color_matrix_lent::apply(&ColorMatrixKind::HueRotate(0.0), image);
        }
        _ => filter::color_matrix::apply(&ColorMatrixKind::LuminanceToAlpha, image),
    }
}

fn ours(case: &Case, sheets: &mut [&mut [u8]]) -> Answer {
    let [src] = sheets else { unreachable!() };
    let (w, h) = (case.width, case.height);
    let (at, length) = (src.as_mut_ptr(), src.len());
    match case.choice(0) {
        MATRIX => {
            let m = case.floats(1);
            unsafe { ours::nup_color_matrix(w, h, m.as_ptr(), m.len(), at, length) }
        }
        SATURATE => unsafe { ours::nup_saturate(w, h, case.float(1), at, length) },
        HUE_ROTATE => unsafe {
            ours::nup_hue_rotate(w, h, case.float(1), case.float(2), at, length)
        },
        _ => unsafe { ours::nup_luminance_to_alpha(w, h, at, length) },
    }
}
