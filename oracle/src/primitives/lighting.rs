//! Diffuse and specular lighting: the light (0 distant with a lent direction, 1 point), its x, y and z, surface scale,
//! constant, red, green, blue, and for specular lighting the exponent; a sheet whose alpha is read and a destination
//! full of junk.

use rgb::FromSlice;
use usvg::Color;
use usvg::filter::{DiffuseLighting, DistantLight, LightSource, PointLight, SpecularLighting};

use super::{Primitive, long_rows};
use crate::case::{Answer, Case, Param};
use crate::exact;
use crate::filter::{ImageRef, ImageRefMut, lent, lighting, lighting_lent};
use crate::nasty;
use crate::ours;
use crate::rng::Rng;
use crate::table::{Range, Reading, WIDE};

pub const DIFFUSE: Primitive = Primitive {
    name: "diffuse_lighting",
    code: 8,
    large: 600,
    known: || known(None),
    draw: |rng, width, height| draw(rng, width, height, None),
    spoil,
    reading,
    rust,
    dest: Some(1),
    scratch: None,
    ours,
};

pub const SPECULAR: Primitive = Primitive {
    name: "specular_lighting",
    code: 9,
    known: || known(Some(1.0)),
    draw: |rng, width, height| draw(rng, width, height, Some(1.0)),
    ..DIFFUSE
};

const SCALES: Range = (-256.0, 256.0);
const CONSTANTS: Range = (0.0, 256.0);
const EXPONENTS: Range = (1.0, 1.0);

const DISTANT: u32 = 0;
const POINT: u32 = 1;

/// A light with its three numbers.
type Light = (u32, [f32; 3]);

/// The light, its three numbers, the scale, the constant, the colour, and for specular lighting the exponent.
fn params(
    light: Light,
    scale: f32,
    constant: f32,
    color: [u8; 3],
    exponent: Option<f32>,
) -> Vec<Param> {
    let mut params = vec![Param::Choice(light.0)];
    params.extend(light.1.map(Param::float));
    params.extend([scale, constant].map(Param::float));
    params.extend(color.map(|c| Param::Choice(c as u32)));
    params.extend(exponent.map(Param::float));
    params
}

fn case(width: u32, height: u32, params: Vec<Param>, src: Vec<u8>) -> Case {
    let dest = (0..src.len()).map(|i| 77 + i as u8 % 100).collect();
    Case {
        width,
        height,
        params,
        sheets: vec![src, dest],
    }
}

fn known(exponent: Option<f32>) -> Vec<Case> {
    let with = |light, scale, constant| params(light, scale, constant, [255; 3], exponent);
    let above = |z: f32| (DISTANT, [0.0, 0.0, z]);
    let bumps = |n: usize| (0..4 * n).map(|i| (i * i * 31) as u8).collect::<Vec<u8>>();
    let mut cases = vec![
        case(3, 3, with(above(1.0), 1.0, 1.0), vec![0; 36]),
        case(3, 3, with(above(-1.0), 1.0, 1.0), vec![0; 36]),
        case(2, 2, with(above(1.0), 1.0, 1.0), bumps(4)),
        case(2, 5, with(above(1.0), 1.0, 1.0), bumps(10)),
        case(5, 2, with(above(1.0), 1.0, 1.0), bumps(10)),
        case(3, 3, with(above(1.0), 256.0, 256.0), bumps(9)),
        case(4, 3, with((POINT, [1.0, 1.0, 0.0]), -1.0, 1.0), vec![0; 48]),
        case(
            4,
            3,
            with((POINT, [1.0, 1.0, 1.0]), 1.0, 1.0),
            vec![255; 48],
        ),
        case(4, 3, with((2, [f32::NAN; 3]), 1.0, 1.0), bumps(12)),
        // Wider than a strip of 512 columns.
        case(
            515,
            3,
            with((POINT, [500.0, 1.0, 40.0]), 5.0, 1.0),
            bumps(1545),
        ),
    ];
    cases.extend(long_rows(|width, row| {
        case(width, 1, with(above(1.0), 5.0, 1.0), row)
    }));
    cases
}

/// A direction that is taken: an axis, an angle's, or one at an edge of what is taken.
fn direction(rng: &mut Rng) -> [f32; 3] {
    match rng.below(4) {
        0 => {
            let mut axis = [0.0; 3];
            axis[rng.below(3) as usize] = rng.pick(&[1.0, -1.0]);
            axis
        }
        1 => edge(rng, true),
        _ => {
            let (azimuth, elevation) = (6.3 * rng.unit(), 6.3 * rng.unit());
            [
                azimuth.cos() * elevation.cos(),
                azimuth.sin() * elevation.cos(),
                elevation.sin(),
            ]
        }
    }
}

/// A direction one step inside or outside an edge of what is taken.
fn edge(rng: &mut Rng, inside: bool) -> [f32; 3] {
    let upper = rng.one_in(2);
    let (x, y) = (1.4 * rng.unit() - 0.7, 1.4 * rng.unit() - 0.7);
    let Some(before) = exact::last_before(&[x.to_bits(), y.to_bits()], upper) else {
        return edge(rng, inside);
    };
    let z = f32::from_bits(if upper == inside { before } else { before + 1 });
    [x, y, if rng.one_in(2) { z } else { -z }]
}

/// A point: anywhere, near the sheet, or on the surface of a pixel.
fn point(rng: &mut Rng, width: u32, height: u32, scale: f32, src: &[u8]) -> [f32; 3] {
    let (x, y) = (rng.below(width), rng.below(height));
    match rng.below(4) {
        0 => [(); 3].map(|_| nasty::float(rng, WIDE)),
        1 => {
            let alpha = src[4 * (y * width + x) as usize + 3];
            [x as f32, y as f32, alpha as f32 / 255.0 * scale]
        }
        _ => [
            x as f32 + rng.unit(),
            y as f32 - rng.unit(),
            60.0 * rng.unit() - 20.0,
        ],
    }
}

fn draw(rng: &mut Rng, width: u32, height: u32, exponent: Option<f32>) -> Case {
    let src = nasty::sheet(rng, width, height);
    let scale = match rng.below(3) {
        0 => nasty::float(rng, SCALES),
        1 => rng.pick(&[0.0, -0.0, 1.0, -1.0, 5.0]),
        _ => 20.0 * rng.unit() - 10.0,
    };
    let constant = match rng.below(3) {
        0 => nasty::float(rng, CONSTANTS),
        1 => rng.pick(&[0.0, 1.0, 256.0]),
        _ => 2.0 * rng.unit(),
    };
    let light = match rng.one_in(2) {
        true => (DISTANT, direction(rng)),
        false => (POINT, point(rng, width, height, scale, &src)),
    };
    let color = match rng.one_in(4) {
        true => [255; 3],
        false => [(); 3].map(|_| rng.byte()),
    };
    case(
        width,
        height,
        params(light, scale, constant, color, exponent),
        src,
    )
}

/// A light of no name, a direction just off the unit sphere, an exponent other than 1, or a scale or a constant that
/// leaves its range by one step.
fn spoil(rng: &mut Rng, case: &mut Case) {
    match rng.below(4) {
        0 => case.params[0] = Param::Choice(rng.pick(&[2, 3, 255])),
        1 if case.params.len() == 10 => {
            case.params[9] =
                Param::float(rng.pick(&[1f32.next_up(), 1f32.next_down(), 0.0, 128.0]));
        }
        2 => {
            let (at, (least, most)) = rng.pick(&[(4, SCALES), (5, CONSTANTS)]);
            case.params[at] = Param::float(rng.pick(&[least.next_down(), most.next_up()]));
        }
        _ => {
            let direction = edge(rng, false);
            case.params[0] = Param::Choice(DISTANT);
            for (param, x) in case.params[1..4].iter_mut().zip(direction) {
                *param = Param::float(x);
            }
        }
    }
}

fn place(case: &Case) -> [f32; 3] {
    [1, 2, 3].map(|i| case.float(i))
}

fn color(case: &Case) -> [u8; 3] {
    [6, 7, 8].map(|i| case.choice(i) as u8)
}

/// The exponent of specular lighting.
fn exponent(case: &Case) -> Option<f32> {
    (case.params.len() == 10).then(|| case.float(9))
}

fn reading(case: &Case) -> Reading {
    let mut reading = Reading::default();
    match case.choice(0) {
        DISTANT => reading.unit = place(case).into(),
        POINT => reading.range(&place(case), WIDE),
        _ => reading.unnamed = true,
    }
    reading.range(&[case.float(4)], SCALES);
    reading.range(&[case.float(5)], CONSTANTS);
    reading.range(exponent(case).as_slice(), EXPONENTS);
    reading
}

fn rust(case: &Case, sheets: &mut [Vec<u8>]) {
    let [src, dest] = sheets else { unreachable!() };
    let src = ImageRef::new(case.width, case.height, src.as_rgba());
    let dest = ImageRefMut::new(case.width, case.height, dest.as_rgba_mut());
    let [x, y, z] = place(case);
    let [red, green, blue] = color(case);
    let lighting_color = Color::new_rgb(red, green, blue);
    let (surface_scale, constant) = (case.float(4), case.float(5));
    let diffuse = DiffuseLighting {
        surface_scale,
        diffuse_constant: constant,
        lighting_color,
    };
    let specular = |specular_exponent| SpecularLighting {
        surface_scale,
        specular_constant: constant,
        specular_exponent,
        lighting_color,
    };
    if case.choice(0) == POINT {
        let light = LightSource::PointLight(PointLight { x, y, z });
        match exponent(case) {
            None => lighting::diffuse_lighting(&diffuse, light, src, dest),
            Some(e) => lighting::specular_lighting(&specular(e), light, src, dest),
        }
    } else {
        lent::lend_direction(x, y, z);
        let light = LightSource::DistantLight(DistantLight {
            azimuth: 0.0,
            elevation: 0.0,
        });
        match exponent(case) {
            None => lighting_lent::diffuse_lighting(&diffuse, light, src, dest),
            Some(e) => lighting_lent::specular_lighting(&specular(e), light, src, dest),
        }
    }
}

fn ours(case: &Case, sheets: &mut [&mut [u8]]) -> Answer {
    let [src, dest] = sheets else { unreachable!() };
    let (w, h, light) = (case.width, case.height, case.choice(0) as u8);
    let [x, y, z] = place(case);
    let [red, green, blue] = color(case);
    let (scale, constant) = (case.float(4), case.float(5));
    let (from, from_len) = (src.as_ptr(), src.len());
    let (to, to_len) = (dest.as_mut_ptr(), dest.len());
    match exponent(case) {
        None => unsafe {
            ours::nup_diffuse_lighting(
                w, h, light, x, y, z, scale, constant, red, green, blue, from, from_len, to, to_len,
            )
        },
        Some(e) => unsafe {
            ours::nup_specular_lighting(
                w, h, light, x, y, z, scale, constant, e, red, green, blue, from, from_len, to,
                to_len,
            )
        },
    }
}
