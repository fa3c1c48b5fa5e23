//! The library beside the Rust: least time of several runs, in ns for each element or pixel.

mod recipes;

use std::hint::black_box;
use std::process::ExitCode;
use std::time::{Duration, Instant};

use crate::case::{Case, Param};
use crate::ours;
use crate::primitives::{ALL, Primitive};
use crate::rng::Rng;
use crate::table;

const SIDE: u32 = 1024;
const FLOATS: usize = 4_000_000;
/// A row is run until this much time is spent, at least twice.
const SPENT: Duration = Duration::from_millis(600);

const NOTE: &str = "\
Least time of several runs in one process, ns for each element (floats) or pixel (the rest), release
builds. Inputs are restored before each run, outside the time. The Rust's morphology allocates its
back buffer inside, ours is lent scratch and clears it; a destination is cleared first on both sides.
The library's own tests of its arguments are inside.
";

pub fn run(slow: bool) -> ExitCode {
    println!("{NOTE}");
    println!("Processor: {}.\n", std::env::consts::ARCH);
    if !ours::DIRECT {
        println!("The library is not linked into this program, so its times are not measured.\n");
    }
    println!("| what | input | ours | the Rust | ours / the Rust |");
    println!("|---|---|---|---|---|");
    floats();
    memory(1024);
    memory(2048);
    for (input, sheet) in [("noise", noise(SIDE)), ("card", card(SIDE))] {
        primitives(input, &sheet, slow);
    }
    turbulence(SIDE);
    turbulence(64);
    largest(table::SIDE);
    recipes::rows();
    ExitCode::SUCCESS
}

/// The least time of `run` on what `restore` has set up, in ns.
fn least<T>(state: &mut T, restore: impl Fn(&mut T), run: impl Fn(&mut T)) -> f64 {
    let (mut best, mut spent, mut runs) = (Duration::MAX, Duration::ZERO, 0);
    while runs < 2 || spent < SPENT {
        restore(state);
        let start = Instant::now();
        run(state);
        let time = start.elapsed();
        black_box(&state);
        (best, spent, runs) = (best.min(time), spent + time, runs + 1);
    }
    best.as_nanos() as f64
}

fn row(what: &str, input: &str, count: usize, ours: Option<f64>, rust: f64) {
    let each = |time: f64| time / count as f64;
    let (ours, ratio) = match ours {
        Some(ours) => (format!("{:.3}", each(ours)), format!("{:.3}", ours / rust)),
        None => ("-".to_string(), "-".to_string()),
    };
    println!(
        "| {what} | {input} | {ours} | {:.3} | {ratio} |",
        each(rust)
    );
}

fn floats() {
    let mut rng = Rng::new(1);
    let spread: Vec<f32> = (0..FLOATS).map(|_| 500.0 * rng.unit() - 100.0).collect();
    let patterns: Vec<f32> = (0..FLOATS).map(|_| f32::from_bits(rng.bits())).collect();
    for (input, xs) in [("-100..400", &spread), ("any pattern", &patterns)] {
        float_row(
            "to_byte",
            input,
            xs,
            direct(ours::nup_to_bytes as Leaf<u8>),
            |x| x as u8,
        );
        let call = direct(ours::nup_round_to_i32s as Leaf<i32>);
        float_row("round_to_i32", input, xs, call, |x| x.round() as i32);
    }
}

/// A function of the library, where its time means something.
fn direct<T>(call: T) -> Option<T> {
    ours::DIRECT.then_some(call)
}

type Leaf<T> = unsafe extern "C" fn(*const f32, usize, *mut T, usize) -> crate::case::Answer;

fn float_row<T: Copy + Default>(
    what: &str,
    input: &str,
    xs: &[f32],
    call: Option<Leaf<T>>,
    rust: impl Fn(f32) -> T,
) {
    let mut out = vec![T::default(); xs.len()];
    let ours = call.map(|call| {
        least(
            &mut out,
            |_| {},
            |out| unsafe {
                call(xs.as_ptr(), xs.len(), out.as_mut_ptr(), out.len());
            },
        )
    });
    let rust = least(
        &mut out,
        |_| {},
        |out| {
            for (out, x) in out.iter_mut().zip(xs) {
                *out = rust(*x);
            }
        },
    );
    row(what, input, xs.len(), ours, rust);
}

fn memory(side: u32) {
    let src = noise(side);
    let mut dst = vec![1; src.len()];
    let input = format!("{side} x {side}");
    let pixels = (side * side) as usize;
    let ours = direct(ours::nup_copy).map(|call| {
        least(
            &mut dst,
            |_| {},
            |dst| unsafe {
                call(src.as_ptr(), src.len(), dst.as_mut_ptr(), dst.len());
            },
        )
    });
    let rust = least(&mut dst, |_| {}, |dst| dst.copy_from_slice(&src));
    row("copy", &input, pixels, ours, rust);
    let ours = direct(ours::nup_clear).map(|call| {
        least(
            &mut dst,
            |_| {},
            |dst| unsafe {
                call(dst.as_mut_ptr(), dst.len());
            },
        )
    });
    let rust = least(&mut dst, |_| {}, |dst| dst.fill(0));
    row("clear", &input, pixels, ours, rust);
}

fn noise(side: u32) -> Vec<u8> {
    let mut rng = Rng::new(2);
    (0..4 * side * side).map(|_| rng.byte()).collect()
}

/// A clear sheet with a flat card on it, and on the card a band and lines of small flat marks.
fn card(side: u32) -> Vec<u8> {
    let edge = side / 16;
    let inside = |n: u32, by: u32| (edge + by..side - edge - by).contains(&n);
    let pixel = |i: u32| {
        let (x, y) = (i % side, i / side);
        let mark = y / 12 % 3 == 0 && (x / 5 + y / 36 * 7) % 4 != 0;
        match () {
            _ if !inside(x, 0) || !inside(y, 0) => [0, 0, 0, 0],
            _ if y < side / 4 => [20, 60, 140, 255],
            _ if mark && inside(x, 40) && inside(y, 40) => [30, 30, 30, 255],
            _ => [240, 236, 220, 255],
        }
    };
    (0..side * side).flat_map(pixel).collect()
}

fn primitives(input: &str, sheet: &[u8], slow: bool) {
    let [
        morphology,
        color_matrix,
        composite,
        component_transfer,
        convolve_matrix,
        displacement_map,
        _,
        diffuse,
        specular,
    ] = &ALL;
    for (what, params) in color_matrices() {
        primitive_row(color_matrix, what, input, params, sheet, 1);
    }
    let k = [0.5, 0.25, 0.5, 0.0].map(Param::float).to_vec();
    primitive_row(composite, "arithmetic", input, k, sheet, 3);
    for (what, params) in transfers() {
        primitive_row(component_transfer, what, input, params, sheet, 1);
    }
    for scale in [0.0, 20.0, 4096.0] {
        let what = format!("displacement {scale}");
        let mut params = vec![Param::Choice(0), Param::Choice(1)];
        params.extend([1.0, 1.0, scale].map(Param::float));
        primitive_row(displacement_map, &what, input, params, sheet, 3);
    }
    for (light, place) in [
        ("distant", [0.48, 0.6, 0.64]),
        ("point", [300.0, 200.0, 90.0]),
    ] {
        let params = lighting((light == "point") as u32, place);
        let what = format!("diffuse lighting, {light}");
        primitive_row(diffuse, &what, input, params.clone(), sheet, 2);
        let what = format!("specular lighting, {light}");
        let params = [params, vec![Param::float(1.0)]].concat();
        primitive_row(specular, &what, input, params, sheet, 2);
    }
    for radius in [1, 8, 40] {
        for (op, name) in [(0, "dilate"), (1, "erode")] {
            if radius < 40 || slow {
                let what = format!("{name} {radius} by {radius}");
                let r = Param::float(radius as f32);
                let params = vec![Param::Choice(op), r.clone(), r];
                primitive_row(morphology, &what, input, params, sheet, 2);
            }
        }
    }
    for side in [3, 5, 15] {
        for (edge, name) in [(0, "None"), (1, "Duplicate"), (2, "Wrap")] {
            let what = format!("convolve {side} by {side}, {name}");
            primitive_row(convolve_matrix, &what, input, kernel(side, edge), sheet, 2);
        }
    }
}

/// Morphology and the colour matrix on the largest sheet.
fn largest(side: u32) {
    let [morphology, color_matrix, ..] = &ALL;
    let input = format!("{side} x {side}");
    let sheet = noise(side);
    let dilate = [Param::Choice(0), Param::float(1.0), Param::float(1.0)];
    primitive_row(
        morphology,
        "dilate 1 by 1",
        &input,
        dilate.into(),
        &sheet,
        2,
    );
    let [(what, matrix), ..] = color_matrices();
    primitive_row(color_matrix, what, &input, matrix, &sheet, 1);
}

/// It reads no sheet: on small ones the tables that a seed is drawn into cost the most.
fn turbulence(side: u32) {
    let primitive = ALL.iter().find(|p| p.name == "turbulence").unwrap();
    let dest = vec![1; 4 * (side * side) as usize];
    let input = format!("{side} x {side}");
    for (kind, name) in [(0, "turbulence"), (1, "fractal noise")] {
        for octaves in [1, 4, 8] {
            let what = format!("{name}, octaves {octaves}");
            let mut params: Vec<Param> = [0.0, 0.0, 1.0, 1.0, 0.05, 0.05].map(Param::double).into();
            params.extend([octaves, 5, 0, kind].map(Param::Choice));
            primitive_row(primitive, &what, &input, params, &dest, 1);
        }
    }
}

/// A kernel of so many columns and rows, its target in the middle.
fn kernel(side: u32, edge: u32) -> Vec<Param> {
    let numbers: Vec<f32> = (0..side * side).map(|i| (i % 5) as f32 - 1.0).collect();
    let choices = [side, side, side / 2, side / 2, edge, 0];
    let mut params: Vec<Param> = choices.map(Param::Choice).into();
    params.extend([Param::float(numbers.iter().sum()), Param::float(0.0)]);
    params.push(Param::Rest(Param::floats(&numbers)));
    params
}

fn color_matrices() -> [(&'static str, Vec<Param>); 4] {
    let matrix: Vec<f32> = (0..20)
        .map(|i| if i % 6 == 0 { 0.7 } else { 0.05 })
        .collect();
    let matrix = Param::Rest(Param::floats(&matrix));
    [
        ("Matrix", vec![Param::Choice(0), matrix]),
        ("Saturate", vec![Param::Choice(1), Param::float(0.5)]),
        (
            "HueRotate",
            vec![Param::Choice(2), Param::float(0.6), Param::float(0.8)],
        ),
        ("LuminanceToAlpha", vec![Param::Choice(3)]),
    ]
}

fn lighting(light: u32, place: [f32; 3]) -> Vec<Param> {
    let mut params = vec![Param::Choice(light)];
    params.extend(place.map(Param::float));
    params.extend([5.0, 1.0].map(Param::float));
    params.extend([255, 240, 200].map(Param::Choice));
    params
}

fn transfers() -> [(&'static str, Vec<Param>); 3] {
    let four = |kind: u32, values: &[f32]| {
        let list = Param::List(Param::floats(values));
        [(); 4]
            .iter()
            .flat_map(|_| [Param::Choice(kind), list.clone()])
            .collect()
    };
    [
        ("transfer Table of 5", four(1, &[0.0, 0.3, 0.5, 0.6, 1.0])),
        (
            "transfer Discrete of 5",
            four(2, &[0.0, 0.3, 0.5, 0.6, 1.0]),
        ),
        ("transfer Linear", four(3, &[0.8, 0.1])),
    ]
}

fn slices(sheets: &mut [Vec<u8>]) -> Vec<&mut [u8]> {
    sheets.iter_mut().map(|sheet| &mut sheet[..]).collect()
}

fn primitive_row(
    primitive: &Primitive,
    what: &str,
    input: &str,
    params: Vec<Param>,
    sheet: &[u8],
    sheets: usize,
) {
    let side = (sheet.len() / 4).isqrt() as u32;
    let case = Case {
        width: side,
        height: side,
        params,
        sheets: vec![sheet.to_vec(); sheets],
    };
    assert_eq!(primitive.answer(&case).number, 0, "{what}");
    let mut state = case.sheets.clone();
    let restore = |state: &mut Vec<Vec<u8>>| state.clone_from(&case.sheets);
    let call = |state: &mut Vec<Vec<u8>>| (primitive.ours)(&case, &mut slices(state));
    let ours = ours::DIRECT.then(|| {
        least(&mut state, restore, |state| {
            call(state);
        })
    });
    let rust = least(&mut state, restore, |state| {
        primitive.run_rust(&case, state)
    });
    row(what, input, sheet.len() / 4, ours, rust);
}
