//! Convolve matrix: columns, rows, target, edge mode, whether alpha is preserved, divisor, bias, kernel;
//! the sheet in place, and scratch.

use rgb::FromSlice;
use usvg::NonZeroF32;
use usvg::filter::{ConvolveMatrix, ConvolveMatrixData, EdgeMode};

use super::{Primitive, alphas, long_rows};
use crate::case::{Answer, Case, Param};
use crate::filter::{self, ImageRefMut};
use crate::nasty;
use crate::ours;
use crate::rng::Rng;
use crate::table::{KERNEL_SIDE, LEAST_DIVISOR, Reading, WIDE};

pub const PRIMITIVE: Primitive = Primitive {
    name: "convolve_matrix",
    code: 5,
    large: 80,
    known,
    draw,
    spoil,
    reading,
    rust,
    dest: None,
    scratch: Some(1),
    ours,
};

const NONE: u32 = 0;
const DUPLICATE: u32 = 1;
const WRAP: u32 = 2;

const COLUMNS: usize = 0;
const ROWS: usize = 1;
const TARGET_X: usize = 2;
const TARGET_Y: usize = 3;
const EDGE: usize = 4;
const PRESERVE: usize = 5;
const DIVISOR: usize = 6;
const BIAS: usize = 7;
const KERNEL: usize = 8;

struct Kernel {
    columns: u32,
    rows: u32,
    target_x: u32,
    target_y: u32,
    edge: u32,
    preserve: u32,
    divisor: f32,
    bias: f32,
    numbers: Vec<f32>,
}

/// One row of numbers whose target is its second, divided by 1.
fn row(numbers: &[f32]) -> Kernel {
    Kernel {
        columns: numbers.len() as u32,
        rows: 1,
        target_x: 1,
        target_y: 0,
        edge: NONE,
        preserve: 0,
        divisor: 1.0,
        bias: 0.0,
        numbers: numbers.to_vec(),
    }
}

fn case(width: u32, height: u32, kernel: Kernel, src: Vec<u8>) -> Case {
    let scratch = (0..src.len()).map(|i| 200 - i as u8 % 100).collect();
    let choices = [
        kernel.columns,
        kernel.rows,
        kernel.target_x,
        kernel.target_y,
        kernel.edge,
        kernel.preserve,
    ];
    let mut params: Vec<Param> = choices.map(Param::Choice).into();
    params.extend([Param::float(kernel.divisor), Param::float(kernel.bias)]);
    params.push(Param::Rest(Param::floats(&kernel.numbers)));
    Case {
        width,
        height,
        params,
        sheets: vec![src, scratch],
    }
}

fn known() -> Vec<Case> {
    let lone = |edge: u32| Kernel {
        edge,
        divisor: 3.0,
        ..row(&[1.0, 1.0, 1.0])
    };
    let side = |columns: u32, rows: u32, target_x: u32, target_y: u32| Kernel {
        columns,
        rows,
        target_x,
        target_y,
        ..row(&[1.0; 16])
    };
    let with = |divisor: f32, bias: f32| Kernel {
        divisor,
        bias,
        ..row(&[1.0, 0.0, 0.0])
    };
    let three = || alphas(&[0, 255, 0]);
    let mut cases = vec![
        case(3, 1, row(&[1.0, 0.0, 0.0]), three()),
        case(1, 1, lone(NONE), alphas(&[255])),
        case(1, 1, lone(DUPLICATE), alphas(&[255])),
        case(1, 1, lone(WRAP), alphas(&[255])),
        case(1, 1, lone(3), alphas(&[255])),
        case(3, 1, side(4, 4, 4, 0), three()),
        case(3, 1, side(16, 1, 0, 0), three()),
        case(3, 1, side(0, 1, 0, 0), three()),
        case(3, 1, side(4, 4, 3, 3), three()),
        case(3, 1, side(8, 1, 0, 0), three()),
        case(3, 1, with(0.0, 0.0), three()),
        case(3, 1, with(1.0 / 65536.0, 0.5), three()),
        case(3, 1, with(-1.0 / 65536.0, 0.5), three()),
        case(3, 1, with(f32::NAN, 1e9), three()),
    ];
    cases.extend(long_rows(|width, bytes| {
        let kernel = Kernel {
            edge: WRAP,
            ..row(&[0.25, 0.5, 0.25])
        };
        case(width, 1, kernel, bytes)
    }));
    cases
}

fn draw(rng: &mut Rng, width: u32, height: u32) -> Case {
    let side = |rng: &mut Rng| match rng.below(6) {
        0 => 1 + rng.below(KERNEL_SIDE),
        _ => 1 + rng.below(5),
    };
    let (columns, rows) = (side(rng), side(rng));
    let nasty = rng.one_in(3);
    let numbers = (0..columns * rows).map(|_| match nasty {
        true => nasty::float(rng, WIDE),
        false => 2.0 * rng.unit() - 0.7,
    });
    let numbers: Vec<f32> = numbers.collect();
    let kernel = Kernel {
        columns,
        rows,
        target_x: rng.below(columns),
        target_y: rng.below(rows),
        edge: rng.pick(&[NONE, DUPLICATE, WRAP]),
        preserve: rng.below(2),
        divisor: draw_divisor(rng, &numbers),
        bias: match rng.below(4) {
            0 => nasty::float(rng, WIDE),
            1 => rng.unit() - 0.5,
            _ => 0.0,
        },
        numbers,
    };
    case(width, height, kernel, nasty::sheet(rng, width, height))
}

/// Often the sum of the kernel, as resvg has it where none is given.
fn draw_divisor(rng: &mut Rng, numbers: &[f32]) -> f32 {
    let divisor = match rng.below(4) {
        0 => nasty::float(rng, WIDE),
        1 => 1.0,
        _ => numbers.iter().sum(),
    };
    match is_divisor(divisor) {
        true => divisor,
        false => rng.pick(&[1.0, -1.0, LEAST_DIVISOR, -LEAST_DIVISOR, 65536.0]),
    }
}

fn is_divisor(x: f32) -> bool {
    (LEAST_DIVISOR..=WIDE.1).contains(&x.abs())
}

/// A side, a target, a count or a number of a case that is wrong, or a divisor that is too small.
fn spoil(rng: &mut Rng, case: &mut Case) {
    match rng.below(6) {
        0 => case.params[COLUMNS] = Param::Choice(rng.pick(&[0, 16, 17, 65536, u32::MAX])),
        1 => case.params[ROWS] = Param::Choice(rng.pick(&[0, 16, 4096, u32::MAX])),
        2 => case.params[TARGET_X] = Param::Choice(case.choice(COLUMNS)),
        3 => case.params[TARGET_Y] = Param::Choice(case.choice(ROWS).wrapping_add(rng.below(2))),
        4 => {
            let choice = rng.pick(&[EDGE, PRESERVE]);
            case.params[choice] = Param::Choice(rng.pick(&[3, 128, 255]));
        }
        _ => {
            let largest = LEAST_DIVISOR.next_down();
            case.params[DIVISOR] = Param::float(rng.pick(&[0.0, -0.0, 1e-5, largest, -largest]));
        }
    }
}

fn reading(case: &Case) -> Reading {
    let side = |n: u32, target: u32| (1..=KERNEL_SIDE).contains(&n) && target < n;
    let (columns, rows) = (case.choice(COLUMNS), case.choice(ROWS));
    let kernel = case.floats(KERNEL);
    let divisor = case.float(DIVISOR);
    let shaped = side(columns, case.choice(TARGET_X))
        && side(rows, case.choice(TARGET_Y))
        && kernel.len() as u32 == columns * rows;
    let mut reading = Reading {
        misshapen: !shaped,
        unnamed: case.choice(EDGE) > WRAP || case.choice(PRESERVE) > 1,
        ..Reading::default()
    };
    reading.range(&kernel, WIDE);
    reading.range(&[case.float(BIAS)], WIDE);
    reading.range(&[divisor], WIDE);
    reading.range(&[divisor.abs()], (LEAST_DIVISOR, WIDE.1));
    reading
}

fn rust(case: &Case, sheets: &mut [Vec<u8>]) {
    let fe = ConvolveMatrix {
        matrix: ConvolveMatrixData {
            target_x: case.choice(TARGET_X),
            target_y: case.choice(TARGET_Y),
            columns: case.choice(COLUMNS),
            rows: case.choice(ROWS),
            data: case.floats(KERNEL),
        },
        divisor: NonZeroF32::new(case.float(DIVISOR)),
        bias: case.float(BIAS),
        edge_mode: match case.choice(EDGE) {
            NONE => EdgeMode::None,
            DUPLICATE => EdgeMode::Duplicate,
            _ => EdgeMode::Wrap,
        },
        preserve_alpha: case.choice(PRESERVE) == 1,
    };
    let image = ImageRefMut::new(case.width, case.height, sheets[0].as_rgba_mut());
    filter::convolve_matrix::apply(&fe, image);
}

fn ours(case: &Case, sheets: &mut [&mut [u8]]) -> Answer {
    let [src, scratch] = sheets else {
        unreachable!()
    };
    let kernel = case.floats(KERNEL);
    unsafe {
        ours::nup_convolve_matrix(
            case.width,
            case.height,
            case.choice(COLUMNS),
            case.choice(ROWS),
            case.choice(TARGET_X),
            case.choice(TARGET_Y),
            kernel.as_ptr(),
            kernel.len(),
            case.float(DIVISOR),
            case.float(BIAS),
            case.choice(EDGE) as u8,
            case.choice(PRESERVE) as u8,
            src.as_mut_ptr(),
            src.len(),
            scratch.as_mut_ptr(),
            scratch.len(),
        )
    }
}
