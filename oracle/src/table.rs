//! docs/LAW.md's table of refusals 1 to 5, read apart from the library.
//! Tests 1 to 5 in this order, and the first that fails is the answer; none looks at a pixel.

use crate::case::{Answer, Case};
use crate::exact;

/// The largest side.
pub const SIDE: u32 = 4096;
/// The most entries of a transfer table.
pub const ENTRIES: usize = 256;

/// The most columns or rows of a kernel.
pub const KERNEL_SIDE: u32 = 15;
/// The smallest size of a divisor.
pub const LEAST_DIVISOR: f32 = 1.0 / 65536.0;

/// A closed range of docs/LAW.md.
pub type Range = (f32, f32);
/// Kernel, bias, matrix, Saturate, table values, slope, intercept, k1..k4.
pub const WIDE: Range = (-65536.0, 65536.0);
pub const RADII: Range = (0.0, 65536.0);
/// Displacement's sx and sy.
pub const CANVAS: Range = (-16.0, 16.0);
/// Displacement's scale.
pub const SCALE: Range = (-4096.0, 4096.0);

/// What a primitive's parameters say to tests 3, 4 and 5.
#[derive(Default)]
pub struct Reading {
    /// Test 3 fails: a length, a count or a target is wrong.
    pub misshapen: bool,
    /// Each number, which a double holds exactly, with the range that it must keep.
    pub ranged: Vec<(f64, Range)>,
    /// Numbers whose squares must sum to 1, up to 1/1,024.
    pub unit: Vec<f32>,
    /// An enum's number names no case, which counts as 5.
    pub unnamed: bool,
}

impl Reading {
    pub fn range<T: Copy + Into<f64>>(&mut self, numbers: &[T], range: Range) {
        self.ranged
            .extend(numbers.iter().map(|x| ((*x).into(), range)));
    }
}

/// The answer of a single call; its step is always 0.
pub fn answer(case: &Case, reading: &Reading) -> Answer {
    let number = match sheets(case.width, case.height, &case.sheets) {
        0 => parameters(reading),
        number => number,
    };
    Answer { number, step: 0 }
}

/// Tests 1 and 2.
pub fn sheets(width: u32, height: u32, sheets: &[Vec<u8>]) -> u8 {
    let side = |n: u32| (1..=SIDE).contains(&n);
    if !side(width) || !side(height) {
        return 1;
    }
    let size = 4 * width as usize * height as usize;
    if sheets.iter().any(|sheet| sheet.len() != size) {
        return 2;
    }
    0
}

/// Tests 3, 4 and 5.
pub fn parameters(reading: &Reading) -> u8 {
    if reading.misshapen {
        return 3;
    }
    let finite = reading.ranged.iter().all(|(x, _)| x.is_finite());
    if !finite || !reading.unit.iter().all(|x| x.is_finite()) {
        return 4;
    }
    let outside = |(x, (least, most)): &(f64, Range)| *x < *least as f64 || *x > *most as f64;
    if reading.ranged.iter().any(outside) || reading.unnamed {
        return 5;
    }
    let unit: Vec<u32> = reading.unit.iter().map(|x| x.to_bits()).collect();
    if !unit.is_empty() && !exact::is_unit(&unit) {
        return 5;
    }
    0
}
