//! Sizes, sheets and numbers that are awkward on purpose.

use crate::case::{Case, Param};
use crate::rng::Rng;
use crate::table::{Range, SIDE};

/// How large cases may be, and whether every pattern of NaN may occur or only the quiet one.
#[derive(Clone, Copy)]
pub struct Limits {
    pub side: u32,
    pub any_nan: bool,
}

/// The bits of the float `n` steps above (or below) a finite one.
pub fn steps(x: f32, n: i32) -> f32 {
    let place = |bits: u32| {
        if bits >> 31 == 0 {
            bits as i64
        } else {
            -((bits & 0x7fff_ffff) as i64)
        }
    };
    let at = place(x.to_bits()) + n as i64;
    if at < 0 {
        -f32::from_bits(-at as u32)
    } else {
        f32::from_bits(at as u32)
    }
}

pub fn size(rng: &mut Rng, limits: Limits) -> (u32, u32) {
    let mut side = || 1 + rng.below(limits.side);
    let (a, b) = (side(), side());
    match rng.below(8) {
        0 => (1, 1),
        1 => (1, b),
        2 => (a, 1),
        3 => (a | 1, b | 1),
        _ => (a, b),
    }
}

/// The bytes of a sheet of that size: noise, flat, clear with colour, gradients, few levels.
pub fn sheet(rng: &mut Rng, width: u32, height: u32) -> Vec<u8> {
    let pixels = (width * height) as usize;
    let style = rng.below(12);
    let flat = [rng.byte(), rng.byte(), rng.byte(), rng.byte()];
    let mut bytes = Vec::with_capacity(4 * pixels);
    for i in 0..pixels {
        let (x, y) = (i as u32 % width, i as u32 / width);
        let mut noise = [rng.byte(), rng.byte(), rng.byte(), rng.byte()];
        let pixel = match style {
            0 => [0; 4],
            1 => [255; 4],
            2 => [noise[0], noise[1], noise[2], 0],
            3 => [noise[0], noise[1], noise[2], 255],
            4 => flat,
            5 => [x as u8, y as u8, (x + y) as u8, (255 - x - y) as u8],
            6 => [i as u8; 4],
            7 => noise.map(|c| [0, 1, 2, 126, 127, 128, 129, 253, 254, 255][c as usize % 10]),
            8 => {
                // Premultiplied: no colour above alpha.
                noise.sort();
                noise
            }
            9 if rng.one_in(3) => flat,
            _ => noise,
        };
        bytes.extend(pixel);
    }
    bytes
}

/// A float inside the range, ends included.
pub fn float(rng: &mut Rng, range: Range) -> f32 {
    loop {
        let x = any_float(rng, range);
        if range.0 <= x && x <= range.1 {
            return x;
        }
    }
}

fn any_float(rng: &mut Rng, (least, most): Range) -> f32 {
    let sign = if rng.one_in(2) { 1.0 } else { -1.0 };
    match rng.below(16) {
        0 => steps(rng.pick(&[least, most]), rng.between(-2, 2)),
        1 => rng.pick(&[0.0, -0.0]),
        2 => sign * f32::from_bits(rng.pick(&[1, 2, 4, 5, 0x7f_ffff, 0x80_0000])),
        3 => sign * rng.pick(&[1.0, 0.5, 2.0, 0.25, 3.0]),
        4 => {
            sign * steps(
                rng.pick(&[1.0, 0.5, 255.0, 1.0 / 255.0]),
                rng.between(-2, 2),
            )
        }
        5 => sign * steps(rng.below(257) as f32 / 255.0, rng.between(-1, 1)),
        6 => sign * steps(rng.below(300) as f32 + 0.5, rng.between(-1, 1)),
        7 => rng.below(256) as f32,
        8..12 => sign * rng.unit(),
        12 | 13 => 4.0 * rng.unit() - 2.0,
        14 => least + (most - least) * rng.unit(),
        _ => f32::from_bits(rng.bits()),
    }
}

/// A double inside the range, ends included.
pub fn double(rng: &mut Rng, range: Range) -> f64 {
    loop {
        let x = any_double(rng, range);
        if range.0 as f64 <= x && x <= range.1 as f64 {
            return x;
        }
    }
}

fn any_double(rng: &mut Rng, range: Range) -> f64 {
    let (least, most) = (range.0 as f64, range.1 as f64);
    let fine = |rng: &mut Rng| (rng.word() >> 11) as f64 / (1u64 << 53) as f64;
    match rng.below(8) {
        0 => rng.pick(&[least, least.next_up(), most, most.next_down()]),
        1 => f64::from_bits(rng.pick(&[1, 4, 5, (1 << 52) - 1, 1 << 52])),
        2 => fine(rng),
        3 | 4 => least + (most - least) * fine(rng),
        5 => f64::from_bits(rng.word()),
        _ => any_float(rng, range) as f64,
    }
}

/// A radius: whole numbers, ties and their neighbours, mostly about the size of the sheet.
pub fn radius(rng: &mut Rng, side: u32) -> f32 {
    let whole = rng.below(side + 2) as f32;
    match rng.below(10) {
        0..3 => whole,
        3..6 => steps(whole + 0.5, rng.between(-1, 1)).max(0.0),
        6 => rng.pick(&[0.5, 0.499_999_97, 1.5, 0.0, -0.0, 65536.0]),
        7 => whole + rng.unit(),
        _ => float(rng, crate::table::RADII),
    }
}

/// Spoils one thing that every primitive has: a size, a length or a number.
pub fn spoil(rng: &mut Rng, case: &mut Case, limits: Limits) {
    match rng.below(4) {
        0 => spoil_size(rng, case),
        1 => spoil_length(rng, case),
        2 => {
            let values = not_finite(rng, limits);
            spoil_number(rng, case, &values);
        }
        _ => spoil_number(rng, case, &OUTSIDE.map(f32::to_bits)),
    }
}

/// The most bytes that a sheet is made longer to: what crates/vectors holds of one.
const HELD: u128 = 20_480;

/// A side of 0, one more than is allowed or much more; small sheets sometimes get the bytes that the new size wants.
fn spoil_size(rng: &mut Rng, case: &mut Case) {
    let side = rng.pick(&[
        0,
        0,
        SIDE + 1,
        SIDE + 1,
        2 * SIDE,
        65535,
        65536,
        1 << 30,
        1 << 31,
        u32::MAX,
    ]);
    match rng.below(3) {
        0 => case.width = side,
        1 => case.height = side,
        _ => (case.width, case.height) = (side, side),
    }
    if rng.one_in(2) && case.size() <= HELD {
        let size = case.size() as usize;
        case.sheets
            .iter_mut()
            .for_each(|sheet| sheet.resize(size, 7));
    }
}

/// One sheet, or all, with a few bytes more or fewer, or of another size's length.
fn spoil_length(rng: &mut Rng, case: &mut Case) {
    let all = rng.one_in(4);
    let one = rng.below(case.sheets.len() as u32) as usize;
    let kind = rng.below(7);
    for (i, sheet) in case.sheets.iter_mut().enumerate() {
        if all || i == one {
            let length = sheet.len();
            let new = match kind {
                0 => length + 1,
                1 => length.saturating_sub(1),
                2 => length + 4,
                3 => length.saturating_sub(4),
                4 => 0,
                5 => length / 4,
                _ => 2 * length,
            };
            sheet.resize(new, 9);
        }
    }
}

/// Puts one of the values in the place of one number, if there is one.
fn spoil_number(rng: &mut Rng, case: &mut Case, values: &[u32]) {
    let count: usize = case.params.iter().map(Param::numbers).sum();
    if count == 0 {
        return;
    }
    let mut at = rng.below(count as u32) as usize;
    let value = rng.pick(values);
    for param in &mut case.params {
        if at < param.numbers() {
            return param.put(at, value);
        }
        at -= param.numbers();
    }
}

fn not_finite(rng: &mut Rng, limits: Limits) -> [u32; 3] {
    let quiet = 0x7fc0_0000;
    let nan = rng.pick(&[quiet, 0xffc0_0000, 0x7f80_0001, 0xffff_ffff]);
    [
        if limits.any_nan { nan } else { quiet },
        0x7f80_0000,
        0xff80_0000,
    ]
}

/// Just outside some range, at its end, or far off: what they mean depends on the place.
const OUTSIDE: [f32; 12] = [
    f32::from_bits(0x4780_0001),
    f32::from_bits(0xc780_0001),
    f32::from_bits(0x8000_0001),
    65536.0,
    -65536.0,
    65537.0,
    -65537.0,
    -1.0,
    -0.0,
    f32::MAX,
    f32::MIN,
    1e10,
];
