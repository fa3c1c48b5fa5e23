//! Arithmetic composite: k1..k4; two sheets that are read and a destination full of junk.

use rgb::FromSlice;

use super::{Primitive, long_rows};
use crate::case::{Answer, Case, Param};
use crate::filter::{self, ImageRef, ImageRefMut};
use crate::nasty;
use crate::ours;
use crate::rng::Rng;
use crate::table::{Reading, WIDE};

pub const PRIMITIVE: Primitive = Primitive {
    name: "composite",
    code: 3,
    large: 600,
    known,
    draw,
    spoil,
    reading,
    rust,
    dest: Some(2),
    scratch: None,
    ours,
};

fn case(width: u32, height: u32, k: [f32; 4], src1: Vec<u8>, src2: Vec<u8>) -> Case {
    let dest = (0..src1.len()).map(|i| 77 + i as u8 % 100).collect();
    Case {
        width,
        height,
        params: k.map(Param::float).into(),
        sheets: vec![src1, src2, dest],
    }
}

fn known() -> Vec<Case> {
    let clear = || vec![0; 8];
    let tiny = |bits: u32| [0.0, 0.0, 0.0, f32::from_bits(bits)];
    let mut cases = vec![
        case(2, 1, [0.0, 0.0, 0.0, 0.5], clear(), clear()),
        case(2, 1, [0.0, 0.0, 0.0, 0.0], clear(), clear()),
        case(2, 1, [-0.0, 0.0, -0.0, -0.0], vec![255; 8], vec![255; 8]),
        case(2, 1, [0.0, 1.0, 1.0, -1.0], vec![255; 8], vec![128; 8]),
    ];
    // Alpha near zero and just above: clear either way.
    cases.extend([1, 4, 5, 0x80_0000].map(|bits| case(2, 1, tiny(bits), clear(), vec![255; 8])));
    cases.extend(long_rows(|width, row| {
        let other = row.iter().rev().copied().collect();
        case(width, 1, [0.3, 0.4, 0.5, -0.1], row, other)
    }));
    cases
}

fn draw(rng: &mut Rng, width: u32, height: u32) -> Case {
    let style = rng.below(5);
    let mut k = [0.0; 4];
    for x in &mut k {
        match style {
            0 => *x = nasty::float(rng, WIDE),
            1 => *x = 2.0 * rng.unit() - 1.0,
            2 => *x = rng.pick(&[0.0, -0.0, 1.0, -1.0, 0.5]),
            3 => *x = rng.unit() / 2.0,
            _ if rng.one_in(2) => *x = nasty::float(rng, WIDE),
            _ => {}
        }
    }
    if rng.one_in(12) {
        // An alpha about the limit of what is near zero.
        k = [0.0, 0.0, 0.0, f32::from_bits(rng.below(8))];
    }
    let (src1, src2) = (
        nasty::sheet(rng, width, height),
        nasty::sheet(rng, width, height),
    );
    case(width, height, k, src1, src2)
}

/// Nothing but the four numbers can be wrong: one leaves the range by one step.
fn spoil(rng: &mut Rng, case: &mut Case) {
    let x = rng.pick(&[WIDE.0.next_down(), WIDE.1.next_up()]);
    case.params[rng.below(4) as usize] = Param::float(x);
}

fn numbers(case: &Case) -> [f32; 4] {
    [0, 1, 2, 3].map(|i| case.float(i))
}

fn reading(case: &Case) -> Reading {
    let mut reading = Reading::default();
    reading.range(&numbers(case), WIDE);
    reading
}

fn rust(case: &Case, sheets: &mut [Vec<u8>]) {
    let [src1, src2, dest] = sheets else {
        unreachable!()
    };
    let (w, h) = (case.width, case.height);
    let [k1, k2, k3, k4] = numbers(case);
    filter::composite::arithmetic(
        k1,
        k2,
        k3,
        k4,
        ImageRef::new(w, h, src1.as_rgba()),
        ImageRef::new(w, h, src2.as_rgba()),
        ImageRefMut::new(w, h, dest.as_rgba_mut()),
    );
}

fn ours(case: &Case, sheets: &mut [&mut [u8]]) -> Answer {
    let [src1, src2, dest] = sheets else {
        unreachable!()
    };
    let [k1, k2, k3, k4] = numbers(case);
    unsafe {
        ours::nup_arithmetic(
            case.width,
            case.height,
            k1,
            k2,
            k3,
            k4,
            src1.as_ptr(),
            src1.len(),
            src2.as_ptr(),
            src2.len(),
            dest.as_mut_ptr(),
            dest.len(),
        )
    }
}
