//! Displacement: two channels, sx, sy and scale; the picture, the map, and a destination full of junk.

use rgb::FromSlice;
use usvg::filter::{ColorChannel, DisplacementMap};

use super::{Primitive, long_rows};
use crate::case::{Answer, Case, Param};
use crate::filter::{self, ImageRef, ImageRefMut};
use crate::nasty;
use crate::ours;
use crate::rng::Rng;
use crate::table::{CANVAS, Reading, SCALE};

pub const PRIMITIVE: Primitive = Primitive {
    name: "displacement_map",
    code: 6,
    large: 600,
    known,
    draw,
    spoil,
    reading,
    rust,
    dest: Some(2),
    scratch: None,
    ours,
};

/// resvg's channels, by their numbers.
const CHANNELS: [ColorChannel; 4] = [
    ColorChannel::R,
    ColorChannel::G,
    ColorChannel::B,
    ColorChannel::A,
];

fn case(
    (width, height): (u32, u32),
    channels: [u32; 2],
    scales: [f32; 3],
    src: Vec<u8>,
    map: Vec<u8>,
) -> Case {
    let dest = (0..src.len()).map(|i| 99 + i as u8 % 100).collect();
    let mut params: Vec<Param> = channels.map(Param::Choice).into();
    params.extend(scales.map(Param::float));
    Case {
        width,
        height,
        params,
        sheets: vec![src, map, dest],
    }
}

fn known() -> Vec<Case> {
    let src = || (1..37).collect::<Vec<u8>>();
    let flat = |c: u8| vec![c; 36];
    let sent = |scales, c| case((3, 3), [0, 1], scales, src(), flat(c));
    let mut cases = vec![
        // A half is rounded away from 0: off the sheet at column 0, and to the column itself elsewhere.
        sent([1.0, 1.0, 1.0], 0),
        sent([1.0, 1.0, 1.0], 255),
        // One place each way.
        sent([1.0, 1.0, 2.0], 0),
        sent([1.0, 1.0, 2.0], 128),
        sent([1.0, 1.0, 2.0], 255),
        sent([1.0, -1.0, -2.0], 255),
        // Nowhere, and as far as it goes.
        sent([-0.0, 16.0, 0.0], 77),
        sent([16.0, -16.0, 4096.0], 0),
        sent([16.0, -16.0, -4096.0], 255),
        // Both channels are the same, or name none.
        case((3, 3), [3, 3], [1.0, 1.0, 2.0], src(), flat(255)),
        case((3, 3), [4, 0], [1.0, 1.0, 2.0], src(), flat(255)),
        case((3, 3), [0, 255], [1.0, f32::NAN, 2.0], src(), flat(255)),
    ];
    cases.extend(long_rows(|width, row| {
        let map = row.iter().rev().copied().collect();
        case((width, 1), [0, 3], [1.0, 0.0, 300.0], row, map)
    }));
    cases
}

/// A canvas scale and a scale: tame ones, whose targets lie about the sheet, or any.
fn draw(rng: &mut Rng, width: u32, height: u32) -> Case {
    let tame = rng.below(4);
    let canvas = |rng: &mut Rng| match tame {
        0 => nasty::float(rng, CANVAS),
        1 => rng.pick(&[1.0, -1.0, 0.5, 2.0]),
        _ => 4.0 * rng.unit() - 2.0,
    };
    let (sx, sy) = (canvas(rng), canvas(rng));
    let side = width.max(height) as f32;
    let scale = match rng.below(5) {
        0 => nasty::float(rng, SCALE),
        1 => rng.pick(&[0.0, -0.0, 1.0, 2.0, -2.0, 20.0, 255.0]),
        2 => rng.below(width + height) as f32,
        _ => (2.0 * rng.unit() - 1.0) * side,
    };
    let (src, map) = (
        nasty::sheet(rng, width, height),
        nasty::sheet(rng, width, height),
    );
    let channels = [rng.below(4), rng.below(4)];
    case((width, height), channels, [sx, sy, scale], src, map)
}

/// A number leaves its range by one step, or a channel has no name.
fn spoil(rng: &mut Rng, case: &mut Case) {
    match rng.below(5) {
        i @ 0..2 => case.params[i as usize] = Param::Choice(rng.pick(&[4, 5, 128, 254, 255])),
        i => {
            let (least, most) = if i == 4 { SCALE } else { CANVAS };
            let x = rng.pick(&[least.next_down(), most.next_up()]);
            case.params[i as usize] = Param::float(x);
        }
    }
}

fn reading(case: &Case) -> Reading {
    let mut reading = Reading {
        unnamed: case.choice(0) > 3 || case.choice(1) > 3,
        ..Reading::default()
    };
    reading.range(&[case.float(2), case.float(3)], CANVAS);
    reading.range(&[case.float(4)], SCALE);
    reading
}

fn rust(case: &Case, sheets: &mut [Vec<u8>]) {
    let [src, map, dest] = sheets else {
        unreachable!()
    };
    let (w, h) = (case.width, case.height);
    let channel = |i| CHANNELS[case.choice(i) as usize];
    let fe = DisplacementMap {
        scale: case.float(4),
        x_channel_selector: channel(0),
        y_channel_selector: channel(1),
    };
    filter::displacement_map::apply(
        &fe,
        case.float(2),
        case.float(3),
        ImageRef::new(w, h, src.as_rgba()),
        ImageRef::new(w, h, map.as_rgba()),
        ImageRefMut::new(w, h, dest.as_rgba_mut()),
    );
}

fn ours(case: &Case, sheets: &mut [&mut [u8]]) -> Answer {
    let [src, map, dest] = sheets else {
        unreachable!()
    };
    unsafe {
        ours::nup_displacement_map(
            case.width,
            case.height,
            case.choice(0) as u8,
            case.choice(1) as u8,
            case.float(2),
            case.float(3),
            case.float(4),
            src.as_ptr(),
            src.len(),
            map.as_ptr(),
            map.len(),
            dest.as_mut_ptr(),
            dest.len(),
        )
    }
}
