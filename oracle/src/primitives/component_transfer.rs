//! Component transfer without Gamma: for r, g, b, a a kind and its values; in place.

use rgb::FromSlice;
use usvg::filter::{ComponentTransfer, TransferFunction};

use super::{Primitive, long_rows};
use crate::case::{Answer, Case, Param};
use crate::filter::{self, ImageRefMut};
use crate::nasty;
use crate::ours;
use crate::rng::Rng;
use crate::table::{ENTRIES, Reading, WIDE};

pub const PRIMITIVE: Primitive = Primitive {
    name: "component_transfer",
    code: 4,
    large: 400,
    known,
    draw,
    spoil,
    reading,
    rust,
    dest: None,
    scratch: None,
    ours,
};

const IDENTITY: u32 = 0;
const TABLE: u32 = 1;
const DISCRETE: u32 = 2;
const LINEAR: u32 = 3;

fn case(width: u32, height: u32, channels: [(u32, Vec<f32>); 4], src: Vec<u8>) -> Case {
    let params = channels
        .into_iter()
        .flat_map(|(kind, values)| [Param::Choice(kind), Param::List(Param::floats(&values))])
        .collect();
    Case {
        width,
        height,
        params,
        sheets: vec![src],
    }
}

fn known() -> Vec<Case> {
    let ramp = |n: usize| (0..n).map(|i| i as f32 / n as f32).collect::<Vec<f32>>();
    let four = |kind: u32, values: Vec<f32>| [(); 4].map(|_| (kind, values.clone()));
    let every = || (0..1024).map(|i| (i / 4) as u8).collect::<Vec<u8>>();
    let few = || vec![0, 127, 128, 255, 1, 126, 129, 254];
    let mut cases = vec![
        case(2, 1, four(LINEAR, vec![0.0, 0.5]), few()),
        case(16, 16, four(DISCRETE, vec![0.0, 1.0]), every()),
        case(
            16,
            16,
            [
                (TABLE, ramp(256)),
                (TABLE, ramp(3)),
                (DISCRETE, ramp(256)),
                (DISCRETE, ramp(7)),
            ],
            every(),
        ),
        case(2, 1, four(TABLE, vec![]), few()),
        case(2, 1, four(DISCRETE, vec![]), few()),
        case(2, 1, four(TABLE, vec![0.25]), few()),
        case(2, 1, four(IDENTITY, vec![]), few()),
        case(2, 1, four(IDENTITY, vec![0.5, 2.0]), few()),
        case(2, 1, four(LINEAR, vec![1.0]), few()),
        case(2, 1, four(LINEAR, vec![]), few()),
        case(
            2,
            1,
            [
                (IDENTITY, vec![]),
                (4, vec![]),
                (LINEAR, vec![f32::NAN, 0.0]),
                (TABLE, vec![0.5]),
            ],
            few(),
        ),
        case(
            2,
            1,
            [
                (4, vec![]),
                (IDENTITY, vec![]),
                (IDENTITY, vec![]),
                (IDENTITY, vec![]),
            ],
            few(),
        ),
        case(
            2,
            1,
            [
                (TABLE, ramp(257)),
                (4, vec![]),
                (LINEAR, vec![f32::NAN, 0.0]),
                (TABLE, vec![1e9]),
            ],
            few(),
        ),
    ];
    cases.extend(long_rows(|width, row| {
        case(width, 1, four(LINEAR, vec![-1.0, 1.0]), row)
    }));
    cases
}

fn draw(rng: &mut Rng, width: u32, height: u32) -> Case {
    let channels = [(); 4].map(|_| draw_channel(rng));
    case(width, height, channels, nasty::sheet(rng, width, height))
}

fn draw_channel(rng: &mut Rng) -> (u32, Vec<f32>) {
    let kind = rng.pick(&[IDENTITY, TABLE, TABLE, DISCRETE, DISCRETE, LINEAR, LINEAR]);
    let mut count = match rng.below(16) {
        0 => rng.pick(&[255, ENTRIES as u32]),
        1 => 1 + rng.below(40),
        2..5 => rng.pick(&[0, 1, 2]),
        _ => 1 + rng.below(9),
    };
    match kind {
        LINEAR => count = 2,
        IDENTITY => count = 0,
        _ => {}
    }
    let nasty = rng.one_in(3);
    let values = (0..count).map(|_| {
        if nasty {
            nasty::float(rng, WIDE)
        } else {
            1.4 * rng.unit() - 0.2
        }
    });
    (kind, values.collect())
}

/// A list of another length, or a kind that names no case.
fn spoil(rng: &mut Rng, case: &mut Case) {
    let channel = 2 * rng.below(4) as usize;
    if rng.one_in(3) {
        case.params[channel] = Param::Choice(rng.pick(&[4, 5, 128, 255]));
        case.params[channel + 1] = Param::List(vec![]);
    } else {
        let kind = rng.pick(&[TABLE, DISCRETE, LINEAR]);
        let count = match kind {
            LINEAR => rng.pick(&[0, 1, 3, 4, 20]),
            _ => ENTRIES + rng.pick(&[1, 1, 2, 44]),
        };
        case.params[channel] = Param::Choice(kind);
        case.params[channel + 1] = Param::List(vec![0; count]);
    }
}

/// The values of a kind that carries none are no parameters. docs/LAW.md does not speak of them, so
/// no case has one that is NaN, out of range or in a list that is too long.
fn reading(case: &Case) -> Reading {
    let mut reading = Reading::default();
    for channel in [0, 2, 4, 6] {
        let values = case.floats(channel + 1);
        match case.choice(channel) {
            IDENTITY => {}
            TABLE | DISCRETE => {
                reading.misshapen |= values.len() > ENTRIES;
                reading.range(&values, WIDE);
            }
            LINEAR => {
                reading.misshapen |= values.len() != 2;
                reading.range(&values, WIDE);
            }
            _ => reading.unnamed = true,
        }
    }
    reading
}

fn function(case: &Case, channel: usize) -> TransferFunction {
    let values = case.floats(channel + 1);
    match case.choice(channel) {
        TABLE => TransferFunction::Table(values),
        DISCRETE => TransferFunction::Discrete(values),
        LINEAR => TransferFunction::Linear {
            slope: values[0],
            intercept: values[1],
        },
        _ => TransferFunction::Identity,
    }
}

fn rust(case: &Case, sheets: &mut [Vec<u8>]) {
    let fe = ComponentTransfer {
        func_r: function(case, 0),
        func_g: function(case, 2),
        func_b: function(case, 4),
        func_a: function(case, 6),
    };
    let image = ImageRefMut::new(case.width, case.height, sheets[0].as_rgba_mut());
    filter::component_transfer::apply(&fe, image);
}

fn ours(case: &Case, sheets: &mut [&mut [u8]]) -> Answer {
    let [src] = sheets else { unreachable!() };
    let kind = [0, 2, 4, 6].map(|i| case.choice(i) as u8);
    let values = [1, 3, 5, 7].map(|i| case.floats(i));
    let [r, g, b, a] = &values;
    unsafe {
        ours::nup_component_transfer(
            case.width,
            case.height,
            kind[0],
            r.as_ptr(),
            r.len(),
            kind[1],
            g.as_ptr(),
            g.len(),
            kind[2],
            b.as_ptr(),
            b.len(),
            kind[3],
            a.as_ptr(),
            a.len(),
            src.as_mut_ptr(),
            src.len(),
        )
    }
}
