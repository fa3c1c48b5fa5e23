//! Turbulence: two offsets, two scales, two frequencies, octaves, seed, stitching and the kind; a destination full of
//! junk, and no sheet that is read.

use rgb::FromSlice;

use super::{Primitive, long_rows};
use crate::case::{Answer, Case, Param};
use crate::filter::{self, ImageRefMut};
use crate::nasty;
use crate::ours;
use crate::rng::Rng;
use crate::table::{Range, Reading};

pub const PRIMITIVE: Primitive = Primitive {
    name: "turbulence",
    code: 7,
    large: 200,
    known,
    draw,
    spoil,
    reading,
    rust,
    dest: Some(0),
    scratch: None,
    ours,
};

const TURBULENCE: u32 = 0;
const FRACTAL_NOISE: u32 = 1;

const OFFSETS: Range = (-4096.0, 4096.0);
const SCALES: Range = (1.0 / 16.0, 16.0);
const FREQUENCIES: Range = (0.0, 16.0);
const OCTAVES: Range = (0.0, 8.0);

/// The ranges of the six doubles, in their order.
const RANGES: [Range; 6] = [OFFSETS, OFFSETS, SCALES, SCALES, FREQUENCIES, FREQUENCIES];

const NUM_OCTAVES: usize = 6;
const SEED: usize = 7;
const STITCH_TILES: usize = 8;
const KIND: usize = 9;

/// Seeds that draw a gradient pair (0, 0), which becomes NaN; those of 0 or less start where one of them does.
const NAN_SEEDS: [i32; 13] = [
    346,
    514,
    1155,
    1519,
    2327,
    54674,
    166492,
    112088,
    514148,
    2147483583,
    -345,
    -1154,
    -2147483582,
];

/// Where a start is, or a range of seeds ends. The lowest i32 is not run, since turbulence.rs overflows there.
const EDGE_SEEDS: [i32; 9] = [
    0,
    1,
    -1,
    -5,
    i32::MAX,
    i32::MAX - 1,
    -i32::MAX,
    -i32::MAX + 1,
    -i32::MAX + 2,
];

fn case(
    (width, height): (u32, u32),
    doubles: [f64; 6],
    octaves: u32,
    seed: i32,
    kind: u32,
) -> Case {
    let mut params: Vec<Param> = doubles.map(Param::double).into();
    params.extend([octaves, seed as u32, 0, kind].map(Param::Choice));
    let bytes = 4 * width as usize * height as usize;
    Case {
        width,
        height,
        params,
        sheets: vec![(0..bytes).map(|i| 77 + i as u8 % 100).collect()],
    }
}

fn known() -> Vec<Case> {
    let near = [0.0, 0.0, 1.0, 1.0, 0.25, 0.5];
    let still = [0.0, 0.0, 1.0, 1.0, 0.0, 0.0];
    let far = [4096.0, -4096.0, 1.0 / 16.0, 16.0, 16.0, 16.0];
    let back = [-4096.0, -4096.0, 1.0 / 16.0, 1.0 / 16.0, 16.0, 0.3];
    // Each pixel in another square of the lattice, so that many gradients are read.
    let apart = [0.5, 9.0, 0.5, 1.0, 7.125, 10.25];
    let mut cases = vec![];
    for kind in [TURBULENCE, FRACTAL_NOISE] {
        // Nothing moves, or no octave is drawn: one byte everywhere.
        cases.push(case((2, 2), still, 3, 1, kind));
        cases.push(case((2, 2), near, 0, 346, kind));
        cases.push(case((3, 3), near, 1, 1, kind));
        cases.push(case((3, 3), far, 8, -1, kind));
        cases.push(case((3, 3), back, 8, i32::MAX, kind));
        let seeds = NAN_SEEDS.into_iter().chain(EDGE_SEEDS);
        cases.extend(seeds.map(|seed| case((8, 4), apart, 3, seed, kind)));
    }
    // The first test that fails answers.
    let mut wrong = case((2, 2), near, 9, 1, 2);
    cases.push(wrong.clone());
    wrong.params[0] = Param::double(f64::NAN);
    cases.push(wrong);
    cases.extend(long_rows(|width, _| {
        case((width, 1), near.map(|x| x / 8.0 + 0.5), 2, 5, TURBULENCE)
    }));
    cases
}

fn draw(rng: &mut Rng, width: u32, height: u32) -> Case {
    let offset = |rng: &mut Rng| rng.between(-40, 40) as f64 / 2.0;
    let scale = |rng: &mut Rng| rng.pick(&[1.0, 0.5, 1.5, 2.0]);
    let most = rng.pick(&[0.125, 1.0, 16.0]);
    let frequency = |rng: &mut Rng| most * rng.unit() as f64;
    let doubles = match rng.one_in(3) {
        true => RANGES.map(|range| nasty::double(rng, range)),
        false => [
            offset(rng),
            offset(rng),
            scale(rng),
            scale(rng),
            frequency(rng),
            frequency(rng),
        ],
    };
    let seed = match rng.below(4) {
        0 => rng.pick(&NAN_SEEDS),
        1 => rng.pick(&EDGE_SEEDS),
        2 => rng.between(-9, 4000),
        _ => (rng.bits() as i32).max(-i32::MAX),
    };
    let kind = rng.pick(&[TURBULENCE, FRACTAL_NOISE]);
    let mut case = case((width, height), doubles, rng.below(9), seed, kind);
    case.sheets = vec![nasty::sheet(rng, width, height)];
    case
}

/// A number leaves its range by one step, there are too many octaves, or stitching or a kind has no name.
fn spoil(rng: &mut Rng, case: &mut Case) {
    let unnamed = rng.pick(&[2, 3, 128, 255]);
    match rng.below(9) {
        i @ 0..6 => {
            let (least, most) = RANGES[i as usize];
            let x = rng.pick(&[(least as f64).next_down(), (most as f64).next_up()]);
            case.params[i as usize] = Param::double(x);
        }
        6 => case.params[NUM_OCTAVES] = Param::Choice(rng.pick(&[9, 10, 65536, u32::MAX])),
        7 => case.params[STITCH_TILES] = Param::Choice(rng.pick(&[1, unnamed])),
        _ => case.params[KIND] = Param::Choice(unnamed),
    }
}

fn reading(case: &Case) -> Reading {
    let mut reading = Reading {
        unnamed: case.choice(STITCH_TILES) > 0 || case.choice(KIND) > FRACTAL_NOISE,
        ..Reading::default()
    };
    for (i, range) in RANGES.into_iter().enumerate() {
        reading.range(&[case.double(i)], range);
    }
    reading.range(&[case.choice(NUM_OCTAVES)], OCTAVES);
    reading
}

fn rust(case: &Case, sheets: &mut [Vec<u8>]) {
    filter::turbulence::apply(
        case.double(0),
        case.double(1),
        case.double(2),
        case.double(3),
        case.double(4),
        case.double(5),
        case.choice(NUM_OCTAVES),
        case.choice(SEED) as i32,
        false,
        case.choice(KIND) == FRACTAL_NOISE,
        ImageRefMut::new(case.width, case.height, sheets[0].as_rgba_mut()),
    );
}

fn ours(case: &Case, sheets: &mut [&mut [u8]]) -> Answer {
    let [dest] = sheets else { unreachable!() };
    unsafe {
        ours::nup_turbulence(
            case.width,
            case.height,
            case.double(0),
            case.double(1),
            case.double(2),
            case.double(3),
            case.double(4),
            case.double(5),
            case.choice(NUM_OCTAVES),
            case.choice(SEED) as i32,
            case.choice(STITCH_TILES) as u8,
            case.choice(KIND) as u8,
            dest.as_mut_ptr(),
            dest.len(),
        )
    }
}

#[cfg(test)]
mod tests {
    use super::*;

    /// A NaN becomes byte 0, which noise about 128 hardly comes to.
    #[test]
    fn known_cases_read_the_nan_of_each_seed() {
        let fractal = known()
            .into_iter()
            .filter(|case| (case.width, case.choice(KIND)) == (8, FRACTAL_NOISE));
        for case in fractal {
            let seed = case.choice(SEED) as i32;
            let zeros = PRIMITIVE.expected(&case).sheets[0].contains(&0);
            assert_eq!(zeros, NAN_SEEDS.contains(&seed), "{seed}");
        }
    }
}
