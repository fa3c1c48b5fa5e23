//! floats.bin: 20-byte records of five little-endian u32: kind, the bits of x, y, z, the answer.
//! Kinds: 0 `x as u8`, 1 `x.round() as i32`, 2 near zero, 3 a unit pair, 4 a unit triple.

use crate::exact::{self, Wide};
use crate::nasty::steps;
use crate::rng::Rng;

const SEED: u64 = 0x666c_6f61;
const SINGLES: usize = 8000;
const UNITS: usize = 4000;

pub struct Record {
    pub kind: u32,
    pub x: [u32; 3],
    pub answer: u32,
}

/// docs/LAW.md's rule: zero of either sign, or positive with bits at most 4.
pub fn near_zero(bits: u32) -> bool {
    bits == 0x8000_0000 || bits <= 4
}

fn record(kind: u32, x: [u32; 3]) -> Record {
    let float = f32::from_bits(x[0]);
    let answer = match kind {
        0 => (float as u8) as u32,
        1 => (float.round() as i32) as u32,
        2 => near_zero(x[0]) as u32,
        3 => exact::is_unit(&x[..2]) as u32,
        _ => exact::is_unit(&x) as u32,
    };
    Record { kind, x, answer }
}

pub fn records() -> Vec<Record> {
    let mut rng = Rng::new(SEED);
    let mut records = Vec::new();
    for kind in [0, 1] {
        let xs = filled(edges(), cut_or_tie, &mut rng);
        records.extend(xs.map(|x| record(kind, [x, 0, 0])));
    }
    let xs = filled(small_patterns(), small_or_any, &mut rng);
    records.extend(xs.map(|x| record(2, [x, 0, 0])));
    records.extend(
        units(&mut rng, 1)
            .into_iter()
            .map(|[x, y, _]| record(3, [x, y, 0])),
    );
    records.extend(units(&mut rng, 2).into_iter().map(|x| record(4, x)));
    records
}

pub fn bytes() -> Vec<u8> {
    let words = |r: &Record| [r.kind, r.x[0], r.x[1], r.x[2], r.answer];
    records()
        .iter()
        .flat_map(|r| words(r).map(u32::to_le_bytes))
        .flatten()
        .collect()
}

/// The fixed patterns first, and then random ones up to the number wanted.
fn filled(
    fixed: Vec<u32>,
    more: fn(&mut Rng) -> u32,
    rng: &mut Rng,
) -> impl Iterator<Item = u32> + use<> {
    let missing = SINGLES.saturating_sub(fixed.len());
    let drawn: Vec<u32> = (0..missing).map(|_| more(rng)).collect();
    fixed.into_iter().chain(drawn)
}

/// Not finite, or at the end of what is.
const ENDS: [u32; 10] = [
    0x7f80_0000,
    0xff80_0000,
    0x7f7f_ffff,
    0xff7f_ffff,
    0x7fc0_0000,
    0xffc0_0000,
    0x7f80_0001,
    0xff80_0001,
    0x7fff_ffff,
    0xffff_ffff,
];

/// Whole numbers, ties and powers of two with their neighbours, both signs.
fn edges() -> Vec<u32> {
    let mut xs = vec![0.0f32];
    for k in 0..=256 {
        for middle in [k as f32, k as f32 + 0.5] {
            xs.extend((-2..=2).map(|n| steps(middle, n)));
        }
    }
    for power in -149..=127 {
        let x = 2f64.powi(power) as f32;
        xs.extend((-1..=1).map(|n| steps(x, n)));
    }
    // Where ties end, and where i32 does.
    for power in [22, 23, 24, 31] {
        xs.extend((-9..=9).map(|n| steps(2f32.powi(power), n)));
    }
    let both = xs.iter().flat_map(|x| [x.to_bits(), (-x).to_bits()]);
    both.chain(ENDS).collect()
}

/// A tie or a whole number of any size, or any pattern at all.
fn cut_or_tie(rng: &mut Rng) -> u32 {
    let sign = rng.bits() & 0x8000_0000;
    match rng.below(4) {
        0 => rng.bits(),
        1 => (256.0 * rng.unit()).to_bits(),
        _ => {
            let whole = rng.bits() >> (8 + rng.below(24));
            sign | steps(whole as f32 / 2.0, rng.between(-1, 1)).to_bits() & 0x7fff_ffff
        }
    }
}

fn small_patterns() -> Vec<u32> {
    let signs = [0u32, 0x8000_0000];
    let low = signs
        .iter()
        .flat_map(|sign| (0..=64).map(move |n| sign | n));
    let high = signs.iter().map(|sign| sign.wrapping_sub(1));
    low.chain(high)
        .chain(ENDS)
        .chain(edges().into_iter().step_by(5))
        .collect()
}

fn small_or_any(rng: &mut Rng) -> u32 {
    let sign = rng.bits() & 0x8000_0000;
    match rng.below(3) {
        0 => rng.bits(),
        1 => sign | rng.bits() >> (9 + rng.below(23)),
        // One bit alone, or two.
        _ => sign | 1 << rng.below(32) | 1 << rng.below(32),
    }
}

/// Numbers for the unit test, `free` of them drawn and one set to reach an edge.
fn units(rng: &mut Rng, free: usize) -> Vec<[u32; 3]> {
    let mut units = fixed_units(free);
    units.extend(closest_units(rng, free));
    while units.len() < UNITS {
        units.push(shuffled(rng, free, draw_unit));
    }
    units
}

/// Exactly on the bound, corners, and what is too small, too large or not finite.
fn fixed_units(free: usize) -> Vec<[u32; 3]> {
    let mut fixed = Vec::new();
    let mut add = |x: f32, y: f32| {
        for (x, y) in [(x, y), (y, x), (-x, y), (y, -x)] {
            fixed.push([x, y, 0.0].map(f32::to_bits));
            if free == 2 {
                fixed.push([0.0, x, y].map(f32::to_bits));
                fixed.push([x, f32::from_bits(1), y].map(f32::to_bits));
            }
        }
    };
    // 1,025 = 32^2 + 1 = 31^2 + 8^2 = 25^2 + 20^2, in 32nds.
    for (a, b) in [(32, 1), (31, 8), (25, 20)] {
        let (x, y) = (a as f32 / 32.0, b as f32 / 32.0);
        for (i, j) in [(0, 0), (1, 0), (0, 1), (-1, 0), (0, -1), (1, -1), (-1, 1)] {
            add(steps(x, i), steps(y, j));
        }
    }
    for x in [
        0.0,
        f32::from_bits(1),
        f32::MIN_POSITIVE,
        1.0,
        1.0005,
        0.9995,
        2.0,
        f32::MAX,
    ] {
        for y in [
            0.0,
            f32::from_bits(1),
            f32::from_bits(0x7f_ffff),
            0.03,
            1.0,
            1e19,
            1e-23,
        ] {
            add(x, y);
        }
    }
    for bits in ENDS {
        add(f32::from_bits(bits), 0.0);
        add(f32::from_bits(bits), 1.0);
        add(f32::from_bits(bits), f32::from_bits(bits));
    }
    fixed
}

/// Of many edges the closest to the bounds, from both sides.
fn closest_units(rng: &mut Rng, free: usize) -> Vec<[u32; 3]> {
    let mut found: [Vec<(Wide, [u32; 3])>; 4] = Default::default();
    for _ in 0..20_000 {
        let upper = rng.one_in(2);
        let bound = if upper {
            exact::largest()
        } else {
            exact::least()
        };
        let [x, z] = draw_free(rng, free);
        let Some(y) = exact::last_before(&[x, z], upper) else {
            continue;
        };
        for (side, y) in [y, y + 1].into_iter().enumerate() {
            let numbers = [x, y, z];
            let off = exact::sum_of_squares(&numbers).unwrap().apart(bound);
            found[2 * upper as usize + side].push((off, numbers));
        }
    }
    let closest = found.iter_mut().flat_map(|side| {
        side.sort();
        side.iter().take(250).map(|(_, numbers)| *numbers)
    });
    closest.collect()
}

/// One or two numbers below 1; the second is 0 where only one is free.
fn draw_free(rng: &mut Rng, free: usize) -> [u32; 2] {
    let sign = |rng: &mut Rng| if rng.one_in(2) { 1.0 } else { -1.0 };
    let x = sign(rng) * rng.unit();
    let z = if free == 2 {
        sign(rng) * rng.unit()
    } else {
        0.0
    };
    let tiny = f32::from_bits(1 + rng.bits() % 0x3000_0000);
    let z = if free == 2 && rng.one_in(8) { tiny } else { z };
    [x.to_bits(), z.to_bits()]
}

/// About an edge, an angle's, or any patterns.
fn draw_unit(rng: &mut Rng, free: usize) -> [u32; 3] {
    let [x, z] = draw_free(rng, free);
    match rng.below(8) {
        0 => [
            rng.bits(),
            rng.bits(),
            if free == 2 { rng.bits() } else { 0 },
        ],
        1 => {
            let rest = 1.0 - f32::from_bits(x).powi(2) - f32::from_bits(z).powi(2);
            [x, rest.abs().sqrt().to_bits(), z]
        }
        _ => {
            let upper = rng.one_in(2);
            let Some(y) = exact::last_before(&[x, z], upper) else {
                return draw_unit(rng, free);
            };
            [x, y.saturating_add_signed(rng.between(-2, 3)), z]
        }
    }
}

/// The numbers in another order where all three count, and the second with either sign.
fn shuffled(rng: &mut Rng, free: usize, draw: fn(&mut Rng, usize) -> [u32; 3]) -> [u32; 3] {
    let [x, y, z] = draw(rng, free);
    let y = y ^ (rng.bits() & 0x8000_0000);
    match (free, rng.below(3)) {
        (1, 0) => [y, x, z],
        (2, 0) => [z, x, y],
        (2, 1) => [y, z, x],
        _ => [x, y, z],
    }
}

#[cfg(test)]
mod tests {
    use super::*;
    use usvg::ApproxZeroUlps;

    #[test]
    fn lists_have_the_numbers_asked_for() {
        let records = records();
        for (kind, least) in [(0, 8000), (1, 8000), (2, 8000), (3, 4000), (4, 4000)] {
            let of: Vec<&Record> = records.iter().filter(|r| r.kind == kind).collect();
            assert!(
                (least..least + 300).contains(&of.len()),
                "kind {kind}: {}",
                of.len()
            );
            let yes = of.iter().filter(|r| r.answer != 0).count();
            assert!(
                yes > 50 && yes < of.len() - 50,
                "kind {kind}: {yes} of {}",
                of.len()
            );
        }
    }

    #[test]
    fn the_rule_for_near_zero_is_the_shims() {
        let all = small_patterns().into_iter().chain(edges());
        for bits in all {
            assert_eq!(
                near_zero(bits),
                f32::from_bits(bits).approx_zero_ulps(4),
                "{bits:#x}"
            );
        }
    }

    #[test]
    fn document_01_rounds_half_away() {
        let find = |x: f32| record(1, [x.to_bits(), 0, 0]).answer;
        assert_eq!(
            [find(0.5), find(0.499_999_97), find(-0.5)],
            [1, 0, u32::MAX]
        );
    }
}
