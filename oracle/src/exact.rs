//! Exact sums of squares of f32, in whole units of 2^-298, and the tests on them.

use std::cmp::Ordering;

/// A natural number below 2^640, lowest word first: room for three squares of any finite f32.
#[derive(Clone, Copy, Debug, PartialEq, Eq)]
pub struct Wide([u64; 10]);

impl Wide {
    /// `n` times 2 to the `shift`.
    pub fn shifted(n: u64, shift: u32) -> Wide {
        let mut words = [0; 10];
        let (at, by) = ((shift / 64) as usize, shift % 64);
        words[at] = n << by;
        if by > 0 && n >> (64 - by) > 0 {
            words[at + 1] = n >> (64 - by);
        }
        Wide(words)
    }

    pub fn plus(self, other: Wide) -> Wide {
        let mut words = [0; 10];
        let mut carry = 0u128;
        for (i, word) in words.iter_mut().enumerate() {
            carry += self.0[i] as u128 + other.0[i] as u128;
            *word = carry as u64;
            carry >>= 64;
        }
        assert_eq!(carry, 0);
        Wide(words)
    }

    /// The size of the difference.
    pub fn apart(self, other: Wide) -> Wide {
        let (more, less) = if self >= other {
            (self, other)
        } else {
            (other, self)
        };
        let mut words = [0; 10];
        let mut borrow = false;
        for (i, word) in words.iter_mut().enumerate() {
            let (a, first) = more.0[i].overflowing_sub(less.0[i]);
            let (b, second) = a.overflowing_sub(borrow as u64);
            (*word, borrow) = (b, first || second);
        }
        Wide(words)
    }
}

impl Ord for Wide {
    fn cmp(&self, other: &Wide) -> Ordering {
        self.0.iter().rev().cmp(other.0.iter().rev())
    }
}

impl PartialOrd for Wide {
    fn partial_cmp(&self, other: &Wide) -> Option<Ordering> {
        Some(self.cmp(other))
    }
}

/// The square of the float with these bits; None for NaN and the infinities.
fn square(bits: u32) -> Option<Wide> {
    let (exponent, fraction) = (bits >> 23 & 0xff, (bits & 0x7f_ffff) as u64);
    match exponent {
        0xff => None,
        // A subnormal is fraction x 2^-149.
        0 => Some(Wide::shifted(fraction * fraction, 0)),
        _ => {
            let whole = fraction | 1 << 23;
            Some(Wide::shifted(whole * whole, 2 * (exponent - 1)))
        }
    }
}

/// The exact sum of the squares; None where a number is not finite.
pub fn sum_of_squares(numbers: &[u32]) -> Option<Wide> {
    numbers
        .iter()
        .try_fold(Wide([0; 10]), |sum, bits| Some(sum.plus(square(*bits)?)))
}

/// 1 - 1/1,024, the least sum that is taken.
pub fn least() -> Wide {
    Wide::shifted(1023, 288)
}

/// 1 + 1/1,024, the largest sum that is taken.
pub fn largest() -> Wide {
    Wide::shifted(1025, 288)
}

/// Whether the exact sum of squares differs from 1 by at most 1/1,024.
pub fn is_unit(numbers: &[u32]) -> bool {
    sum_of_squares(numbers).is_some_and(|sum| least() <= sum && sum <= largest())
}

/// With the given other numbers, the last float y from 0 on whose sum stays below or at the bound
/// (`upper`), or below it (the lower bound). None where y = 0 is past it already.
/// So y and the next float lie on the two sides of the bound.
pub fn last_before(others: &[u32], upper: bool) -> Option<u32> {
    let before = |y: u32| {
        let sum = sum_of_squares(others).unwrap().plus(square(y).unwrap());
        if upper {
            sum <= largest()
        } else {
            sum < least()
        }
    };
    if !before(0) {
        return None;
    }
    // Sums never fall as y goes up through the patterns.
    let (mut below, mut above) = (0, 0x4000_0000);
    while above - below > 1 {
        let middle = below + (above - below) / 2;
        if before(middle) {
            below = middle
        } else {
            above = middle
        }
    }
    Some(below)
}

#[cfg(test)]
mod tests {
    use super::*;

    fn unit(numbers: &[f32]) -> bool {
        is_unit(&numbers.iter().map(|x| x.to_bits()).collect::<Vec<_>>())
    }

    #[test]
    fn sums_on_the_upper_bound_are_taken_and_the_next_float_is_not() {
        for (x, y) in [
            (1.0f32, 0.03125f32),
            (31.0 / 32.0, 0.25),
            (25.0 / 32.0, 0.625),
        ] {
            assert_eq!(sum_of_squares(&[x.to_bits(), y.to_bits()]), Some(largest()));
            assert!(unit(&[x, y]) && unit(&[-y, x]) && unit(&[x, 0.0, -y]));
            assert!(!unit(&[x, y.next_up()]) && !unit(&[x.next_up(), y]));
            assert!(!unit(&[x, y, f32::from_bits(1)]));
        }
    }

    #[test]
    fn far_and_unreal_numbers_are_refused() {
        for x in [
            0.0,
            f32::MAX,
            f32::from_bits(1),
            f32::NAN,
            f32::INFINITY,
            f32::NEG_INFINITY,
        ] {
            assert!(!unit(&[x, x]) && !unit(&[x, x, x]));
        }
        assert!(!unit(&[1.0, f32::NAN]) && !unit(&[f32::INFINITY, 1.0]));
        assert!(!unit(&[f32::MAX, f32::MAX, f32::MAX]));
        assert!(unit(&[1.0, 0.0]) && unit(&[-0.0, -1.0]) && unit(&[0.6, 0.8]));
    }

    #[test]
    fn sums_agree_with_f64_away_from_the_bounds() {
        let mut rng = crate::rng::Rng::new(3);
        for _ in 0..100_000 {
            let (x, y) = (2.0 * rng.unit() - 1.0, 2.0 * rng.unit() - 1.0);
            let sum = x as f64 * x as f64 + y as f64 * y as f64;
            let off = (sum - 1.0).abs() - 1.0 / 1024.0;
            if off.abs() > 1e-12 {
                assert_eq!(unit(&[x, y]), off < 0.0, "{x} {y}");
            }
        }
    }

    #[test]
    fn edges_are_edges() {
        let x = 0.5f32.to_bits();
        let y = last_before(&[x], true).unwrap();
        assert!(is_unit(&[x, y]) && !is_unit(&[x, y + 1]));
        let y = last_before(&[x], false).unwrap();
        assert!(!is_unit(&[x, y]) && is_unit(&[x, y + 1]));
        assert_eq!(last_before(&[1.0f32.to_bits()], false), None);
    }
}
