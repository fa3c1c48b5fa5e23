//! The library's leaves over whole slices. Each is refused 2 where its two lengths differ.

use crate::case::Answer;
use crate::lend::Lent;
use crate::nasty::steps;
use crate::ours;
use crate::rng::Rng;

pub struct Leaf {
    pub name: &'static str,
    /// Whether there are two lengths to differ.
    pub refuses: bool,
    /// One case, with lengths that differ or not; the error shows the input.
    pub check: fn(&mut Rng, bool) -> Result<(), String>,
}

pub const ALL: [Leaf; 7] = [
    Leaf {
        name: "to_bytes",
        refuses: true,
        check: to_bytes,
    },
    Leaf {
        name: "round_to_i32s",
        refuses: true,
        check: round_to_i32s,
    },
    Leaf {
        name: "sqrt32",
        refuses: true,
        check: sqrt32,
    },
    Leaf {
        name: "sqrt64",
        refuses: true,
        check: sqrt64,
    },
    Leaf {
        name: "to_f32s",
        refuses: true,
        check: to_f32s,
    },
    Leaf {
        name: "copy",
        refuses: true,
        check: copy,
    },
    Leaf {
        name: "clear",
        refuses: false,
        check: clear,
    },
];

/// Whether two results are the same. A NaN is a NaN: neither the Rust nor the library says which pattern it has.
pub trait Same: PartialEq {
    fn same(&self, other: &Self) -> bool {
        self == other
    }
}

impl Same for u8 {}
impl Same for i32 {}

impl Same for f32 {
    fn same(&self, other: &f32) -> bool {
        self.to_bits() == other.to_bits() || self.is_nan() && other.is_nan()
    }
}

impl Same for f64 {
    fn same(&self, other: &f64) -> bool {
        self.to_bits() == other.to_bits() || self.is_nan() && other.is_nan()
    }
}

const DONE: Answer = Answer { number: 0, step: 0 };
const REFUSED: Answer = Answer { number: 2, step: 0 };

fn floats(rng: &mut Rng, count: usize) -> Vec<f32> {
    let draw = |rng: &mut Rng| match rng.below(4) {
        0 => f32::from_bits(rng.bits()),
        1 => 500.0 * rng.unit() - 100.0,
        _ => steps(
            (rng.bits() >> (8 + rng.below(24))) as f32 / 2.0,
            rng.between(-1, 1),
        ),
    };
    (0..count).map(|_| draw(rng)).collect()
}

/// A double: any pattern, or about a float, the middle between two, a power of two, a square, or the square of a
/// middle between two doubles.
pub fn double(rng: &mut Rng) -> f64 {
    let power = |exponent: u64| f64::from_bits(exponent << 52);
    let about = match rng.below(8) {
        0 => return f64::from_bits(rng.word()),
        1 => return f64::from_bits(rng.word() >> 1),
        2 => {
            let bits = rng.bits();
            let next = bits.wrapping_add(rng.below(2));
            [bits, next]
                .map(|bits| f32::from_bits(bits) as f64 / 2.0)
                .iter()
                .sum()
        }
        // Below 2^-126, where floats lose digits.
        3 => (rng.word() >> 11) as f64 * power(1023 - 126 - 53 - rng.below(26) as u64),
        4 => {
            let root = (rng.word() >> (11 + rng.below(40))) as f64;
            root * root
        }
        5 => {
            // (n + 1/2)^2 is n (n + 1) + 1/4.
            let n = (rng.word() >> 11 | 1 << 52) as u128;
            (n * (n + 1)) as f64
        }
        6 => power(rng.below(2047) as u64),
        _ => (rng.bits() as f64 - 2147483648.0) * rng.unit() as f64,
    };
    f64::from_bits(
        about
            .to_bits()
            .wrapping_add_signed(rng.between(-2, 2) as i64),
    )
}

/// The length of what is written: the same, or another where the call must be refused.
fn lengths(rng: &mut Rng, refused: bool) -> (usize, usize) {
    let n: usize = rng.pick(&[0, 1, 2, 3, 7, 8, 31, 64, 65, 200]);
    let other = rng.pick(&[n + 1, n.saturating_sub(1), 0, 2 * n, n + 64]);
    match refused {
        false => (n, n),
        true if other == n => (n, n + 1),
        true => (n, other),
    }
}

/// Compares what one call did with what `leaf` makes of each element.
fn check<A: Copy + std::fmt::Debug, B: Copy + Same + std::fmt::Debug>(
    xs: &[A],
    out: Lent<B>,
    leaf: fn(A) -> B,
    call: impl Fn(&[A], &mut [B]) -> Answer,
) -> Result<(), String> {
    let mut out = out;
    let before = out.now().to_vec();
    let answer = call(xs, out.now_mut());
    let same = xs.len() == before.len();
    let expected = if same {
        xs.iter().map(|x| leaf(*x)).collect()
    } else {
        before
    };
    let right = answer == if same { DONE } else { REFUSED };
    let mut pairs = out.now().iter().zip(&expected);
    let at = pairs.position(|(ours, rust)| !ours.same(rust));
    if right && at.is_none() && out.kept() {
        return Ok(());
    }
    Err(match at {
        Some(at) if right && same => {
            format!(
                "{:?}: expected {:?}, the library gave {:?}",
                xs[at],
                expected[at],
                out.now()[at]
            )
        }
        _ => format!(
            "{} read, {} lent to write: {answer:?}, first byte changed: {at:?}, outside kept: {}",
            xs.len(),
            expected.len(),
            out.kept()
        ),
    })
}

fn to_bytes(rng: &mut Rng, refused: bool) -> Result<(), String> {
    let (n, m) = lengths(rng, refused);
    let out = Lent::new(&vec![0x5a; m], 0xa5, rng.below(4) as usize);
    check(
        &floats(rng, n),
        out,
        |x| x as u8,
        |xs, out| unsafe { ours::nup_to_bytes(xs.as_ptr(), xs.len(), out.as_mut_ptr(), out.len()) },
    )
}

fn round_to_i32s(rng: &mut Rng, refused: bool) -> Result<(), String> {
    let (n, m) = lengths(rng, refused);
    let out = Lent::new(&vec![0x5a5a; m], -1, rng.below(4) as usize);
    check(
        &floats(rng, n),
        out,
        |x| x.round() as i32,
        |xs, out| unsafe {
            ours::nup_round_to_i32s(xs.as_ptr(), xs.len(), out.as_mut_ptr(), out.len())
        },
    )
}

fn doubles(rng: &mut Rng, count: usize) -> Vec<f64> {
    (0..count).map(|_| double(rng)).collect()
}

fn sqrt32(rng: &mut Rng, refused: bool) -> Result<(), String> {
    let (n, m) = lengths(rng, refused);
    let out = Lent::new(&vec![0.5; m], -1.0, rng.below(4) as usize);
    check(&floats(rng, n), out, f32::sqrt, |xs, out| unsafe {
        ours::nup_sqrt32(xs.as_ptr(), xs.len(), out.as_mut_ptr(), out.len())
    })
}

fn sqrt64(rng: &mut Rng, refused: bool) -> Result<(), String> {
    let (n, m) = lengths(rng, refused);
    let out = Lent::new(&vec![0.5; m], -1.0, rng.below(4) as usize);
    check(&doubles(rng, n), out, f64::sqrt, |xs, out| unsafe {
        ours::nup_sqrt64(xs.as_ptr(), xs.len(), out.as_mut_ptr(), out.len())
    })
}

fn to_f32s(rng: &mut Rng, refused: bool) -> Result<(), String> {
    let (n, m) = lengths(rng, refused);
    let out = Lent::new(&vec![0.5; m], -1.0, rng.below(4) as usize);
    check(
        &doubles(rng, n),
        out,
        |x| x as f32,
        |xs, out| unsafe { ours::nup_to_f32s(xs.as_ptr(), xs.len(), out.as_mut_ptr(), out.len()) },
    )
}

fn copy(rng: &mut Rng, refused: bool) -> Result<(), String> {
    let (n, m) = lengths(rng, refused);
    let bytes: Vec<u8> = (0..n).map(|_| rng.byte()).collect();
    let out = Lent::new(&vec![0x5a; m], 0xa5, rng.below(4) as usize);
    check(
        &bytes,
        out,
        |b| b,
        |bytes, out| unsafe {
            ours::nup_copy(bytes.as_ptr(), bytes.len(), out.as_mut_ptr(), out.len())
        },
    )
}

fn clear(rng: &mut Rng, _: bool) -> Result<(), String> {
    let (n, _) = lengths(rng, false);
    let out = Lent::new(&vec![0x5a; n], 0xa5, rng.below(4) as usize);
    check(
        &vec![(); n],
        out,
        |_| 0,
        |_, out| unsafe { ours::nup_clear(out.as_mut_ptr(), out.len()) },
    )
}
