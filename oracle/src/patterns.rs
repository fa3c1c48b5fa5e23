//! The float leaves in blocks, on every core: those of an f32 over all 2^32 patterns, those of an f64 over every
//! boundary and over drawn patterns.

use std::fmt::Debug;
use std::sync::atomic::{AtomicU32, AtomicU64, Ordering};
use std::thread;

use crate::case::Answer;
use crate::leaves::{self, Same};
use crate::ours;
use crate::rng::Rng;

const BLOCK: usize = 1 << 20;
/// The blocks of all patterns of an f32.
const ALL: u32 = 1 << 12;
/// The blocks of an f64's patterns: 100,663,296, of which the first block's first 131,072 are boundaries.
const DRAWN: u32 = 96;
/// Differences that are shown; all are counted.
const SHOWN: u64 = 10;

type Call<A, B> = unsafe extern "C" fn(*const A, usize, *mut B, usize) -> Answer;

/// A leaf by its name over one block in so many: whether there is no difference.
type Over = fn(&str, u32) -> bool;

/// A leaf's input: the patterns of a block.
trait Pattern: Copy + Default + Sync + Debug {
    const BLOCKS: u32;
    fn fill(block: u32, xs: &mut [Self]);
}

impl Pattern for f32 {
    const BLOCKS: u32 = ALL;

    fn fill(block: u32, xs: &mut [f32]) {
        for (x, i) in xs.iter_mut().zip(block * BLOCK as u32..) {
            *x = f32::from_bits(i);
        }
    }
}

impl Pattern for f64 {
    const BLOCKS: u32 = DRAWN;

    fn fill(block: u32, xs: &mut [f64]) {
        let mut rng = Rng::new(block as u64);
        let boundaries = if block == 0 { boundaries() } else { vec![] };
        let boundaries = boundaries.into_iter().map(Some);
        for (x, boundary) in xs.iter_mut().zip(boundaries.chain(std::iter::repeat(None))) {
            *x = boundary.unwrap_or_else(|| leaves::double(&mut rng));
        }
    }
}

/// For each sign and exponent: the ends, the middle, and what lies about the last digits that an f32 keeps.
fn boundaries() -> Vec<f64> {
    // Half of an f32's last digit, within an f64's 52.
    let half = 1i64 << 28;
    let about = [0, half, 2 * half, 3 * half, 1 << 51, 1 << 52];
    let about = about
        .into_iter()
        .flat_map(|n| [-2, -1, 0, 1, 2].map(|by| n + by));
    let fractions: Vec<u64> = about
        .map(|n| n.rem_euclid(1 << 52) as u64)
        .chain([(1 << 52) - half as u64, (1 << 52) - half as u64 - 1])
        .collect();
    let patterns = (0..4096u64).flat_map(|top| fractions.iter().map(move |low| top << 52 | low));
    patterns.map(f64::from_bits).collect()
}

/// One block in `part` of the leaf of this name, or of all; the error is what to print before leaving with status 1.
pub fn run(name: Option<&str>, part: u32) -> Result<(), String> {
    ours::linked()?;
    let leaves: [(&str, Over); 5] = [
        ("to_bytes", |name, part| {
            over(name, part, ours::nup_to_bytes, |x| x as u8)
        }),
        ("round_to_i32s", |name, part| {
            over(name, part, ours::nup_round_to_i32s, |x: f32| {
                x.round() as i32
            })
        }),
        ("sqrt32", |name, part| {
            over(name, part, ours::nup_sqrt32, f32::sqrt)
        }),
        ("sqrt64", |name, part| {
            over(name, part, ours::nup_sqrt64, f64::sqrt)
        }),
        ("to_f32s", |name, part| {
            over(name, part, ours::nup_to_f32s, |x: f64| x as f32)
        }),
    ];
    let wanted = leaves
        .iter()
        .filter(|leaf| name.is_none_or(|name| name == leaf.0));
    let same: Vec<bool> = wanted.map(|(name, over)| over(name, part)).collect();
    match same.contains(&false) {
        _ if same.is_empty() => Err("no float leaf is called so".to_string()),
        false => Ok(()),
        true => Err("a pattern differs".to_string()),
    }
}

fn over<A: Pattern, B: Copy + Default + Same + Debug>(
    name: &str,
    part: u32,
    call: Call<A, B>,
    rust: fn(A) -> B,
) -> bool {
    let (next, differences) = (AtomicU32::new(0), AtomicU64::new(0));
    let work = || {
        let mut xs = vec![A::default(); BLOCK];
        let mut out = vec![B::default(); BLOCK];
        loop {
            let block = next.fetch_add(part, Ordering::Relaxed);
            if block >= A::BLOCKS {
                return;
            }
            A::fill(block, &mut xs);
            let answer = unsafe { call(xs.as_ptr(), BLOCK, out.as_mut_ptr(), BLOCK) };
            assert_eq!(answer, Answer { number: 0, step: 0 });
            for (x, ours) in xs.iter().zip(&out) {
                let rust = rust(*x);
                if !ours.same(&rust) && differences.fetch_add(1, Ordering::Relaxed) < SHOWN {
                    println!("{name}: {x:?} gives {ours:?}, the Rust {rust:?}");
                }
            }
        }
    };
    thread::scope(|scope| {
        for _ in 0..thread::available_parallelism().map_or(1, |n| n.get()) {
            scope.spawn(work);
        }
    });
    let differences = differences.load(Ordering::Relaxed);
    let count = A::BLOCKS.div_ceil(part) as u64 * BLOCK as u64;
    println!("{name}: {count} patterns, {differences} differences");
    differences == 0
}
