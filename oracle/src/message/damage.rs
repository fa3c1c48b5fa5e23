//! Messages that are damaged: cut off, changed, stretched, too large, unknown, out of order, too long.

use super::shortest;
use super::write::Word;
use crate::rng::Rng;

/// The bytes of these words with one to three things wrong.
pub fn damaged(rng: &mut Rng, words: &[Word]) -> Vec<u8> {
    let mut numbers: Vec<Vec<u8>> = words.iter().map(|w| shortest(w.value.into())).collect();
    let times = rng.pick(&[1, 1, 1, 2, 3]);
    for _ in 0..times {
        if rng.one_in(2) && !numbers.is_empty() {
            damage_number(rng, words, &mut numbers);
        }
    }
    let mut bytes = numbers.concat();
    for _ in 0..times {
        if rng.one_in(2) {
            damage_bytes(rng, &mut bytes);
        }
    }
    bytes
}

fn damage_number(rng: &mut Rng, words: &[Word], numbers: &mut Vec<Vec<u8>>) {
    let at = match rng.one_in(3) {
        // Near the start, where most codes and counts are.
        true => rng.below(numbers.len().min(12) as u32) as usize,
        false => rng.below(numbers.len() as u32) as usize,
    };
    match rng.below(8) {
        0 | 1 => stretch(rng, &mut numbers[at]),
        2 => numbers[at] = large(rng),
        3 => numbers[at] = shortest(other(rng).into()),
        4 | 5 => unknown(rng, words, numbers),
        6 => drop(numbers.remove(at)),
        _ if rng.one_in(2) => numbers.insert(at, numbers[at].clone()),
        _ => {
            let with = rng.below(numbers.len() as u32) as usize;
            numbers.swap(at, with);
        }
    }
}

/// A longer form of the same number.
fn stretch(rng: &mut Rng, number: &mut Vec<u8>) {
    for _ in 0..rng.pick(&[1, 1, 1, 2, 3, 4, 9]) {
        *number.last_mut().expect("a byte") |= 128;
        number.push(0);
    }
}

/// A number of 2^32 or more, in its shortest form.
fn large(rng: &mut Rng) -> Vec<u8> {
    let least = 1 << 32;
    let number = match rng.below(6) {
        0 => least,
        1 => least + rng.below(10) as u64,
        2 => (1 << 35) - 1,
        3 => 1 << 35,
        4 => u64::MAX,
        _ => least | rng.word() >> rng.below(32),
    };
    shortest(number)
}

/// A number that may be anything where it is put.
fn other(rng: &mut Rng) -> u32 {
    match rng.below(4) {
        0 => rng.below(20),
        1 => rng.pick(&[127, 128, 255, 256, 257, 300, 16_383, 16_384, 16_385]),
        2 => u32::MAX - rng.below(3),
        _ => rng.bits() >> rng.below(32),
    }
}

/// A code, an operator, a mode or a colour that there is not, at the first such place from a drawn one on.
fn unknown(rng: &mut Rng, words: &[Word], numbers: &mut [Vec<u8>]) {
    let coded = words.iter().zip(numbers).filter(|(w, _)| w.limit.is_some());
    let mut coded: Vec<_> = coded.collect();
    if coded.is_empty() {
        return;
    }
    let at = rng.below(coded.len() as u32) as usize;
    let (word, number) = &mut coded[at];
    let limit = word.limit.expect("a limit");
    let value = match rng.below(5) {
        0 => limit - 1,
        1 => 0,
        2 => limit,
        3 => limit + rng.below(6),
        _ => limit.saturating_add(other(rng)),
    };
    **number = shortest(value.into());
}

fn damage_bytes(rng: &mut Rng, bytes: &mut Vec<u8>) {
    let at = rng.below(bytes.len() as u32 + 1) as usize;
    match rng.below(8) {
        0..3 => bytes.truncate(at),
        3..6 if at < bytes.len() => {
            let byte = &mut bytes[at];
            *byte = match rng.below(4) {
                0 => *byte ^ 128,
                1 => byte.wrapping_add(1),
                2 => byte.wrapping_sub(1),
                _ => rng.byte(),
            };
        }
        6 if rng.one_in(4) => *bytes = (0..rng.below(12)).map(|_| rng.byte() % 12).collect(),
        _ => {
            let byte = rng.pick(&[0, 1, 128, 255]);
            bytes.resize(bytes.len() + 1 + rng.below(5) as usize, byte);
        }
    }
}
