//! The stored lists of a primitive's cases, which Rattle programs replay without Rust.
//!
//! Little-endian u32 words: code, width, height, P, the P parameter words, L, and L times a length
//! with that many bytes; then the answer's number and step, and the L sheets' bytes after the call.
//! Bytes are padded with zeros to a whole number of words. The end of the file ends the list.

use crate::case::{Case, Outcome};
use crate::nasty::Limits;
use crate::primitives::Primitive;
use crate::rng::Rng;

const SEED: u64 = 0x6e75_7072;
const CASES: usize = 400;
/// No file is larger.
pub const MOST_BYTES: usize = 200_000;

/// The list of one primitive: what is known, then accepted and spoiled cases by turns.
pub fn list(primitive: &Primitive) -> Vec<u8> {
    let mut rng = Rng::new(SEED + primitive.code as u64);
    let mut list = Vec::new();
    for case in (primitive.known)() {
        write_case(&mut list, primitive, &case);
    }
    for i in 0..CASES {
        let limits = Limits {
            side: [3, 5, 8][i / 3 % 3],
            any_nan: false,
        };
        let case = match i % 3 {
            2 => primitive.draw_spoiled(&mut rng, limits),
            _ => primitive.drawn(&mut rng, limits),
        };
        let before = list.len();
        write_case(&mut list, primitive, &case);
        // A case that is too long for what is left makes room for shorter ones.
        if list.len() > MOST_BYTES * (i + CASES) / (2 * CASES) {
            list.truncate(before);
        }
    }
    list
}

fn write_case(list: &mut Vec<u8>, primitive: &Primitive, case: &Case) {
    let Outcome { answer, sheets } = primitive.expected(case);
    let params = case.words();
    let mut words = vec![primitive.code, case.width, case.height, params.len() as u32];
    words.extend(params);
    words.push(case.sheets.len() as u32);
    write_words(list, &words);
    for sheet in &case.sheets {
        write_words(list, &[sheet.len() as u32]);
        write_bytes(list, sheet);
    }
    write_words(list, &[answer.number as u32, answer.step as u32]);
    for sheet in &sheets {
        write_bytes(list, sheet);
    }
}

fn write_words(list: &mut Vec<u8>, words: &[u32]) {
    list.extend(words.iter().flat_map(|word| word.to_le_bytes()));
}

fn write_bytes(list: &mut Vec<u8>, bytes: &[u8]) {
    list.extend(bytes);
    list.resize(list.len().next_multiple_of(4), 0);
}

#[cfg(test)]
mod tests {
    use super::*;
    use crate::primitives::ALL;

    /// Reads a list back by its description alone, and counts the answers.
    fn answers(list: &[u8]) -> [usize; 6] {
        let mut at = 0;
        let word = |at: &mut usize| {
            *at += 4;
            u32::from_le_bytes(list[*at - 4..*at].try_into().unwrap())
        };
        let mut counts = [0; 6];
        while at < list.len() {
            at += 12;
            at += 4 * word(&mut at) as usize;
            let count = word(&mut at);
            let mut spans = Vec::new();
            for _ in 0..count {
                let length = word(&mut at) as usize;
                spans.push(at..at + length);
                at += length.next_multiple_of(4);
            }
            let (number, step) = (word(&mut at), word(&mut at));
            assert_eq!(step, 0);
            counts[number as usize] += 1;
            for span in spans {
                if number != 0 {
                    assert_eq!(list[span.clone()], list[at..at + span.len()]);
                }
                at += span.len().next_multiple_of(4);
            }
        }
        assert_eq!(at, list.len());
        counts
    }

    #[test]
    fn lists_read_back_and_hold_every_answer() {
        for primitive in &ALL {
            let list = list(primitive);
            assert!(
                list.len() <= MOST_BYTES,
                "{}: {} bytes",
                primitive.name,
                list.len()
            );
            let counts = answers(&list);
            println!(
                "{}: {} bytes, answers {counts:?}",
                primitive.name,
                list.len()
            );
            assert!(counts[0] > 150 && counts.iter().sum::<usize>() > 250);
            let shapeless = [
                "morphology",
                "composite",
                "displacement_map",
                "turbulence",
                "diffuse_lighting",
                "specular_lighting",
            ]
            .contains(&primitive.name);
            for (number, count) in counts.iter().enumerate() {
                assert_eq!(
                    *count == 0,
                    shapeless && number == 3,
                    "{} {number}",
                    primitive.name
                );
            }
            assert_eq!(list, super::list(primitive));
        }
    }
}
