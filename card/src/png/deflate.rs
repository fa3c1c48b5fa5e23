//! Compresses as deflate has it, in zlib's wrapping: repetitions, and codes made for each block.

use super::adler32;
use super::inflate::{DISTANCES, LENGTHS, ORDER};

/// So many literals and repetitions make a block.
const BLOCK: usize = 1 << 16;
/// How far back a repetition may reach.
const WINDOW: usize = 1 << 15;
/// The shortest and the longest repetition.
const SHORTEST: usize = 4;
const LONGEST: usize = 258;
/// So many earlier places are looked at.
const LOOKS: usize = 12;

/// A literal, or a repetition: its length and its distance.
#[derive(Clone, Copy)]
enum Token {
    Literal(u8),
    Repeat(u16, u16),
}

/// The bytes compressed.
pub fn deflate(bytes: &[u8]) -> Vec<u8> {
    let mut bits = Bits {
        bytes: vec![0x78, 0x9c],
        held: 0,
        count: 0,
    };
    let mut finder = Finder::new();
    let mut tokens = Vec::with_capacity(BLOCK);
    let mut at = 0;
    while at < bytes.len() {
        let token = finder.next(bytes, at);
        at += match token {
            Token::Literal(_) => 1,
            Token::Repeat(length, _) => usize::from(length),
        };
        tokens.push(token);
        if tokens.len() == BLOCK {
            block(&mut bits, &tokens, false);
            tokens.clear();
        }
    }
    block(&mut bits, &tokens, true);
    let mut file = bits.ended();
    file.extend(adler32(bytes).to_be_bytes());
    file
}

/// Finds repetitions by where bytes stood before.
struct Finder {
    /// By the hash of the next four bytes: the last place where such stood, and one more.
    last: Vec<u32>,
    /// By a place: the one before it of the same hash, and one more.
    before: Vec<u32>,
    /// The place from which on none is noted.
    noted: usize,
}

impl Finder {
    fn new() -> Finder {
        Finder {
            last: vec![0; 1 << 15],
            before: vec![0; WINDOW],
            noted: 0,
        }
    }

    /// The token that begins at this place.
    fn next(&mut self, bytes: &[u8], at: usize) -> Token {
        self.note(bytes, at);
        let Some(hash) = hash(bytes, at) else {
            return Token::Literal(bytes[at]);
        };
        let (mut best, mut place) = ((0, 0), self.last[hash]);
        for _ in 0..LOOKS {
            let Some(start) = (place as usize)
                .checked_sub(1)
                .filter(|start| at - start <= WINDOW)
            else {
                break;
            };
            best = best.max((common(bytes, start, at), start));
            if best.0 == LONGEST {
                break;
            }
            place = self.before[start % WINDOW];
        }
        match best {
            (length, start) if length >= SHORTEST => {
                Token::Repeat(length as u16, (at - start) as u16)
            }
            _ => Token::Literal(bytes[at]),
        }
    }

    /// Notes the places before this one.
    fn note(&mut self, bytes: &[u8], at: usize) {
        for place in self.noted..at {
            if let Some(hash) = hash(bytes, place) {
                self.before[place % WINDOW] = self.last[hash];
                self.last[hash] = place as u32 + 1;
            }
        }
        self.noted = at;
    }
}

/// A number of 15 bits for the four bytes at this place, where there are as many.
fn hash(bytes: &[u8], at: usize) -> Option<usize> {
    let four = bytes.get(at..)?.first_chunk()?;
    Some((u32::from_le_bytes(*four).wrapping_mul(0x9e37_79b1) >> 17) as usize)
}

/// How many bytes are the same at both places.
fn common(bytes: &[u8], start: usize, at: usize) -> usize {
    let pairs = bytes[start..].iter().zip(&bytes[at..]).take(LONGEST);
    pairs.take_while(|(a, b)| a == b).count()
}

/// The last symbol of a table whose base is at most the number, and by how much.
fn symbol(table: &[(u16, u8)], number: u16) -> (usize, u16, u8) {
    let index = table.partition_point(|(base, _)| *base <= number) - 1;
    let (base, more) = table[index];
    (index, number - base, more)
}

/// Writes a block with codes of its own.
fn block(bits: &mut Bits, tokens: &[Token], last: bool) {
    let (mut literals, mut distances) = ([0; 286], [0; 30]);
    // Two codes at least, as every reader wants them.
    (literals[0], literals[256]) = (1, 1);
    distances[..2].fill(1);
    for token in tokens {
        match *token {
            Token::Literal(byte) => literals[usize::from(byte)] += 1,
            Token::Repeat(length, distance) => {
                literals[257 + symbol(&LENGTHS, length).0] += 1;
                distances[symbol(&DISTANCES, distance).0] += 1;
            }
        }
    }
    let lengths = [code_lengths(&literals, 15), code_lengths(&distances, 15)];
    bits.put(u32::from(last) | 2 << 1, 3);
    put_codes(bits, &lengths.concat());
    let [literals, distances] = lengths.map(|lengths| codes(&lengths));
    for token in tokens {
        match *token {
            Token::Literal(byte) => bits.put_code(literals[usize::from(byte)]),
            Token::Repeat(length, distance) => {
                let (index, rest, more) = symbol(&LENGTHS, length);
                bits.put_code(literals[257 + index]);
                bits.put(rest.into(), more);
                let (index, rest, more) = symbol(&DISTANCES, distance);
                bits.put_code(distances[index]);
                bits.put(rest.into(), more);
            }
        }
    }
    bits.put_code(literals[256]);
}

/// Writes the lengths of both codes, in a code of their own.
fn put_codes(bits: &mut Bits, lengths: &[u8]) {
    let mut counts = [0; 19];
    lengths
        .iter()
        .for_each(|&length| counts[usize::from(length)] += 1);
    let own = code_lengths(&counts, 7);
    bits.put(286 - 257, 5);
    bits.put(30 - 1, 5);
    bits.put(19 - 4, 4);
    ORDER
        .iter()
        .for_each(|&place| bits.put(own[place].into(), 3));
    let own = codes(&own);
    lengths
        .iter()
        .for_each(|&length| bits.put_code(own[usize::from(length)]));
}

/// The lengths of Huffman's code for symbols that stand so often, two of them or more; at most `limit` bits.
fn code_lengths(counts: &[u32], limit: u8) -> Vec<u8> {
    let mut counts = counts.to_vec();
    loop {
        let lengths = huffman(&counts);
        if lengths.iter().all(|&length| length <= limit) {
            return lengths;
        }
        // Counts that are closer to each other make codes that are.
        let halved = |count: &mut u32| *count = count.div_ceil(2);
        counts.iter_mut().for_each(halved);
    }
}

/// The lengths without a limit: twice the least are joined until one is left.
fn huffman(counts: &[u32]) -> Vec<u8> {
    use std::cmp::Reverse;
    let used = counts.iter().enumerate().filter(|(_, count)| **count > 0);
    let mut heap: std::collections::BinaryHeap<_> = used
        .map(|(symbol, &count)| Reverse((count, symbol)))
        .collect();
    let mut parents = vec![0; counts.len()];
    while let (Some(Reverse((a, left))), Some(Reverse((b, right)))) = (heap.pop(), heap.pop()) {
        let joined = parents.len();
        (parents[left], parents[right]) = (joined, joined);
        parents.push(0);
        heap.push(Reverse((a + b, joined)));
    }
    // A parent comes behind its children, and the last one is the root.
    let mut depths = vec![0u8; parents.len()];
    for node in (0..parents.len() - 1).rev() {
        if parents[node] > 0 {
            depths[node] = depths[parents[node]].saturating_add(1);
        }
    }
    depths.truncate(counts.len());
    depths
}

/// The canonical codes of these lengths, their first bit lowest, and the lengths.
fn codes(lengths: &[u8]) -> Vec<(u32, u8)> {
    let mut codes = vec![(0, 0); lengths.len()];
    let mut next = 0u32;
    for length in 1..=15 {
        for (code, _) in codes
            .iter_mut()
            .zip(lengths)
            .filter(|(_, own)| **own == length)
        {
            *code = (next.reverse_bits() >> (32 - length), length);
            next += 1;
        }
        next <<= 1;
    }
    codes
}

/// Bits from the lowest of each byte on.
struct Bits {
    bytes: Vec<u8>,
    held: u64,
    count: u8,
}

impl Bits {
    fn put(&mut self, value: u32, count: u8) {
        self.held |= u64::from(value) << self.count;
        self.count += count;
        while self.count >= 8 {
            self.bytes.push(self.held as u8);
            self.held >>= 8;
            self.count -= 8;
        }
    }

    fn put_code(&mut self, (code, length): (u32, u8)) {
        self.put(code, length);
    }

    /// The bytes, the last one filled up with zeros.
    fn ended(mut self) -> Vec<u8> {
        self.put(0, (8 - self.count) % 8);
        self.bytes
    }
}

#[cfg(test)]
mod tests {
    use super::super::inflate::inflate;
    use super::*;

    /// Holds what is made of the bytes to the reader.
    fn back_again(bytes: &[u8]) -> usize {
        let zlib = deflate(bytes);
        assert!(inflate(&zlib, bytes.len()) == Ok(bytes.to_vec()));
        zlib.len()
    }

    #[test]
    fn short_ones() {
        for length in 0..40 {
            back_again(&vec![5; length]);
            back_again(&(0..length as u8).collect::<Vec<_>>());
        }
    }

    #[test]
    fn repetitions_of_every_length_and_far_distances() {
        let filler: Vec<u8> = (0..40_000u32).map(|i| (i * i / 255) as u8).collect();
        for length in 1..=600 {
            back_again(&[&filler[..length], &[1, 2, 3], &filler[..length]].concat());
        }
        for distance in [32_767, 32_768, 32_769, 39_000] {
            back_again(&[&filler[..distance], &filler[..300]].concat());
        }
    }

    #[test]
    fn several_blocks() {
        let mut state = 1u32;
        let mut next = || {
            state = state.wrapping_mul(1_664_525).wrapping_add(1_013_904_223);
            (state >> 24) as u8
        };
        let noise: Vec<u8> = (0..3 * BLOCK + 17).map(|_| next()).collect();
        assert!(back_again(&noise) > noise.len());
        let flat = vec![9; 100_000];
        assert!(back_again(&flat) < 1_000);
    }

    /// Counts for which codes without a limit would be 24 bits long.
    #[test]
    fn codes_have_a_limit() {
        let mut counts = [1u32; 25];
        for i in 2..25 {
            counts[i] = counts[i - 1] + counts[i - 2];
        }
        assert_eq!(huffman(&counts).into_iter().max(), Some(24));
        for limit in [7, 15] {
            let lengths = code_lengths(&counts, limit);
            assert!(lengths.iter().all(|length| (1..=limit).contains(length)));
            let taken: u32 = lengths.iter().map(|length| 1 << (15 - length)).sum();
            assert_eq!(taken, 1 << 15, "no code is left over");
        }
    }
}
