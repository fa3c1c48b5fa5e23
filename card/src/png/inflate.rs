//! Takes deflate's compression away, in zlib's wrapping (RFC 1950 and 1951).

use super::adler32;

/// Codes of up to so many bits are found in one look.
const QUICK: u32 = 10;
const ENDS: &str = "the compressed pixels end early";

/// For each symbol of a length from 257 on: its least length and how many bits follow.
pub const LENGTHS: [(u16, u8); 29] = steps([3, 258], 8, 4);
/// The same for distances.
pub const DISTANCES: [(u16, u8); 30] = steps([1, 0], 4, 2);

/// The bases and bits of deflate's two tables: after the first `plain` symbols each group of `group` symbols
/// has one bit more. The table of lengths ends in the one that stands alone, 258 without bits.
const fn steps<const N: usize>(ends: [u16; 2], plain: usize, group: usize) -> [(u16, u8); N] {
    let mut table = [(0, 0); N];
    let (mut i, mut base) = (0, ends[0]);
    while i < N {
        let bits = if i < plain {
            0
        } else {
            (i - plain) / group + 1
        };
        table[i] = (base, bits as u8);
        base = base.wrapping_add(1 << bits);
        i += 1;
    }
    if ends[1] > 0 {
        table[N - 1] = (ends[1], 0);
    }
    table
}

/// The order in which the lengths of the code of lengths stand.
pub const ORDER: [usize; 19] = [
    16, 17, 18, 0, 8, 7, 9, 6, 10, 5, 11, 4, 12, 3, 13, 2, 14, 1, 15,
];

/// The bytes that were compressed, which must be exactly so many.
pub fn inflate(zlib: &[u8], length: usize) -> Result<Vec<u8>, &'static str> {
    let [method, flags, rest @ ..] = zlib else {
        return Err(ENDS);
    };
    let head = u16::from_be_bytes([*method, *flags]);
    if method & 0x0f != 8 || method >> 4 > 7 || head % 31 != 0 || flags & 0x20 != 0 {
        return Err("the pixels are not compressed as PNG has it");
    }
    let mut bits = Bits::new(rest);
    let mut out = Vec::with_capacity(length);
    while !block(&mut bits, &mut out, length)? {}
    if out.len() < length {
        return Err("fewer pixels are there than the header says");
    }
    let sum = bits.rest().first_chunk().ok_or(ENDS)?;
    match u32::from_be_bytes(*sum) == adler32(&out) {
        true => Ok(out),
        false => Err("the pixels' checksum is wrong"),
    }
}

/// Reads a block, and says whether it is the last one.
fn block(bits: &mut Bits, out: &mut Vec<u8>, length: usize) -> Result<bool, &'static str> {
    let last = bits.take(1)? == 1;
    match bits.take(2)? {
        0 => stored(bits, out, length)?,
        1 => compressed(bits, out, length, &fixed()?)?,
        2 => {
            let codes = dynamic(bits)?;
            compressed(bits, out, length, &codes)?
        }
        _ => return Err("the compressed pixels have a block of an unknown kind"),
    }
    Ok(last)
}

/// A block of bytes as they are.
fn stored(bits: &mut Bits, out: &mut Vec<u8>, length: usize) -> Result<(), &'static str> {
    let rest = bits.rest();
    let [a, b, c, d, bytes @ ..] = rest else {
        return Err(ENDS);
    };
    let count = u16::from_le_bytes([*a, *b]);
    if count != !u16::from_le_bytes([*c, *d]) {
        return Err("the compressed pixels have a block of a wrong length");
    }
    let bytes = bytes.get(..count.into()).ok_or(ENDS)?;
    room(out, bytes.len(), length)?;
    out.extend(bytes);
    *bits = Bits::new(&rest[4 + bytes.len()..]);
    Ok(())
}

/// Says so where `more` bytes are too many.
fn room(out: &[u8], more: usize, length: usize) -> Result<(), &'static str> {
    match out.len() + more <= length {
        true => Ok(()),
        false => Err("more pixels are there than the header says"),
    }
}

/// The codes of literals with lengths, and of distances.
type Codes = (Code, Code);

/// The codes that need not be sent.
fn fixed() -> Result<Codes, &'static str> {
    let mut lengths = [8; 288];
    lengths[144..256].fill(9);
    lengths[256..280].fill(7);
    Ok((Code::new(&lengths)?, Code::new(&[5; 32])?))
}

/// The codes that a block begins with.
fn dynamic(bits: &mut Bits) -> Result<Codes, &'static str> {
    let literals = bits.take(5)? as usize + 257;
    let distances = bits.take(5)? as usize + 1;
    let mut lengths = [0; 19];
    for place in &ORDER[..bits.take(4)? as usize + 4] {
        lengths[*place] = bits.take(3)? as u8;
    }
    let lengths = sent_lengths(bits, &Code::new(&lengths)?, literals + distances)?;
    if lengths[256] == 0 {
        return Err("the compressed pixels have a block without an end");
    }
    let (literals, distances) = lengths.split_at(literals);
    Ok((Code::new(literals)?, Code::new(distances)?))
}

/// So many lengths of codes, runs of which are sent as one.
fn sent_lengths(bits: &mut Bits, code: &Code, count: usize) -> Result<Vec<u8>, &'static str> {
    let mut lengths = Vec::with_capacity(count);
    while lengths.len() < count {
        let (length, times) = match code.next(bits)? {
            16 => {
                let before = lengths.last().copied();
                (
                    before.ok_or("a code begins with a repetition")?,
                    3 + bits.take(2)?,
                )
            }
            17 => (0, 3 + bits.take(3)?),
            18 => (0, 11 + bits.take(7)?),
            length => (length as u8, 1),
        };
        lengths.resize(lengths.len() + times as usize, length);
    }
    match lengths.len() == count {
        true => Ok(lengths),
        false => Err("the compressed pixels have too many lengths of codes"),
    }
}

/// The literals and the repetitions of a block.
fn compressed(
    bits: &mut Bits,
    out: &mut Vec<u8>,
    length: usize,
    (literals, distances): &Codes,
) -> Result<(), &'static str> {
    let unknown = "the compressed pixels have an unknown code";
    loop {
        let symbol = literals.next(bits)?;
        match symbol {
            0..256 => {
                room(out, 1, length)?;
                out.push(symbol as u8);
            }
            256 => return Ok(()),
            _ => {
                let (base, more) = *LENGTHS.get(usize::from(symbol) - 257).ok_or(unknown)?;
                let count = usize::from(base) + bits.take(more.into())? as usize;
                let symbol = usize::from(distances.next(bits)?);
                let (base, more) = *DISTANCES.get(symbol).ok_or(unknown)?;
                let distance = usize::from(base) + bits.take(more.into())? as usize;
                room(out, count, length)?;
                repeat(out, distance, count)?;
            }
        }
    }
}

/// Adds so many bytes that stand `distance` before; they may be among those that are added.
fn repeat(out: &mut Vec<u8>, distance: usize, count: usize) -> Result<(), &'static str> {
    let start = out.len().checked_sub(distance);
    let start = start.ok_or("the compressed pixels repeat what was not there")?;
    if distance >= count {
        out.extend_from_within(start..start + count);
    } else {
        (start..start + count).for_each(|at| out.push(out[at]));
    }
    Ok(())
}

/// A canonical Huffman code.
struct Code {
    /// By the next bits: a symbol and, in the lowest four bits, its code's length; 0 where that is longer.
    quick: Vec<u16>,
    /// How many codes there are of each length.
    counts: [u16; 16],
    /// The symbols by their codes.
    symbols: Vec<u16>,
}

impl Code {
    /// By the lengths of the symbols' codes; 0 is no code.
    fn new(lengths: &[u8]) -> Result<Code, &'static str> {
        let mut counts = [0; 16];
        lengths.iter().for_each(|&n| counts[usize::from(n)] += 1);
        counts[0] = 0;
        let used: u16 = counts.iter().sum();
        let free = (1..16).try_fold(1u32, |free, n| (2 * free).checked_sub(counts[n].into()));
        // A single code, or none, leaves some free.
        if free.is_none_or(|free| free > 0 && used > 1) {
            return Err("the compressed pixels have a code that cannot be");
        }
        let mut symbols: Vec<u16> = (0..lengths.len() as u16).collect();
        symbols.retain(|&symbol| lengths[usize::from(symbol)] > 0);
        symbols.sort_by_key(|&symbol| lengths[usize::from(symbol)]);
        let quick = quick(&symbols, lengths);
        Ok(Code {
            quick,
            counts,
            symbols,
        })
    }

    /// The symbol of the next code.
    fn next(&self, bits: &mut Bits) -> Result<u16, &'static str> {
        let entry = self.quick[bits.look(QUICK)];
        if entry == 0 {
            return self.next_long(bits);
        }
        bits.take(u32::from(entry & 15))?;
        Ok(entry >> 4)
    }

    /// The same bit by bit: codes of a length follow one another.
    fn next_long(&self, bits: &mut Bits) -> Result<u16, &'static str> {
        let (mut code, mut first, mut index) = (0u32, 0u32, 0u32);
        for count in self.counts[1..].iter().map(|&count| u32::from(count)) {
            code = 2 * code + bits.take(1)?;
            first *= 2;
            if code < first + count {
                return Ok(self.symbols[(index + code - first) as usize]);
            }
            (index, first) = (index + count, first + count);
        }
        Err("the compressed pixels have an unknown code")
    }
}

/// The table of short codes; `symbols` are in the order of their codes, which stand highest bit first.
fn quick(symbols: &[u16], lengths: &[u8]) -> Vec<u16> {
    let mut table = vec![0; 1 << QUICK];
    let (mut code, mut before) = (0usize, 0);
    for &symbol in symbols {
        let length = u32::from(lengths[usize::from(symbol)]);
        if length > QUICK {
            break;
        }
        code <<= length - before;
        let start = code.reverse_bits() >> (usize::BITS - length);
        for entry in table[start..].iter_mut().step_by(1 << length) {
            *entry = symbol << 4 | length as u16;
        }
        (code, before) = (code + 1, length);
    }
    table
}

/// Bits from the lowest of each byte on.
struct Bits<'a> {
    bytes: &'a [u8],
    /// How many of the bytes are held or were.
    at: usize,
    held: u64,
    count: u32,
}

impl<'a> Bits<'a> {
    fn new(bytes: &'a [u8]) -> Bits<'a> {
        Bits {
            bytes,
            at: 0,
            held: 0,
            count: 0,
        }
    }

    /// Holds more than 56 bits, where there are as many.
    fn fill(&mut self) {
        while self.count <= 56 {
            let Some(byte) = self.bytes.get(self.at) else {
                return;
            };
            self.held |= u64::from(*byte) << self.count;
            (self.at, self.count) = (self.at + 1, self.count + 8);
        }
    }

    /// The next bits, which stay; beyond the end they are 0.
    fn look(&mut self, count: u32) -> usize {
        if self.count < count {
            self.fill();
        }
        (self.held & ((1 << count) - 1)) as usize
    }

    fn take(&mut self, count: u32) -> Result<u32, &'static str> {
        let bits = self.look(count) as u32;
        self.count = self.count.checked_sub(count).ok_or(ENDS)?;
        self.held >>= count;
        Ok(bits)
    }

    /// The bytes from the next whole one on.
    fn rest(&self) -> &'a [u8] {
        &self.bytes[self.at - (self.count / 8) as usize..]
    }
}

#[cfg(test)]
mod tests {
    use super::*;

    /// Bytes of a message in hexadecimal digits.
    fn hex(digits: &str) -> Vec<u8> {
        let byte = |i| u8::from_str_radix(&digits[i..i + 2], 16).expect("two digits");
        (0..digits.len()).step_by(2).map(byte).collect()
    }

    const RING: &[u8] = b"a life ring, a life ring, a life ring over the sea";
    /// What zlib makes of it, in a block of fixed codes and in a stored one.
    const FIXED: &str =
        "78014b54c8c94c4b5528cacc4bd75148c4c151c82f4b2d5228c94855284e4d0400a9d51102";
    const STORED: &str = "7801013200cdff61206c6966652072696e672c2061206c6966652072696e672c2061206c6966\
                          652072696e67206f7665722074686520736561a9d51102";

    #[test]
    fn the_tables_are_those_of_the_standard() {
        assert_eq!(LENGTHS[7..9], [(10, 0), (11, 1)]);
        assert_eq!(LENGTHS[27..], [(227, 5), (258, 0)]);
        assert_eq!(DISTANCES[3..5], [(4, 0), (5, 1)]);
        assert_eq!(DISTANCES[28..], [(16385, 13), (24577, 13)]);
    }

    #[test]
    fn fixed_and_stored_blocks() {
        for zlib in [FIXED, STORED] {
            assert_eq!(inflate(&hex(zlib), RING.len()), Ok(RING.to_vec()));
        }
    }

    /// Sixteen bytes as often as Fibonacci's numbers say, for which zlib makes codes of up to 15 bits.
    #[test]
    fn long_codes() {
        let counts = [
            1, 1, 2, 3, 5, 8, 13, 21, 34, 55, 89, 144, 233, 377, 610, 987,
        ];
        let bytes: Vec<u8> = (0..16).flat_map(|i| vec![i; counts[i as usize]]).collect();
        let zlib = include_bytes!("tests/long_codes.zlib");
        assert_eq!(inflate(zlib, bytes.len()), Ok(bytes));
    }

    #[test]
    fn a_repetition_of_what_it_adds() {
        let zlib = hex("78da63671f05a360140c7700007c8f1b59");
        assert_eq!(inflate(&zlib, 1000), Ok(vec![7; 1000]));
        let told = inflate(&zlib, 999);
        assert_eq!(told, Err("more pixels are there than the header says"));
        let told = inflate(&zlib, 1001);
        assert_eq!(told, Err("fewer pixels are there than the header says"));
    }

    #[test]
    fn every_cut_is_told() {
        let long = include_bytes!("tests/long_codes.zlib").to_vec();
        for (zlib, length) in [(hex(FIXED), 50), (hex(STORED), 50), (long, 2583)] {
            for end in 0..zlib.len() {
                assert_eq!(inflate(&zlib[..end], length), Err(ENDS), "{end}");
            }
        }
    }

    #[test]
    fn wrong_streams() {
        for (zlib, length, said) in [
            ("7901", 1, "not compressed as PNG has it"),
            ("789c07", 1, "a block of an unknown kind"),
            ("789c0101000000", 1, "a block of a wrong length"),
            // The first thing is a repetition.
            ("789c038200", 9, "repeat what was not there"),
            // Lengths of codes 1, 1 and 1.
            ("789c05009200", 1, "a code that cannot be"),
            ("78014b04000000000000", 1, "checksum is wrong"),
        ] {
            let told = inflate(&hex(zlib), length).expect_err(zlib);
            assert!(told.contains(said), "{zlib}: {told}");
        }
    }

    /// Bytes of any kind are read or refused, and never end the program.
    #[test]
    fn any_bytes_get_an_answer() {
        let mut state = 7u32;
        for (start, bytes) in [(2, hex(FIXED)), (2, hex(STORED))] {
            for _ in 0..20_000 {
                let mut zlib = bytes.clone();
                state = state.wrapping_mul(1_664_525).wrapping_add(1_013_904_223);
                let at = start + (state >> 8) as usize % (zlib.len() - start);
                zlib[at] = (state >> 24) as u8;
                if let Ok(out) = inflate(&zlib, RING.len()) {
                    assert_eq!(out, RING);
                }
            }
        }
    }
}
