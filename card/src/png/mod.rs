//! PNG, read and written with nothing but these files.

mod deflate;
mod inflate;
mod read;
mod write;

pub use read::read;
pub use write::write;

/// What every PNG begins with.
pub const SIGNATURE: [u8; 8] = *b"\x89PNG\r\n\x1a\n";

/// CRC-32 of each byte alone.
const CRCS: [u32; 256] = {
    let mut table = [0; 256];
    let mut i = 0;
    while i < 256 {
        let (mut crc, mut bit) = (i as u32, 0);
        while bit < 8 {
            crc = if crc & 1 == 1 {
                0xedb8_8320 ^ (crc >> 1)
            } else {
                crc >> 1
            };
            bit += 1;
        }
        table[i] = crc;
        i += 1;
    }
    table
};

/// The checksum of a chunk.
fn crc32(bytes: &[u8]) -> u32 {
    let step = |crc: u32, byte: &u8| CRCS[(crc as u8 ^ byte) as usize] ^ (crc >> 8);
    !bytes.iter().fold(!0, step)
}

/// The checksum of what is compressed.
fn adler32(bytes: &[u8]) -> u32 {
    let (mut a, mut b) = (1u32, 0u32);
    // So many sums stay below 2^32.
    for part in bytes.chunks(5552) {
        for byte in part {
            a += u32::from(*byte);
            b += a;
        }
        (a, b) = (a % 65521, b % 65521);
    }
    b << 16 | a
}

/// The neighbour, left, above or upper left, that PNG's fifth filter predicts by.
fn paeth(left: u8, above: u8, corner: u8) -> u8 {
    let [a, b, c] = [left, above, corner].map(i16::from);
    let [to_a, to_b, to_c] = [(b - c).abs(), (a - c).abs(), (a + b - 2 * c).abs()];
    if to_a <= to_b && to_a <= to_c {
        left
    } else if to_b <= to_c {
        above
    } else {
        corner
    }
}

#[cfg(test)]
mod tests {
    use super::*;
    use crate::picture::Picture;

    #[test]
    fn checksums() {
        assert_eq!(crc32(b"123456789"), 0xcbf4_3926);
        assert_eq!(adler32(b"123456789"), 0x091e_01de);
        assert_eq!(adler32(&[255; 100_000]), 0x149a_302c);
    }

    #[test]
    fn paeth_takes_the_nearest() {
        assert_eq!(paeth(10, 20, 10), 20);
        assert_eq!(paeth(10, 20, 20), 10);
        assert_eq!(paeth(10, 30, 20), 20);
        assert_eq!(paeth(5, 5, 5), 5);
    }

    /// Pixels that nothing predicts.
    fn noise(count: usize) -> Vec<u8> {
        let mut state = 1u32;
        let mut next = || {
            state = state.wrapping_mul(1_664_525).wrapping_add(1_013_904_223);
            (state >> 24) as u8
        };
        (0..count).map(|_| next()).collect()
    }

    #[test]
    fn what_is_written_is_read_again() {
        for (width, height) in [(1, 1), (1, 300), (300, 1), (67, 41), (333, 129)] {
            let count = 4 * (width * height) as usize;
            let shades = (0..count).map(|i| (i / 16 + i % 4 * 60) as u8).collect();
            let opaque = noise(count)
                .chunks_exact(4)
                .flat_map(|p| [p[0], p[1], p[2], 255])
                .collect();
            for sheet in [vec![0; count], noise(count), shades, opaque] {
                let picture = Picture {
                    width,
                    height,
                    sheet,
                };
                assert!(read(&write(&picture)) == Ok(picture), "{width} x {height}");
            }
        }
    }

    #[test]
    fn flat_and_smooth_pictures_become_small() {
        let sheet = |pixel: fn(u32) -> [u8; 4]| (0..256 * 256).flat_map(pixel).collect();
        let size = |sheet| {
            let (width, height) = (256, 256);
            write(&Picture {
                width,
                height,
                sheet,
            })
            .len()
        };
        assert!(size(sheet(|_| [200, 30, 40, 255])) < 1_000);
        assert!(size(sheet(|i| [i as u8, (i / 256) as u8, 90, 255])) < 3_000);
        let rough = |i: u32| {
            [
                (i * i / 977) as u8 % 16,
                i as u8 % 7,
                (i / 3) as u8 % 5,
                255,
            ]
        };
        assert!(size(sheet(rough)) < 256 * 256 * 3);
    }
}
