//! Writes a picture as a PNG of 8 bits, with alpha where a pixel is not opaque.

use super::deflate::deflate;
use super::{SIGNATURE, crc32, paeth};
use crate::picture::Picture;

/// The file of the picture.
pub fn write(picture: &Picture) -> Vec<u8> {
    let opaque = picture.sheet.chunks_exact(4).all(|pixel| pixel[3] == 255);
    let channels = if opaque { 3 } else { 4 };
    let mut header = [picture.width.to_be_bytes(), picture.height.to_be_bytes()].concat();
    let colour = if opaque { 2 } else { 6 };
    header.extend([8, colour, 0, 0, 0]);
    let mut file = SIGNATURE.to_vec();
    push_chunk(&mut file, b"IHDR", &header);
    push_chunk(&mut file, b"IDAT", &deflate(&filtered(picture, channels)));
    push_chunk(&mut file, b"IEND", &[]);
    file
}

/// Adds a chunk with its length and its checksum.
pub fn push_chunk(file: &mut Vec<u8>, kind: &[u8; 4], body: &[u8]) {
    file.extend((body.len() as u32).to_be_bytes());
    let start = file.len();
    file.extend(kind);
    file.extend(body);
    let sum = crc32(&file[start..]);
    file.extend(sum.to_be_bytes());
}

/// Each row behind the number of its filter: the one whose differences are the smallest.
fn filtered(picture: &Picture, channels: usize) -> Vec<u8> {
    let row = 4 * picture.width as usize;
    let mut lines = Vec::with_capacity(picture.sheet.len() + picture.height as usize);
    let mut above = vec![0; row / 4 * channels];
    let mut tried: [Vec<u8>; 5] = Default::default();
    for pixels in picture.sheet.chunks_exact(row) {
        let line: Vec<u8> = pixels
            .chunks_exact(4)
            .flat_map(|p| &p[..channels])
            .copied()
            .collect();
        for (filter, bytes) in tried.iter_mut().enumerate() {
            bytes.clear();
            bytes.extend(differences(filter, channels, &line, &above));
        }
        let best = (0..5)
            .min_by_key(|&filter| size(&tried[filter]))
            .unwrap_or(0);
        lines.push(best as u8);
        lines.extend(&tried[best]);
        above = line;
    }
    lines
}

/// The bytes of a row less what the filter predicts.
fn differences(filter: usize, pixel: usize, line: &[u8], above: &[u8]) -> impl Iterator<Item = u8> {
    line.iter().enumerate().map(move |(i, &byte)| {
        let (left, corner) = match i.checked_sub(pixel) {
            Some(before) => (line[before], above[before]),
            None => (0, 0),
        };
        byte.wrapping_sub(match filter {
            0 => 0,
            1 => left,
            2 => above[i],
            3 => ((u16::from(left) + u16::from(above[i])) / 2) as u8,
            _ => paeth(left, above[i], corner),
        })
    })
}

/// How far the differences are from 0, in sum.
fn size(differences: &[u8]) -> u64 {
    let far = |byte: &u8| u64::from((*byte as i8).unsigned_abs());
    differences.iter().map(far).sum()
}
