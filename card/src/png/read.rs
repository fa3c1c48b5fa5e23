//! Reads every kind of PNG into straight colour of 8 bits.

use super::inflate::inflate;
use super::{SIGNATURE, crc32, paeth};
use crate::picture::{Picture, test_sides, to_byte};

/// Where Adam7's passes begin, and the steps from one of their pixels to the next: x, y, and both steps.
const ADAM7: [[usize; 4]; 7] = [
    [0, 0, 8, 8],
    [4, 0, 8, 8],
    [0, 4, 4, 8],
    [2, 0, 4, 4],
    [0, 2, 2, 4],
    [1, 0, 2, 2],
    [0, 1, 1, 2],
];

/// What the chunks say.
#[derive(Default)]
struct File {
    header: Option<Header>,
    /// Red, green and blue of each entry.
    palette: Vec<u8>,
    /// The alphas of the palette, or the one colour that is clear.
    clear: Option<Vec<u8>>,
    compressed: Vec<u8>,
}

#[derive(Clone, Copy)]
struct Header {
    width: usize,
    height: usize,
    /// Bits of a sample.
    depth: usize,
    /// PNG's number: 0 grey, 2 colour, 3 palette, 4 grey with alpha, 6 colour with alpha.
    colour: u8,
    interlaced: bool,
}

/// The picture that the file is; the error says what is wrong with it.
pub fn read(bytes: &[u8]) -> Result<Picture, String> {
    let file = chunks(bytes)?;
    let header = file.header.ok_or("the PNG has no header")?;
    if header.colour == 3 && file.palette.is_empty() {
        return Err("a PNG of palette colours without a palette".to_string());
    }
    let length = header
        .passes()
        .iter()
        .map(|pass| header.pass_bytes(pass))
        .sum();
    let mut raw =
        inflate(&file.compressed, length).map_err(|what| format!("a damaged PNG: {what}"))?;
    let mut sheet = vec![0; 4 * header.width * header.height];
    let mut rest = &mut raw[..];
    for pass in header.passes() {
        let (part, after) = rest.split_at_mut(header.pass_bytes(pass));
        header.draw(&file, pass, part, &mut sheet)?;
        rest = after;
    }
    Ok(Picture {
        width: header.width as u32,
        height: header.height as u32,
        sheet,
    })
}

/// Takes in the chunks up to IEND.
fn chunks(bytes: &[u8]) -> Result<File, String> {
    let mut rest = bytes.strip_prefix(&SIGNATURE).ok_or("no PNG")?;
    let mut file = File::default();
    loop {
        let (kind, body, after) = chunk(rest)?;
        if file.header.is_none() && kind != b"IHDR" {
            return Err("a damaged PNG: it does not begin with a header".to_string());
        }
        match kind {
            b"IHDR" => file.header = Some(Header::new(body)?),
            b"PLTE" => file.palette = body.to_vec(),
            b"tRNS" => file.clear = Some(body.to_vec()),
            b"IDAT" => file.compressed.extend(body),
            b"IEND" => return Ok(file),
            // A capital letter says that the picture cannot be shown without it.
            [first, ..] if first.is_ascii_uppercase() => {
                let name = kind.escape_ascii();
                return Err(format!("the PNG has a chunk {name}, which is not known"));
            }
            _ => {}
        }
        rest = after;
    }
}

/// A chunk's kind and body, and what follows it.
type Chunk<'a> = (&'a [u8; 4], &'a [u8], &'a [u8]);

/// The first chunk.
fn chunk(bytes: &[u8]) -> Result<Chunk<'_>, String> {
    let ends = "a cut-off PNG: it ends within a chunk or without IEND";
    let (length, rest) = bytes.split_first_chunk().ok_or(ends)?;
    let length = u32::from_be_bytes(*length) as usize;
    let kind = rest.first_chunk().ok_or(ends)?;
    let (whole, after) = rest.split_at_checked(length + 4).ok_or(ends)?;
    let (sum, after) = after.split_first_chunk().ok_or(ends)?;
    if u32::from_be_bytes(*sum) != crc32(whole) {
        let name = kind.escape_ascii();
        return Err(format!(
            "a damaged PNG: the checksum of its chunk {name} is wrong"
        ));
    }
    Ok((kind, &whole[4..], after))
}

/// The bits that samples of this colour may have.
fn depths(colour: u8) -> &'static [u8] {
    match colour {
        0 => &[1, 2, 4, 8, 16],
        3 => &[1, 2, 4, 8],
        2 | 4 | 6 => &[8, 16],
        _ => &[],
    }
}

impl Header {
    fn new(body: &[u8]) -> Result<Header, String> {
        let &[
            a,
            b,
            c,
            d,
            e,
            f,
            g,
            h,
            depth,
            colour,
            compression,
            filter,
            interlace,
        ] = body
        else {
            return Err("a damaged PNG: its header has a wrong length".to_string());
        };
        let [width, height] = [[a, b, c, d], [e, f, g, h]].map(u32::from_be_bytes);
        let [w, h] = [width, height].map(|side| side.to_string());
        test_sides((&w, width.into()), (&h, height.into()))?;
        if !depths(colour).contains(&depth) || compression != 0 || filter != 0 || interlace > 1 {
            return Err(
                "a damaged PNG: its header has a number that PNG does not know".to_string(),
            );
        }
        Ok(Header {
            width: width as usize,
            height: height as usize,
            depth: depth.into(),
            colour,
            interlaced: interlace == 1,
        })
    }

    fn channels(&self) -> usize {
        match self.colour {
            2 => 3,
            4 => 2,
            6 => 4,
            _ => 1,
        }
    }

    fn passes(&self) -> &'static [[usize; 4]] {
        match self.interlaced {
            true => &ADAM7,
            false => &[[0, 0, 1, 1]],
        }
    }

    /// The columns and rows of a pass; none where it has no pixel.
    fn pass_sides(&self, &[x, y, across, down]: &[usize; 4]) -> (usize, usize) {
        let columns = self.width.saturating_sub(x).div_ceil(across);
        let rows = self.height.saturating_sub(y).div_ceil(down);
        if columns == 0 {
            (0, 0)
        } else {
            (columns, rows)
        }
    }

    /// The bytes of so many pixels of a row.
    fn row_bytes(&self, columns: usize) -> usize {
        (columns * self.channels() * self.depth).div_ceil(8)
    }

    /// The bytes of a pass: each row stands behind the number of its filter.
    fn pass_bytes(&self, pass: &[usize; 4]) -> usize {
        let (columns, rows) = self.pass_sides(pass);
        rows * (1 + self.row_bytes(columns))
    }

    /// Draws a pass onto the sheet.
    fn draw(
        &self,
        file: &File,
        pass: &[usize; 4],
        raw: &mut [u8],
        sheet: &mut [u8],
    ) -> Result<(), String> {
        let (columns, _) = self.pass_sides(pass);
        let [x, y, across, down] = pass;
        let pixel_bytes = (self.channels() * self.depth).div_ceil(8);
        let mut above = vec![0; self.row_bytes(columns)];
        for (row, line) in raw.chunks_exact_mut(1 + above.len()).enumerate() {
            let (filter, line) = line.split_first_mut().expect("a filter's number");
            unfilter(*filter, pixel_bytes, line, &above)?;
            above.copy_from_slice(line);
            let start = self.width * (y + row * down) + x;
            for column in 0..columns {
                let at = 4 * (start + column * across);
                sheet[at..at + 4].copy_from_slice(&self.pixel(file, line, column)?);
            }
        }
        Ok(())
    }

    /// A sample of a row.
    fn sample(&self, line: &[u8], index: usize) -> u16 {
        match self.depth {
            16 => u16::from_be_bytes([line[2 * index], line[2 * index + 1]]),
            8 => line[index].into(),
            depth => {
                let place = index * depth;
                let shift = 8 - depth - place % 8;
                u16::from(line[place / 8] >> shift) & ((1 << depth) - 1)
            }
        }
    }

    /// r, g, b, a of the row's pixel.
    fn pixel(&self, file: &File, line: &[u8], column: usize) -> Result<[u8; 4], String> {
        let count = self.channels();
        let mut samples = [0; 4];
        for (channel, sample) in samples[..count].iter_mut().enumerate() {
            *sample = self.sample(line, count * column + channel);
        }
        if self.colour == 3 {
            return file.entry(samples[0].into());
        }
        let max = (1 << self.depth) - 1;
        let [a, b, c, d] = samples.map(|sample| to_byte(sample.into(), max));
        let alpha = if file.is_clear(&samples[..count]) {
            0
        } else {
            255
        };
        Ok(match self.colour {
            0 => [a, a, a, alpha],
            2 => [a, b, c, alpha],
            4 => [a, a, a, b],
            _ => [a, b, c, d],
        })
    }
}

impl File {
    /// A colour of the palette.
    fn entry(&self, index: usize) -> Result<[u8; 4], String> {
        let Some(&[r, g, b]) = self.palette.get(3 * index..3 * index + 3) else {
            return Err("a damaged PNG: a pixel has a colour that its palette has not".to_string());
        };
        let alphas = self.clear.as_deref().unwrap_or(&[]);
        Ok([r, g, b, alphas.get(index).copied().unwrap_or(255)])
    }

    /// Whether the samples are the one colour that is clear.
    fn is_clear(&self, samples: &[u16]) -> bool {
        let told = samples.iter().flat_map(|sample| sample.to_be_bytes());
        self.clear
            .as_ref()
            .is_some_and(|clear| told.eq(clear.iter().copied()))
    }
}

/// Adds to each byte what its filter predicts by the byte a pixel before, above, and above that one.
fn unfilter(filter: u8, pixel: usize, line: &mut [u8], above: &[u8]) -> Result<(), String> {
    if filter > 4 {
        return Err("a damaged PNG: a row has a filter that PNG does not know".to_string());
    }
    for i in 0..line.len() {
        let (left, corner) = match i.checked_sub(pixel) {
            Some(before) => (line[before], above[before]),
            None => (0, 0),
        };
        let predicted = match filter {
            0 => return Ok(()),
            1 => left,
            2 => above[i],
            3 => ((u16::from(left) + u16::from(above[i])) / 2) as u8,
            _ => paeth(left, above[i], corner),
        };
        line[i] = line[i].wrapping_add(predicted);
    }
    Ok(())
}

#[cfg(test)]
mod tests {
    use super::super::deflate::deflate;
    use super::super::write::push_chunk;
    use super::*;

    /// A chunk's kind and body.
    type Part<'a> = (&'a [u8; 4], &'a [u8]);

    fn header(width: u8, height: u8, depth: u8, colour: u8, interlace: u8) -> [u8; 13] {
        [
            0, 0, 0, width, 0, 0, 0, height, depth, colour, 0, 0, interlace,
        ]
    }

    fn file(parts: &[Part]) -> Vec<u8> {
        let mut file = SIGNATURE.to_vec();
        for (kind, body) in parts {
            push_chunk(&mut file, kind, body);
        }
        file
    }

    /// The pixels of a PNG with these chunks before the rows.
    fn pixels(header: [u8; 13], parts: &[Part], rows: &[u8]) -> Result<Vec<u8>, String> {
        let rows = deflate(rows);
        let head: [Part; 1] = [(b"IHDR", &header)];
        let tail: [Part; 2] = [(b"IDAT", &rows), (b"IEND", &[])];
        let file = file(&[&head, parts, &tail].concat());
        read(&file).map(|picture| picture.sheet)
    }

    #[test]
    fn grey_of_every_depth() {
        for (depth, rows, greys) in [
            (1, &[0, 0b0110_0000][..], [0, 255, 255]),
            (2, &[0, 0b00_01_10_00], [0, 85, 170]),
            (4, &[0, 0x0f, 0x20], [0, 255, 34]),
            (8, &[0, 7, 200, 9], [7, 200, 9]),
            (16, &[0, 0, 128, 0, 129, 255, 255], [0, 1, 255]),
        ] {
            let sheet: Vec<u8> = greys.iter().flat_map(|&g| [g, g, g, 255]).collect();
            assert_eq!(
                pixels(header(3, 1, depth, 0, 0), &[], rows),
                Ok(sheet),
                "{depth}"
            );
        }
    }

    #[test]
    fn colour_and_alpha() {
        let row = [0, 1, 2, 3, 4, 5, 6, 7, 8];
        assert_eq!(
            pixels(header(2, 1, 8, 6, 0), &[], &row),
            Ok(row[1..].to_vec())
        );
        let grey = pixels(header(2, 1, 8, 4, 0), &[], &row[..5]);
        assert_eq!(grey, Ok(vec![1, 1, 1, 2, 3, 3, 3, 4]));
        let wide = [0, 255, 255, 0, 0, 0, 128, 128, 0];
        assert_eq!(
            pixels(header(1, 1, 16, 6, 0), &[], &wide),
            Ok(vec![255, 0, 0, 128])
        );
    }

    #[test]
    fn the_clear_colour() {
        let clear: [Part; 1] = [(b"tRNS", &[0, 1, 0, 2, 0, 3])];
        let row = [0, 1, 2, 3, 1, 2, 4];
        let sheet = vec![1, 2, 3, 0, 1, 2, 4, 255];
        assert_eq!(pixels(header(2, 1, 8, 2, 0), &clear, &row), Ok(sheet));
        let clear: [Part; 1] = [(b"tRNS", &[0, 2])];
        let sheet = vec![85, 85, 85, 255, 170, 170, 170, 0];
        assert_eq!(
            pixels(header(2, 1, 2, 0, 0), &clear, &[0, 0b01_10_00_00]),
            Ok(sheet)
        );
    }

    #[test]
    fn a_palette() {
        let parts: [Part; 2] = [
            (b"PLTE", &[1, 2, 3, 4, 5, 6, 7, 8, 9]),
            (b"tRNS", &[0, 128]),
        ];
        let sheet = vec![7, 8, 9, 255, 1, 2, 3, 0, 4, 5, 6, 128];
        let rows = [0, 0b10_00_01_00];
        assert_eq!(pixels(header(3, 1, 2, 3, 0), &parts, &rows), Ok(sheet));
        let told = pixels(header(3, 1, 2, 3, 0), &parts, &[0, 0b11_00_01_00]);
        assert!(told.expect_err("entry 3").contains("its palette has not"));
        let told = pixels(header(3, 1, 2, 3, 0), &[], &rows);
        assert!(told.expect_err("no palette").contains("without a palette"));
    }

    #[test]
    fn every_filter() {
        // Rows of two pixels; each is [1, 2, 3], [4, 5, 6] and what the filter adds.
        let rows = [
            [0, 1, 2, 3, 4, 5, 6],
            [1, 1, 2, 3, 3, 3, 3],
            [2, 0, 0, 0, 0, 0, 0],
            [3, 1, 1, 2, 2, 2, 2],
            [4, 0, 0, 0, 0, 0, 0],
        ];
        let row = [1, 2, 3, 255, 4, 5, 6, 255];
        let sheet = pixels(header(2, 5, 8, 2, 0), &[], &rows.concat()).expect("a picture");
        assert_eq!(sheet.chunks_exact(8).collect::<Vec<_>>(), vec![row; 5]);
        let told = pixels(header(1, 1, 8, 0, 0), &[], &[5, 0]).expect_err("filter 5");
        assert!(told.contains("a filter that PNG does not know"));
    }

    /// Each pass holds the places of its pixels, which come to stand in order.
    #[test]
    fn interlaced() {
        for (width, height) in [(1, 1), (3, 2), (5, 5), (8, 8), (9, 13)] {
            let mut rows = Vec::new();
            for [x, y, across, down] in ADAM7 {
                for row in (y..height).step_by(down).filter(|_| x < width) {
                    rows.push(0);
                    rows.extend(
                        (x..width)
                            .step_by(across)
                            .map(|column| (row * width + column) as u8),
                    );
                }
            }
            let sheet = pixels(header(width as u8, height as u8, 8, 0, 1), &[], &rows);
            let wanted = (0..(width * height) as u8)
                .flat_map(|i| [i, i, i, 255])
                .collect();
            assert_eq!(sheet, Ok(wanted), "{width} x {height}");
        }
    }

    #[test]
    fn chunks_that_may_be_passed_over() {
        let parts: [Part; 2] = [(b"gAMA", &[0, 0, 177, 143]), (b"tEXt", b"Title\0a ring")];
        assert_eq!(
            pixels(header(1, 1, 8, 0, 0), &parts, &[0, 7]),
            Ok(vec![7, 7, 7, 255])
        );
        let parts: [Part; 1] = [(b"RING", &[])];
        let told = pixels(header(1, 1, 8, 0, 0), &parts, &[0, 7]).expect_err("unknown");
        assert_eq!(told, "the PNG has a chunk RING, which is not known");
    }

    #[test]
    fn wrong_headers_are_named() {
        let tiny = |header| pixels(header, &[], &[0, 7]).expect_err("a wrong header");
        let sides = "but sides are 1 to 4096";
        assert_eq!(
            tiny(header(0, 1, 8, 0, 0)),
            format!("0 x 1 pixels, {sides}")
        );
        let wide = [0, 1, 0, 0, 0, 0, 0, 1, 8, 0, 0, 0, 0];
        assert_eq!(tiny(wide), format!("65536 x 1 pixels, {sides}"));
        for (depth, colour, interlace) in [(3, 0, 0), (4, 2, 0), (16, 3, 0), (8, 5, 0), (8, 0, 2)] {
            let told = tiny(header(1, 1, depth, colour, interlace));
            assert!(told.ends_with("a number that PNG does not know"), "{told}");
        }
        let told = read(&file(&[(b"IDAT", &[]), (b"IEND", &[])])).expect_err("no header");
        assert!(told.ends_with("it does not begin with a header"), "{told}");
    }

    #[test]
    fn too_few_and_too_many_pixels_are_told() {
        let told = pixels(header(1, 2, 8, 0, 0), &[], &[0, 7]).expect_err("too few");
        assert!(told.contains("fewer pixels are there than the header says"));
        let told = pixels(header(1, 1, 8, 0, 0), &[], &[0, 7, 0, 7]).expect_err("too many");
        assert!(told.contains("more pixels are there than the header says"));
    }

    #[test]
    fn every_cut_and_every_damaged_byte_is_told() {
        let rows = deflate(&[0, 7]);
        let header = header(1, 1, 8, 0, 0);
        let whole = file(&[(b"IHDR", &header), (b"IDAT", &rows), (b"IEND", &[])]);
        for end in 8..whole.len() {
            let told = read(&whole[..end]).expect_err("a cut");
            assert!(told.contains("cut-off"), "{end}: {told}");
        }
        for at in 8..whole.len() {
            let mut damaged = whole.clone();
            damaged[at] ^= 0x10;
            assert!(read(&damaged).is_err(), "{at}");
        }
    }
}
