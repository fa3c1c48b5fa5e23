//! PAM as netpbm reads it: lines of a word and a value, any blanks about them, in any order, up to ENDHDR.

use crate::picture::{Picture, test_sides, to_byte};

/// A number of the header, and how it stands there.
struct Number {
    text: String,
    value: u64,
}

/// What a header says; None where it says nothing.
#[derive(Default)]
struct Header {
    width: Option<Number>,
    height: Option<Number>,
    depth: Option<Number>,
    maxval: Option<Number>,
    tupltype: Option<String>,
}

/// What C's isspace takes, but for the line's end.
const BLANKS: [char; 5] = [' ', '\t', '\r', '\x0b', '\x0c'];

/// The types of tuples that are known, and their depths.
const TYPES: [(&str, u64); 6] = [
    ("BLACKANDWHITE", 1),
    ("GRAYSCALE", 1),
    ("BLACKANDWHITE_ALPHA", 2),
    ("GRAYSCALE_ALPHA", 2),
    ("RGB", 3),
    ("RGB_ALPHA", 4),
];

const CR: &str = "the PAM's lines end in CR alone; LF ends a line, or CR LF";

/// The picture that the file is; the error says what is wrong with it.
pub fn read(bytes: &[u8]) -> Result<Picture, String> {
    let (header, rest) = header(bytes)?;
    let (width, height) = header.sides()?;
    let (depth, maxval) = header.samples()?;
    let wide = if maxval > 255 { 2 } else { 1 };
    let length = width as usize * height as usize * depth * wide;
    if rest.len() < length {
        return Err(format!(
            "a cut-off PAM: its pixels are {length} bytes, but {} follow the header",
            rest.len()
        ));
    }
    let (pixels, after) = rest.split_at(length);
    if after.starts_with(b"P7") {
        return Err("another picture follows the first: a file of one is read".to_string());
    }
    if !after.is_empty() {
        return Err(format!("{} bytes too many follow the pixels", after.len()));
    }
    let sheet = sheet(pixels, depth, wide, maxval)?;
    Ok(Picture {
        width,
        height,
        sheet,
    })
}

/// The header, and what follows it.
fn header(bytes: &[u8]) -> Result<(Header, &[u8]), String> {
    let mut rest = bytes.strip_prefix(b"P7").ok_or("no PAM")?;
    let mut header = Header::default();
    if !rest.contains(&b'\n') && rest.contains(&b'\r') {
        return Err(CR.to_string());
    }
    first_line(line(&mut rest)?)?;
    loop {
        let line = line(&mut rest)?;
        let text = String::from_utf8_lossy(line);
        let text = text.trim_matches(BLANKS);
        match text.split(BLANKS).next() {
            _ if line.starts_with(b"#") => {}
            None | Some("") => {}
            Some("ENDHDR") => return Ok((header, rest)),
            Some(_) => header.take(text)?,
        }
    }
}

/// Takes a line away, and gives it without its end.
fn line<'a>(rest: &mut &'a [u8]) -> Result<&'a [u8], String> {
    let end = rest.iter().position(|&byte| byte == b'\n');
    let end = end.ok_or("the PAM's header has no line ENDHDR")?;
    let line = &rest[..end];
    *rest = &rest[end + 1..];
    Ok(line)
}

/// Nothing but blanks stands behind P7.
fn first_line(line: &[u8]) -> Result<(), String> {
    let text = String::from_utf8_lossy(line);
    match text.trim_matches(BLANKS) {
        "" => Ok(()),
        _ if line.starts_with(b"\r") => Err(CR.to_string()),
        more => Err(format!(
            "`P7` is not alone in its line: `{}` follows",
            shown(more)
        )),
    }
}

/// A piece of the file for a message: without what cannot be printed, and not too long.
fn shown(text: &str) -> String {
    let start: String = text.chars().take(40).collect();
    let more = if start.len() < text.len() { "..." } else { "" };
    format!("{}{more}", start.escape_debug())
}

impl Header {
    /// Takes a line in. Of a number that stands twice the last counts; types are joined.
    fn take(&mut self, line: &str) -> Result<(), String> {
        let (word, value) = line.split_once(BLANKS).unwrap_or((line, ""));
        let value = value.trim_matches(BLANKS);
        let number = match word {
            "WIDTH" => &mut self.width,
            "HEIGHT" => &mut self.height,
            "DEPTH" => &mut self.depth,
            "MAXVAL" => &mut self.maxval,
            "TUPLTYPE" if value.is_empty() => return Err("TUPLTYPE says nothing".to_string()),
            "TUPLTYPE" => {
                let before = self.tupltype.take();
                let joined = before.map_or(value.to_string(), |before| format!("{before} {value}"));
                self.tupltype = Some(joined);
                return Ok(());
            }
            _ => {
                return Err(format!(
                    "the PAM's header has an unknown line `{}`, or no ENDHDR before it",
                    shown(line)
                ));
            }
        };
        *number = Some(Number::new(word, value)?);
        Ok(())
    }

    fn sides(&self) -> Result<(u32, u32), String> {
        let width = self.width.as_ref().ok_or("the PAM's header has no WIDTH")?;
        let height = self
            .height
            .as_ref()
            .ok_or("the PAM's header has no HEIGHT")?;
        test_sides((&width.text, width.value), (&height.text, height.value))?;
        Ok((width.value as u32, height.value as u32))
    }

    /// The depth and the greatest sample, of a type that is known.
    fn samples(&self) -> Result<(usize, u32), String> {
        let depth = self.depth.as_ref().ok_or("the PAM's header has no DEPTH")?;
        let maxval = self
            .maxval
            .as_ref()
            .ok_or("the PAM's header has no MAXVAL")?;
        if !(1..=65535).contains(&maxval.value) {
            return Err(format!("MAXVAL {}, but it is 1 to 65535", maxval.text));
        }
        if !(1..=4).contains(&depth.value) {
            return Err(format!("DEPTH {}, but 1 to 4 are read", depth.text));
        }
        if let Some(name) = &self.tupltype {
            match TYPES.iter().find(|(known, _)| known == name) {
                None => return Err(format!("TUPLTYPE {}, which is not known", shown(name))),
                Some((_, wanted)) if *wanted != depth.value => {
                    return Err(format!(
                        "TUPLTYPE {name} has DEPTH {wanted}, not {}",
                        depth.text
                    ));
                }
                Some(_) => {}
            }
        }
        Ok((depth.value as usize, maxval.value as u32))
    }
}

impl Number {
    /// A number too large to be held counts as the largest, and is told as it stands.
    fn new(word: &str, text: &str) -> Result<Number, String> {
        let digits = text.strip_prefix('+').unwrap_or(text);
        if digits.is_empty() || !digits.bytes().all(|byte| byte.is_ascii_digit()) {
            return Err(match text {
                "" => format!("{word} has no number"),
                _ => format!("{word} is `{}`, which is no whole number", shown(text)),
            });
        }
        Ok(Number {
            text: shown(text),
            value: digits.parse().unwrap_or(u64::MAX),
        })
    }
}

/// r, g, b, a of the pixels, whose samples are of one byte or two.
fn sheet(pixels: &[u8], depth: usize, wide: usize, maxval: u32) -> Result<Vec<u8>, String> {
    let mut sheet = Vec::with_capacity(pixels.len() / depth / wide * 4);
    for tuple in pixels.chunks_exact(depth * wide) {
        let mut bytes = [0; 4];
        for (byte, sample) in bytes.iter_mut().zip(tuple.chunks_exact(wide)) {
            let sample = sample
                .iter()
                .fold(0, |sum, byte| sum << 8 | u32::from(*byte));
            if sample > maxval {
                return Err(format!("a sample is {sample}, above MAXVAL {maxval}"));
            }
            *byte = to_byte(sample, maxval);
        }
        let [a, b, c, d] = bytes;
        sheet.extend(match depth {
            1 => [a, a, a, 255],
            2 => [a, a, a, b],
            3 => [a, b, c, 255],
            _ => [a, b, c, d],
        });
    }
    Ok(sheet)
}

/// The file of the picture, with alpha.
pub fn write(picture: &Picture) -> Vec<u8> {
    let Picture {
        width,
        height,
        sheet,
    } = picture;
    let header = format!(
        "P7\nWIDTH {width}\nHEIGHT {height}\nDEPTH 4\nMAXVAL 255\nTUPLTYPE RGB_ALPHA\nENDHDR\n"
    );
    [header.as_bytes(), sheet].concat()
}

#[cfg(test)]
mod tests {
    use super::*;

    const ROW: [u8; 12] = [10, 20, 30, 255, 0, 1, 2, 0, 10, 13, 32, 128];

    fn with(header: &str, pixels: &[u8]) -> Result<Picture, String> {
        read(&[header.as_bytes(), pixels].concat())
    }

    fn row() -> Picture {
        Picture {
            width: 3,
            height: 1,
            sheet: ROW.to_vec(),
        }
    }

    #[test]
    fn what_is_written_is_read_again() {
        assert_eq!(read(&write(&row())), Ok(row()));
        let head = "P7\nWIDTH 3\nHEIGHT 1\nDEPTH 4\nMAXVAL 255\nTUPLTYPE RGB_ALPHA\nENDHDR\n";
        assert_eq!(write(&row()), [head.as_bytes(), &ROW].concat());
    }

    #[test]
    fn headers_as_netpbm_reads_them() {
        for header in [
            "P7\nWIDTH 3\nHEIGHT 1\nDEPTH 4\nMAXVAL 255\nENDHDR\n",
            "P7\r\nWIDTH 3\r\nHEIGHT 1\r\nDEPTH 4\r\nMAXVAL 255\r\nTUPLTYPE RGB_ALPHA\r\nENDHDR\r\n",
            "P7 \n  WIDTH\t\t3 \n\tHEIGHT 1\t\n\n \t \nDEPTH  4\nMAXVAL\x0b255\nENDHDR \n",
            "P7\n# a comment\nMAXVAL 255\n#\nDEPTH 4\n#ENDHDR\nHEIGHT 1\nWIDTH 3\nENDHDR\n",
            "P7\nWIDTH 9\nWIDTH +003\nHEIGHT 1\nDEPTH 4\nMAXVAL 255\nENDHDR of it\n",
        ] {
            assert_eq!(with(header, &ROW), Ok(row()), "{header}");
        }
    }

    #[test]
    fn every_depth_and_maxval() {
        let picture = |depth, maxval, pixels: &[u8]| {
            let head = format!("P7\nWIDTH 2\nHEIGHT 1\nDEPTH {depth}\nMAXVAL {maxval}\nENDHDR\n");
            with(&head, pixels).map(|picture| picture.sheet)
        };
        let grey = [0, 0, 0, 255, 255, 255, 255, 255];
        assert_eq!(picture(1, 1, &[0, 1]), Ok(grey.to_vec()));
        assert_eq!(
            picture(2, 255, &[7, 9, 8, 0]),
            Ok(vec![7, 7, 7, 9, 8, 8, 8, 0])
        );
        let colour = vec![1, 2, 3, 255, 4, 5, 6, 255];
        assert_eq!(picture(3, 255, &[1, 2, 3, 4, 5, 6]), Ok(colour));
        assert_eq!(picture(1, 65535, &[0, 0, 255, 255]), Ok(grey.to_vec()));
        let halved = picture(1, 100, &[50, 100]).map(|sheet| sheet[0]);
        assert_eq!(halved, Ok(128));
    }

    /// A piece of a right header, what stands in its place, and the words for it.
    #[rustfmt::skip]
    const FAULTS: [(&str, &str, &str); 25] = [
        ("\n", "\r", "lines end in CR alone"),
        ("P7", "P7 332", "`P7` is not alone in its line: `332` follows"),
        ("ENDHDR\n", "", "unknown line"),
        ("ENDHDR\n", "", "or no ENDHDR before it"),
        ("WIDTH 3\n", "", "no WIDTH"),
        ("HEIGHT 1\n", "", "no HEIGHT"),
        ("DEPTH 4\n", "", "no DEPTH"),
        ("MAXVAL 255\n", "", "no MAXVAL"),
        ("WIDTH 3", "WIDTH", "WIDTH has no number"),
        ("WIDTH 3", "WIDTH -3", "WIDTH is `-3`, which is no whole number"),
        ("WIDTH 3", "WIDTH 3 1", "WIDTH is `3 1`, which is no whole number"),
        ("WIDTH 3", "COLOUR 3", "unknown line `COLOUR 3`"),
        ("WIDTH 3", " # 3\nWIDTH 3", "unknown line `# 3`"),
        ("WIDTH 3", "WIDTH 0", "0 x 1 pixels, but sides are 1 to 4096"),
        ("WIDTH 3", "WIDTH 4097", "4097 x 1 pixels, but sides are 1 to 4096"),
        ("HEIGHT 1", "HEIGHT 99999999999999999999", "3 x 99999999999999999999 pixels"),
        ("HEIGHT 1", "HEIGHT 2", "are 24 bytes, but 12 follow the header"),
        ("WIDTH 3", "WIDTH 2", "4 bytes too many follow the pixels"),
        ("MAXVAL 255", "MAXVAL 0", "MAXVAL 0, but it is 1 to 65535"),
        ("MAXVAL 255", "MAXVAL 65536", "MAXVAL 65536, but it is 1 to 65535"),
        ("MAXVAL 255", "MAXVAL 200", "a sample is 255, above MAXVAL 200"),
        ("DEPTH 4", "DEPTH 5", "DEPTH 5, but 1 to 4 are read"),
        ("RGB_ALPHA", "RGB", "TUPLTYPE RGB has DEPTH 3, not 4"),
        ("RGB_ALPHA", "RGB\nTUPLTYPE ALPHA", "TUPLTYPE RGB ALPHA, which is not known"),
        ("RGB_ALPHA", "", "TUPLTYPE says nothing"),
    ];

    #[test]
    fn faults_are_named() {
        let all = "P7\nWIDTH 3\nHEIGHT 1\nDEPTH 4\nMAXVAL 255\nTUPLTYPE RGB_ALPHA\nENDHDR\n";
        for (old, new, said) in FAULTS {
            assert!(all.contains(old), "{old}");
            let told = with(&all.replace(old, new), &ROW).expect_err(new);
            assert!(told.contains(said), "{new}: {told}");
        }
    }

    #[test]
    fn a_header_that_ends_early_is_told() {
        for header in [
            "P7",
            "P7\n",
            "P7\nWIDTH 3\nHEIGHT 1\n",
            "P7\nWIDTH 3\nENDHDR",
        ] {
            let told = with(header, &[]).expect_err(header);
            assert_eq!(told, "the PAM's header has no line ENDHDR");
        }
    }

    #[test]
    fn a_second_picture_is_told() {
        let two = [write(&row()), write(&row())].concat();
        assert!(
            read(&two)
                .expect_err("two")
                .contains("another picture follows")
        );
    }
}
