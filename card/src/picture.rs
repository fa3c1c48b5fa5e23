//! A picture in memory, and its colour with alpha multiplied in or taken out.

use nuprikhen::SIDE_LIMIT;
use nuprikhen::recipe::Kind;

/// r, g, b, a of each pixel, row by row; the colour is straight, as files hold it.
#[derive(Clone, Debug, PartialEq)]
pub struct Picture {
    pub width: u32,
    pub height: u32,
    pub sheet: Vec<u8>,
}

/// Says so where a side is not within 1 to 4,096; the sides are given as the file words them.
pub fn test_sides(width: (&str, u64), height: (&str, u64)) -> Result<(), String> {
    let allowed = 1..=u64::from(SIDE_LIMIT);
    if allowed.contains(&width.1) && allowed.contains(&height.1) {
        return Ok(());
    }
    Err(format!(
        "{} x {} pixels, but sides are 1 to {SIDE_LIMIT}",
        width.0, height.0
    ))
}

/// A sample of 0 to `max` as one of 0 to 255, to the nearest.
pub fn to_byte(sample: u32, max: u32) -> u8 {
    ((2 * 255 * sample + max) / (2 * max)) as u8
}

/// Makes straight colour into colour of this kind.
pub fn from_straight(kind: Kind, sheet: &mut [u8]) {
    if kind == Kind::Premultiplied {
        each_colour(sheet, |colour, alpha| to_byte(colour * alpha, 255 * 255));
    }
}

/// Makes colour of this kind straight. A premultiplied colour above its alpha counts as its alpha.
pub fn to_straight(kind: Kind, sheet: &mut [u8]) {
    if kind == Kind::Premultiplied {
        each_colour(sheet, |colour, alpha| match alpha {
            0 => 0,
            _ => to_byte(colour.min(alpha), alpha),
        });
    }
}

/// Replaces each colour by what it and its alpha give.
fn each_colour(sheet: &mut [u8], new: impl Fn(u32, u32) -> u8) {
    for pixel in sheet.chunks_exact_mut(4) {
        let alpha = u32::from(pixel[3]);
        for colour in &mut pixel[..3] {
            *colour = new(u32::from(*colour), alpha);
        }
    }
}

#[cfg(test)]
mod tests {
    use super::*;

    #[test]
    fn samples_go_to_the_nearest_byte() {
        assert_eq!([0, 1].map(|x| to_byte(x, 1)), [0, 255]);
        assert_eq!([0, 1, 2, 3].map(|x| to_byte(x, 3)), [0, 85, 170, 255]);
        assert_eq!([128, 129, 65535].map(|x| to_byte(x, 65535)), [0, 1, 255]);
    }

    /// Every colour and alpha, against the same in floating point.
    #[test]
    fn alpha_is_multiplied_in_and_taken_out_to_the_nearest() {
        for (colour, alpha) in (0..=255).flat_map(|c| (0..=255).map(move |a| (c, a))) {
            let mut pixel = [colour, 0, 255, alpha];
            from_straight(Kind::Premultiplied, &mut pixel);
            let exact = f64::from(colour) * f64::from(alpha) / 255.0;
            assert_eq!(pixel, [exact.round() as u8, 0, alpha, alpha]);
            let mut back = pixel;
            to_straight(Kind::Premultiplied, &mut back);
            let exact = f64::from(pixel[0]) * 255.0 / f64::from(alpha);
            let full = if alpha == 0 { 0 } else { 255 };
            assert_eq!(back, [exact.round() as u8, 0, full, alpha]);
        }
    }

    #[test]
    fn opaque_and_straight_colour_is_left_alone() {
        let mut pixels = [1, 2, 3, 255, 200, 100, 0, 255];
        from_straight(Kind::Premultiplied, &mut pixels);
        assert_eq!(pixels, [1, 2, 3, 255, 200, 100, 0, 255]);
        let mut pixels = [9, 200, 3, 40];
        from_straight(Kind::Straight, &mut pixels);
        to_straight(Kind::Straight, &mut pixels);
        assert_eq!(pixels, [9, 200, 3, 40]);
    }

    #[test]
    fn sides_are_told_as_they_stand() {
        assert_eq!(test_sides(("4096", 4096), ("01", 1)), Ok(()));
        for (width, height) in [(("0", 0), ("1", 1)), (("7", 7), ("004097", 4097))] {
            let told = test_sides(width, height).expect_err("a wrong side");
            let said = format!("{} x {} pixels, but sides are 1 to 4096", width.0, height.0);
            assert_eq!(told, said);
        }
    }
}
