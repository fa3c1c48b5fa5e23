//! docs/LAW.md's known results, through the library.

use nuprikhen::color_matrix::{self, ColorMatrix};
use nuprikhen::component_transfer::{self, TransferFunction};
use nuprikhen::morphology::{self, MorphologyOperator};
use nuprikhen::{SIDE_LIMIT, SheetMut, SheetRef, composite};

/// The alphas of a row after morphology; scratch, lent full of 7, is all zero afterwards.
fn morphed(operator: MorphologyOperator, rx: f32, alphas: [u8; 3]) -> [u8; 3] {
    let mut src = [0; 12];
    let mut scratch = [7; 12];
    for (pixel, alpha) in src.chunks_exact_mut(4).zip(alphas) {
        pixel[3] = alpha;
    }
    let sheet = SheetMut::new(3, 1, &mut src).expect("a sheet");
    morphology::apply(operator, rx, 0.0, sheet, &mut scratch).expect("done");
    assert_eq!(scratch, [0; 12]);
    [src[3], src[7], src[11]]
}

#[test]
fn morphology_of_a_row() {
    let alphas = [10, 200, 30];
    let dilated = |rx| morphed(MorphologyOperator::Dilate, rx, alphas);
    let eroded = |rx| morphed(MorphologyOperator::Erode, rx, alphas);
    assert_eq!(dilated(1.0), [200, 200, 200]);
    assert_eq!(eroded(1.0), [10, 10, 30]);
    assert_eq!(eroded(65_536.0), [10, 10, 10]);
}

#[test]
fn radii_round_half_away_from_zero() {
    let alphas = [10, 200, 30];
    let dilated = |rx| morphed(MorphologyOperator::Dilate, rx, alphas);
    assert_eq!(dilated(0.5), dilated(1.0));
    assert_eq!(dilated(0.49999997), alphas);
}

/// Two clear pixels composed with each other.
fn composed(k: [f32; 4]) -> [u8; 8] {
    let clear = SheetRef::new(2, 1, &[0; 8]).expect("a sheet");
    let mut bytes = [9; 8];
    let dest = SheetMut::new(2, 1, &mut bytes).expect("a sheet");
    composite::arithmetic(k[0], k[1], k[2], k[3], clear, clear, dest).expect("done");
    bytes
}

#[test]
fn arithmetic_is_cut() {
    assert_eq!(composed([0.0, 0.0, 0.0, 0.5]), [127; 8]);
}

#[test]
fn arithmetic_clears_where_alpha_is_zero() {
    assert_eq!(composed([0.0, 1.0, 1.0, 0.0]), [0; 8]);
}

#[test]
fn each_color_matrix() {
    let after = |matrix: ColorMatrix| {
        let mut src = [255, 0, 0, 99];
        let sheet = SheetMut::new(1, 1, &mut src).expect("a sheet");
        color_matrix::apply(&matrix, sheet).expect("done");
        src
    };
    let mut turned = [0.0; 20];
    for (row, column) in [1, 2, 0, 3].into_iter().enumerate() {
        turned[5 * row + column] = 1.0;
    }
    assert_eq!(after(ColorMatrix::Matrix(&turned)), [0, 0, 255, 99]);
    assert_eq!(after(ColorMatrix::Saturate(0.0)), [54, 54, 54, 99]);
    assert_eq!(after(ColorMatrix::Saturate(-1.0)), [54, 54, 54, 99]);
    let [cosine, sine] = [1.0, 0.0];
    let none = ColorMatrix::HueRotate { cosine, sine };
    assert_eq!(after(none), [255, 0, 0, 99]);
    assert_eq!(after(ColorMatrix::LuminanceToAlpha), [0, 0, 0, 54]);
}

/// The pair of an angle in `f32`, as resvg works it out.
#[cfg(feature = "std")]
#[test]
fn a_hue_in_degrees() {
    for degrees in [0.0, 1.0, 30.0, 90.0, -120.5, 359.0, 1e9] {
        let angle = f32::to_radians(degrees);
        let (cosine, sine) = (angle.cos(), angle.sin());
        let pair = ColorMatrix::HueRotate { cosine, sine };
        assert_eq!(ColorMatrix::hue_rotate_degrees(degrees), pair);
        let mut src = [200, 100, 50, 99];
        let sheet = SheetMut::new(1, 1, &mut src).expect("a sheet");
        assert_eq!(color_matrix::apply(&pair, sheet), Ok(()), "{degrees}");
    }
}

/// A pixel after the same function in all four channels.
fn transferred(function: TransferFunction, mut src: [u8; 4]) -> [u8; 4] {
    let f = &function;
    let sheet = SheetMut::new(1, 1, &mut src).expect("a sheet");
    component_transfer::apply(f, f, f, f, sheet).expect("done");
    src
}

#[test]
fn transfer_is_cut() {
    let linear = TransferFunction::Linear {
        slope: 0.0,
        intercept: 0.5,
    };
    assert_eq!(transferred(linear, [0, 1, 128, 255]), [127; 4]);
}

#[test]
fn discrete_halves() {
    let halves = TransferFunction::Discrete(&[0.0, 1.0]);
    assert_eq!(transferred(halves, [0, 127, 128, 255]), [0, 0, 255, 255]);
}

#[test]
fn what_leaves_a_channel_alone() {
    let src = [0, 127, 128, 255];
    for function in [
        TransferFunction::Identity,
        TransferFunction::Table(&[]),
        TransferFunction::Discrete(&[]),
        TransferFunction::Table(&[0.0, 1.0]),
    ] {
        assert_eq!(transferred(function, src), src);
    }
}

#[test]
fn each_channel_has_its_function() {
    let [zero, one] = [0.0, 1.0].map(|intercept| TransferFunction::Linear {
        slope: 0.0,
        intercept,
    });
    for channel in 0..4 {
        let [r, g, b, a] = [0, 1, 2, 3].map(|i| if i == channel { &one } else { &zero });
        let mut src = [9; 4];
        let sheet = SheetMut::new(1, 1, &mut src).expect("a sheet");
        component_transfer::apply(r, g, b, a, sheet).expect("done");
        let expected = [0, 1, 2, 3].map(|i| if i == channel { 255 } else { 0 });
        assert_eq!(src, expected);
    }
}

#[test]
fn sides_from_one_to_the_limit() {
    for (side, number) in [(0, 1), (1, 0), (4096, 0), (4097, 1)] {
        for (width, height) in [(side, 1), (1, side)] {
            let mut src = vec![5; 4 * side as usize];
            let mut scratch = vec![7; src.len()];
            let told = SheetMut::new(width, height, &mut src).and_then(|sheet| {
                morphology::apply(MorphologyOperator::Dilate, 1.0, 1.0, sheet, &mut scratch)
            });
            assert_eq!(told.map_or_else(|refusal| refusal.number(), |()| 0), number);
            assert!(
                scratch
                    .iter()
                    .all(|&byte| byte == if number == 0 { 0 } else { 7 })
            );
        }
    }
    assert_eq!(SIDE_LIMIT, 4096);
}

/// White's luminance is a little below 1 in f32, and it is cut.
#[test]
fn the_largest_sheet() {
    let mut src = vec![255; 4 * (SIDE_LIMIT * SIDE_LIMIT) as usize];
    let sheet = SheetMut::new(SIDE_LIMIT, SIDE_LIMIT, &mut src).expect("a sheet");
    color_matrix::apply(&ColorMatrix::LuminanceToAlpha, sheet).expect("done");
    assert!(src.chunks_exact(4).all(|pixel| pixel == [0, 0, 0, 254]));
}
