//! Every refusal of every function: its number, its name, and no lent byte changed.

use nuprikhen::color_matrix::{self, ColorMatrix};
use nuprikhen::component_transfer::{self, TransferFunction};
use nuprikhen::composite;
use nuprikhen::convolve_matrix::{self, ConvolveMatrix, EdgeMode};
use nuprikhen::displacement_map::{self, ColorChannel, DisplacementMap};
use nuprikhen::lighting::{self, Color, DiffuseLighting, LightSource, SpecularLighting};
use nuprikhen::morphology::{self, MorphologyOperator};
use nuprikhen::{Premultiplied, Refusal, SheetMut, SheetRef, Straight};

const NAMES: [&str; 5] = ["Size", "Length", "Shape", "NotFinite", "Range"];
const NOT_FINITE: [f32; 3] = [f32::NAN, f32::INFINITY, f32::NEG_INFINITY];
/// The floats next beyond the ends of -65,536..=65,536.
const BEYOND: [f32; 2] = [65_536.01, -65_536.01];
/// Sizes that are refused; the sheets beside them are of 2 x 2.
const SIZES: [(u32, u32); 5] = [(0, 2), (2, 0), (4097, 2), (2, 4097), (u32::MAX, u32::MAX)];
/// Lengths that no sheet of 2 x 2 has.
const LENGTHS: [usize; 5] = [0, 1, 15, 17, 64];

/// A refusal goes wherever an error goes.
#[test]
fn a_refusal_is_an_error() {
    let boxed: Box<dyn std::error::Error + Send + Sync> = Refusal::Size.into();
    assert_eq!(boxed.downcast_ref(), Some(&Refusal::Size));
}

/// Bytes that are all different up to 256.
fn sheet(length: usize) -> Vec<u8> {
    (0..length).map(|i| (i * 37 + 11) as u8).collect()
}

fn is(number: u8, told: Result<(), Refusal>) {
    let refusal = told.expect_err("a refusal");
    let name = NAMES[usize::from(number) - 1];
    assert_eq!((refusal.number(), refusal.name()), (number, name));
    assert_eq!((refusal.step(), refusal.offset()), (None, None));
    let told = format!("refused {number} ({name}): ");
    assert!(refusal.to_string().starts_with(&told));
}

fn dilate(number: u8, (width, height): (u32, u32), r: [f32; 2], lengths: [usize; 2]) {
    let [mut src, mut scratch] = lengths.map(sheet);
    let operator = MorphologyOperator::Dilate;
    is(
        number,
        SheetMut::new(width, height, &mut src)
            .and_then(|src| morphology::apply(operator, r[0], r[1], src, &mut scratch)),
    );
    assert_eq!([src, scratch], lengths.map(sheet));
}

fn color(number: u8, (width, height): (u32, u32), matrix: &ColorMatrix, length: usize) {
    let mut src = sheet(length);
    is(
        number,
        SheetMut::new(width, height, &mut src).and_then(|src| color_matrix::apply(matrix, src)),
    );
    assert_eq!(src, sheet(length));
}

fn transfer(number: u8, (width, height): (u32, u32), f: [TransferFunction; 4], length: usize) {
    let mut src = sheet(length);
    let [r, g, b, a] = &f;
    is(
        number,
        SheetMut::new(width, height, &mut src)
            .and_then(|src| component_transfer::apply(r, g, b, a, src)),
    );
    assert_eq!(src, sheet(length));
}

fn arithmetic(number: u8, size: (u32, u32), k: [f32; 4], lengths: [usize; 3]) {
    let [src1, src2, mut dest] = lengths.map(sheet);
    is(number, composed([size; 3], k, &src1, &src2, &mut dest));
    assert_eq!([src1, src2, dest], lengths.map(sheet));
}

fn composed(
    sizes: [(u32, u32); 3],
    [k1, k2, k3, k4]: [f32; 4],
    src1: &[u8],
    src2: &[u8],
    dest: &mut [u8],
) -> Result<(), Refusal> {
    let [one, two, three] = sizes;
    let src1 = SheetRef::new(one.0, one.1, src1)?;
    let src2 = SheetRef::new(two.0, two.1, src2)?;
    let dest = SheetMut::new(three.0, three.1, dest)?;
    composite::arithmetic(k1, k2, k3, k4, src1, src2, dest)
}

/// `all` with each of its places in turn replaced by each of `news`.
fn each_replaced<T: Copy, const N: usize>(all: [T; N], news: &[T]) -> Vec<[T; N]> {
    let replaced = |i: usize, new: T| {
        let mut all = all;
        all[i] = new;
        all
    };
    (0..N)
        .flat_map(|i| news.iter().map(move |new| replaced(i, *new)))
        .collect()
}

#[test]
fn morphology_refuses() {
    for size in SIZES {
        dilate(1, size, [1.0; 2], [16; 2]);
    }
    for lengths in each_replaced([16; 2], &LENGTHS) {
        dilate(2, (2, 2), [1.0; 2], lengths);
    }
    for radii in each_replaced([1.0; 2], &NOT_FINITE) {
        dilate(4, (2, 2), radii, [16; 2]);
    }
    for radii in each_replaced([1.0; 2], &[BEYOND[0], -1.0]) {
        dilate(5, (2, 2), radii, [16; 2]);
    }
}

#[test]
fn color_matrix_refuses() {
    let matrix = [0.5; 20];
    let hue = |cosine, sine| ColorMatrix::HueRotate { cosine, sine };
    let kinds = [
        ColorMatrix::Matrix(&matrix),
        ColorMatrix::Saturate(0.5),
        hue(0.6, 0.8),
        ColorMatrix::LuminanceToAlpha,
    ];
    for kind in &kinds {
        for size in SIZES {
            color(1, size, kind, 16);
        }
        for length in LENGTHS {
            color(2, (2, 2), kind, length);
        }
    }
    for numbers in [(4, &NOT_FINITE[..]), (5, &BEYOND[..])] {
        for matrix in each_replaced(matrix, numbers.1) {
            color(numbers.0, (2, 2), &ColorMatrix::Matrix(&matrix), 16);
        }
        for &v in numbers.1 {
            color(numbers.0, (2, 2), &ColorMatrix::Saturate(v), 16);
        }
    }
    for [cosine, sine] in each_replaced([0.6, 0.8], &NOT_FINITE) {
        color(4, (2, 2), &hue(cosine, sine), 16);
    }
    for (cosine, sine) in [(0.0, 0.0), (0.6, 0.6), (1.0, 1.0), (f32::MAX, f32::MAX)] {
        color(5, (2, 2), &hue(cosine, sine), 16);
    }
}

#[test]
fn component_transfer_refuses() {
    let linear = |slope, intercept| TransferFunction::Linear { slope, intercept };
    let kinds = [
        TransferFunction::Identity,
        TransferFunction::Table(&[0.5; 256]),
        TransferFunction::Discrete(&[0.5; 256]),
        linear(0.5, 0.5),
    ];
    for size in SIZES {
        transfer(1, size, kinds, 16);
    }
    for length in LENGTHS {
        transfer(2, (2, 2), kinds, length);
    }
    let long = [0.5; 257];
    let wrong = [
        TransferFunction::Table(&long),
        TransferFunction::Discrete(&long),
    ];
    for functions in each_replaced(kinds, &wrong) {
        transfer(3, (2, 2), functions, 16);
    }
    for (number, news) in [(4, &NOT_FINITE[..]), (5, &BEYOND[..])] {
        for entries in each_replaced([0.5; 5], news) {
            let wrong = [
                TransferFunction::Table(&entries),
                TransferFunction::Discrete(&entries),
            ];
            for functions in each_replaced(kinds, &wrong) {
                transfer(number, (2, 2), functions, 16);
            }
        }
        for [slope, intercept] in each_replaced([0.5; 2], news) {
            for functions in each_replaced(kinds, &[linear(slope, intercept)]) {
                transfer(number, (2, 2), functions, 16);
            }
        }
    }
}

#[test]
fn arithmetic_refuses() {
    for size in SIZES {
        arithmetic(1, size, [0.5; 4], [16; 3]);
    }
    for lengths in each_replaced([16; 3], &LENGTHS) {
        arithmetic(2, (2, 2), [0.5; 4], lengths);
    }
    for k in each_replaced([0.5; 4], &NOT_FINITE) {
        arithmetic(4, (2, 2), k, [16; 3]);
    }
    for k in each_replaced([0.5; 4], &BEYOND) {
        arithmetic(5, (2, 2), k, [16; 3]);
    }
}

#[test]
fn the_first_test_that_fails_answers() {
    let nan = ColorMatrix::Matrix(&[f32::NAN; 20]);
    color(1, (0, 2), &nan, 1);
    color(2, (2, 2), &nan, 1);
    let mut both = [BEYOND[0]; 20];
    both[19] = f32::NAN;
    color(4, (2, 2), &ColorMatrix::Matrix(&both), 16);
}

/// A test is made of all four channels before the next one.
#[test]
fn the_first_test_of_all_channels_answers() {
    let far = TransferFunction::Table(&[BEYOND[0]]);
    let nan = TransferFunction::Discrete(&[f32::NAN]);
    let long = TransferFunction::Table(&[f32::NAN; 257]);
    transfer(1, (0, 2), [far, nan, long, nan], 1);
    transfer(2, (2, 2), [far, nan, long, nan], 1);
    transfer(3, (2, 2), [far, nan, long, nan], 16);
    transfer(4, (2, 2), [far, far, far, nan], 16);
}

#[test]
fn empty_slices_are_refused_like_others() {
    dilate(1, (0, 0), [f32::NAN; 2], [0; 2]);
    dilate(2, (1, 1), [f32::NAN; 2], [0; 2]);
    convolve(3, &kernel(&[]), [16; 2]);
    arithmetic(2, (1, 1), [0.5; 4], [0; 3]);
}

/// A kernel of one row.
fn kernel(matrix: &[f32]) -> ConvolveMatrix<'_> {
    ConvolveMatrix {
        columns: matrix.len() as u32,
        rows: 1,
        target_x: 0,
        target_y: 0,
        matrix,
        divisor: 1.0,
        bias: 0.0,
        edge_mode: EdgeMode::Wrap,
    }
}

/// A sheet of 2 x 2 convolved both ways.
fn convolve(number: u8, matrix: &ConvolveMatrix, lengths: [usize; 2]) {
    let [mut src, mut scratch] = lengths.map(sheet);
    let all = SheetMut::new(2, 2, &mut src);
    is(
        number,
        all.and_then(|src| convolve_matrix::apply(matrix, src, &mut scratch)),
    );
    let preserved = SheetMut::new(2, 2, &mut src)
        .and_then(|src| convolve_matrix::apply_preserving_alpha(matrix, src, &mut scratch));
    is(number, preserved.map(|_| ()));
    assert_eq!([src, scratch], lengths.map(sheet));
}

#[test]
fn convolve_refuses() {
    let one = kernel(&[1.0]);
    for lengths in each_replaced([16; 2], &LENGTHS) {
        convolve(2, &one, lengths);
    }
    let side = |columns, rows| ConvolveMatrix {
        columns,
        rows,
        ..kernel(&[f32::NAN; 32])
    };
    for misshapen in [(0, 1), (1, 0), (16, 2), (2, 16), (31, 1), (11, 3)] {
        convolve(3, &side(misshapen.0, misshapen.1), [16; 2]);
    }
    let outside = ConvolveMatrix {
        target_x: 1,
        ..kernel(&[1.0])
    };
    convolve(3, &outside, [16; 2]);
    for (number, news) in [(4, &NOT_FINITE[..]), (5, &BEYOND[..])] {
        for [divisor, bias, x] in each_replaced([1.0; 3], news) {
            let numbers = [1.0, x];
            let spoilt = kernel(&numbers);
            let spoilt = ConvolveMatrix {
                divisor,
                bias,
                ..spoilt
            };
            convolve(number, &spoilt, [16; 2]);
        }
    }
}

/// A picture moved by a map, by a scale that is refused 4 where the sheets are not.
fn moved(sizes: [(u32, u32); 3], src: &[u8], map: &[u8], dest: &mut [u8]) -> Result<(), Refusal> {
    let fe = DisplacementMap {
        x_channel_selector: ColorChannel::R,
        y_channel_selector: ColorChannel::A,
        scale: f32::NAN,
    };
    let [one, two, three] = sizes;
    let src = SheetRef::<Premultiplied>::new(one.0, one.1, src)?;
    let map = SheetRef::new(two.0, two.1, map)?;
    let dest = SheetMut::new(three.0, three.1, dest)?;
    displacement_map::apply(&fe, 1.0, 1.0, src, map, dest)
}

const LIGHT: LightSource = LightSource::Distant(0.0, 0.0, 1.0);
const BLACK: Color = Color {
    red: 0,
    green: 0,
    blue: 0,
};

/// Diffuse light on a surface that is refused 4 where the sheets are not.
fn diffuse(sizes: [(u32, u32); 2], src: &[u8], dest: &mut [u8]) -> Result<(), Refusal> {
    let fe = DiffuseLighting {
        surface_scale: f32::NAN,
        diffuse_constant: 1.0,
        lighting_color: BLACK,
    };
    let src = SheetRef::<Straight>::new(sizes[0].0, sizes[0].1, src)?;
    let dest = SheetMut::new(sizes[1].0, sizes[1].1, dest)?;
    lighting::diffuse_lighting(&fe, LIGHT, src, dest)
}

/// Specular light on such a surface.
fn specular(sizes: [(u32, u32); 2], src: &[u8], dest: &mut [u8]) -> Result<(), Refusal> {
    let fe = SpecularLighting {
        surface_scale: f32::NAN,
        specular_constant: 1.0,
        specular_exponent: 1.0,
        lighting_color: BLACK,
    };
    let src = SheetRef::<Straight>::new(sizes[0].0, sizes[0].1, src)?;
    let dest = SheetMut::new(sizes[1].0, sizes[1].1, dest)?;
    lighting::specular_lighting(&fe, LIGHT, src, dest)
}

/// Sheets of 2 x 3 and of 3 x 2 are of one length, and still of two sizes. Of one size the NaN is refused.
#[test]
fn sheets_of_two_sizes_are_refused() {
    let others = [(2, 3), (3, 2), (1, 6), (6, 1), (1, 1), (2, 2), (4, 4)];
    let of_size = |(width, height)| sheet((4 * width * height) as usize);
    for sizes in each_replaced([(2, 3); 3], &others) {
        let number = if sizes == [(2, 3); 3] { 4 } else { 2 };
        let [src1, src2, mut dest] = sizes.map(of_size);
        let nan = [f32::NAN; 4];
        is(number, composed(sizes, nan, &src1, &src2, &mut dest));
        is(number, moved(sizes, &src1, &src2, &mut dest));
        assert_eq!([src1, src2, dest], sizes.map(of_size));
    }
    for sizes in each_replaced([(2, 3); 2], &others) {
        let number = if sizes == [(2, 3); 2] { 4 } else { 2 };
        let [src, mut dest] = sizes.map(of_size);
        is(number, diffuse(sizes, &src, &mut dest));
        is(number, specular(sizes, &src, &mut dest));
        assert_eq!([src, dest], sizes.map(of_size));
    }
}
