//! Recipes: their bytes both ways, runs beside single calls, and every refusal in words.

#![cfg(feature = "alloc")]

use nuprikhen::color_matrix::{self, ColorMatrix};
use nuprikhen::component_transfer::TransferFunction;
use nuprikhen::convolve_matrix::{self, ConvolveMatrix, EdgeMode};
use nuprikhen::displacement_map::ColorChannel;
use nuprikhen::lighting::{Color, LightSource};
use nuprikhen::morphology::{self, MorphologyOperator};
use nuprikhen::recipe::{Kind, Recipe, Sheets};
use nuprikhen::{Refusal, SheetMut};

const WHITE: Color = Color {
    red: 255,
    green: 255,
    blue: 255,
};
const IDENTITY: TransferFunction = TransferFunction::Identity;

/// A kernel of one row.
fn row(matrix: &[f32]) -> ConvolveMatrix<'_> {
    ConvolveMatrix {
        columns: matrix.len() as u32,
        rows: 1,
        target_x: 0,
        target_y: 0,
        matrix,
        divisor: 1.0,
        bias: 0.0,
        edge_mode: EdgeMode::Wrap,
    }
}

fn dilate(recipe: Recipe, input: u32, output: u32) -> Recipe {
    recipe.morphology(input, output, MorphologyOperator::Dilate, 1.0, 1.0)
}

/// Steps of every code and of every kind within them.
fn every_step() -> Vec<Recipe> {
    let matrix = ColorMatrix::Matrix(&[0.25; 20]);
    let [cosine, sine] = [0.6, 0.8];
    let hue = ColorMatrix::HueRotate { cosine, sine };
    let table = TransferFunction::Table(&[0.0, 0.5, 1.0]);
    let discrete = TransferFunction::Discrete(&[]);
    let linear = TransferFunction::Linear {
        slope: -1.5,
        intercept: 1.0,
    };
    let (x, y) = (ColorChannel::A, ColorChannel::B);
    let (far, near) = (
        LightSource::Distant(0.6, 0.0, 0.8),
        LightSource::Point(1.0, 2.0, 300.0),
    );
    let new = Recipe::new;
    vec![
        dilate(new(), 0, 1),
        new().color_matrix(0, 1, &matrix),
        new().color_matrix(0, 1, &ColorMatrix::Saturate(0.5)),
        new().color_matrix(0, 1, &hue),
        new().color_matrix(0, 1, &ColorMatrix::LuminanceToAlpha),
        new().component_transfer(0, 1, &table, &discrete, &linear, &IDENTITY),
        new().arithmetic(0, 1, 2, 0.5, 1.0, -1.0, 0.25),
        new().convolve_matrix(0, 1, &row(&[1.0, 2.0])),
        new().convolve_matrix_preserving_alpha(0, 1, &row(&[1.0, 2.0])),
        new().displacement_map(0, 1, 2, x, y, 1.0, -1.0, 20.0),
        new().turbulence(1, 0.5, -0.5, 1.0, 2.0, 0.05, 0.1, 3, -7, true),
        new().diffuse_lighting(0, 1, far, 5.0, 1.0, WHITE),
        new().specular_lighting(0, 1, near, 5.0, 1.0, 1.0, WHITE),
    ]
}

/// The example of each step of docs/MESSAGES.md: the hex before two spaces of the indented lines below a
/// heading.
fn documented() -> Vec<Vec<u8>> {
    let document = include_str!("../../docs/MESSAGES.md");
    let bytes = |line: &str| -> Option<Vec<u8>> {
        let (hex, _) = line.strip_prefix("    ")?.split_once("  ")?;
        let bytes = hex.split(' ').map(|two| u8::from_str_radix(two, 16));
        bytes.collect::<Result<_, _>>().ok()
    };
    let examples = document.split("\n### ").skip(1);
    examples
        .map(|example| example.lines().filter_map(bytes).flatten().collect())
        .collect()
}

#[test]
fn the_documents_examples() {
    let table = TransferFunction::Table(&[1.0, 0.0]);
    let discrete = TransferFunction::Discrete(&[0.5]);
    let linear = TransferFunction::Linear {
        slope: 2.0,
        intercept: -1.0,
    };
    let kernel = ConvolveMatrix {
        target_x: 1,
        divisor: 4.0,
        edge_mode: EdgeMode::Duplicate,
        ..row(&[1.0, 3.0])
    };
    let (r, a) = (ColorChannel::R, ColorChannel::A);
    let color = |red, green, blue| Color { red, green, blue };
    let direction = LightSource::Distant(0.6, 0.0, 0.8);
    let place = LightSource::Point(40.0, 30.0, 90.0);
    let new = Recipe::new;
    let recipes = [
        new().morphology(0, 1, MorphologyOperator::Dilate, 1.0, 0.0),
        new().color_matrix(0, 2, &ColorMatrix::Saturate(0.5)),
        new().component_transfer(0, 1, &table, &discrete, &linear, &IDENTITY),
        new().arithmetic(0, 1, 2, 0.0, 1.0, -1.0, 0.0),
        new().convolve_matrix(0, 1, &kernel),
        new().displacement_map(0, 1, 2, r, a, 1.0, 1.0, 20.0),
        new().turbulence(1, 0.0, 0.0, 1.0, 1.0, 0.05, 0.5, 3, -5, true),
        new().diffuse_lighting(0, 1, direction, 5.0, 1.0, color(255, 240, 200)),
        new().specular_lighting(0, 1, place, 2.0, 0.5, 1.0, color(0, 0, 255)),
    ];
    assert_eq!(recipes.map(|recipe| recipe.to_bytes()), documented()[..]);
}

#[test]
fn every_step_comes_back() {
    for recipe in every_step() {
        let bytes = recipe.to_bytes();
        assert_eq!(Recipe::from_bytes(&bytes), Ok(recipe), "{bytes:02x?}");
    }
}

/// A message of all of them is cut where its steps end.
#[test]
fn steps_in_a_row_come_back() {
    let steps: Vec<Vec<u8>> = every_step().iter().map(Recipe::to_bytes).collect();
    let mut message = vec![steps.len() as u8];
    steps.iter().for_each(|step| message.extend(&step[1..]));
    let recipe = Recipe::from_bytes(&message).expect("a message");
    assert_eq!(recipe.to_bytes(), message);
    // Each is the step that it was.
    let longer = dilate(recipe.clone(), 3, 2);
    assert_eq!(Recipe::from_bytes(&longer.to_bytes()), Ok(longer));
}

#[test]
fn a_nan_has_one_form() {
    let operator = MorphologyOperator::Erode;
    let odd = f32::from_bits(0xff80_0001);
    let bytes = Recipe::new()
        .morphology(0, 1, operator, odd, f32::NAN)
        .to_bytes();
    let nan = [0x80, 0x80, 0x80, 0xfe, 0x07];
    assert_eq!(bytes, [&[1, 1, 0, 1, 1][..], &nan, &nan].concat());
    let odd = f64::from_bits(0xfff0_0000_0000_0001);
    let bytes = Recipe::new()
        .turbulence(1, odd, 0.0, 0.0, 0.0, 0.0, 0.0, 0, 0, false)
        .to_bytes();
    assert_eq!(bytes[3..9], [0, 0x80, 0x80, 0xe0, 0xff, 0x07]);
}

fn source() -> Vec<u8> {
    (0..4 * 35).map(|i| (i * i / 3) as u8).collect()
}

/// A run is the single calls in a row; every slot, and scratch, is told.
#[test]
fn a_run_is_its_steps_in_a_row() -> Result<(), Refusal> {
    let (kernel, grey) = (row(&[1.0]), ColorMatrix::Saturate(0.25));
    let recipe = Recipe::new()
        .color_matrix(0, 2, &grey)
        .convolve_matrix_preserving_alpha(2, 1, &kernel);
    let recipe = dilate(recipe, 1, 2);
    let mut sheets = Sheets::new(Kind::Straight, 7, 5, source());
    sheets.slots[2].fill(33);
    sheets.scratch.fill(44);
    let result = recipe.run(&mut sheets)?.to_vec();

    let (mut one, mut scratch) = (source(), vec![1; 140]);
    let mut straight = SheetMut::new(7, 5, &mut one)?;
    color_matrix::apply(&grey, straight.reborrow())?;
    let sheet = convolve_matrix::apply_preserving_alpha(&kernel, straight, &mut scratch)?;
    let mut two = sheet.bytes().to_vec();
    let operator = MorphologyOperator::Dilate;
    let sheet = SheetMut::new(7, 5, &mut two)?;
    morphology::apply(operator, 1.0, 1.0, sheet, &mut scratch)?;
    assert_eq!(result, two);
    assert_eq!(sheets.slots, [one, two, vec![33; 140]]);
    assert_eq!((sheets.source, sheets.scratch), (source(), vec![0; 140]));
    Ok(())
}

/// The refusal of a run and of `reaches`, after which every sheet is as before.
fn refused(recipe: &Recipe, kind: Kind) -> Refusal {
    refused_of(recipe, Sheets::new(kind, 7, 5, source()))
}

fn refused_of(recipe: &Recipe, mut sheets: Sheets<Vec<u8>, Vec<u8>>) -> Refusal {
    sheets.scratch.fill(7);
    let before = sheets.clone();
    let refusal = recipe.run(&mut sheets).expect_err("a refusal");
    assert_eq!(recipe.reaches(&sheets), Err(refusal));
    assert_eq!(sheets, before);
    refusal
}

#[test]
fn sizes_lengths_and_counts() {
    let one = dilate(Recipe::new(), 0, 1);
    let said = |width: u32, height: u32, recipe: &Recipe| {
        let sheets = Sheets::new(Kind::Premultiplied, width, height, source());
        let refusal = refused_of(recipe, sheets);
        assert_eq!((refusal.step(), refusal.offset()), (None, None));
        refusal.to_string()
    };
    let size = "refused 1 (Size): width or height outside 1..=4,096";
    assert_eq!(said(0, 5, &one), size);
    assert_eq!(said(4097, 5, &one), size);
    let length = "refused 2 (Length): a sheet or scratch is not exactly 4 x width x height bytes, \
                  or two sheets differ in size";
    assert_eq!(said(7, 6, &one), length);
    let steps = "refused 6 (Steps): a recipe of 0 steps or over 16";
    assert_eq!(said(7, 5, &Recipe::new()), steps);
    assert_eq!(said(0, 0, &Recipe::new()), size);
    let seventeen = (0..17).fold(Recipe::new(), |recipe, _| dilate(recipe, 0, 1));
    assert_eq!(said(0, 0, &seventeen), steps);
    let refusal = Recipe::from_bytes(&seventeen.to_bytes()).expect_err("a refusal");
    assert_eq!(refusal.to_string(), steps);
}

/// A matrix of so many NaNs, from slot 0 to slot 1: only a message has other than 20 numbers.
fn of_matrix(count: u8) -> Recipe {
    let numbers = [0x80, 0x80, 0x80, 0xfe, 0x07].repeat(count.into());
    let message = [&[1, 2, 0, 1, 0, count][..], &numbers].concat();
    let recipe = Recipe::from_bytes(&message).expect("a message");
    assert_eq!(recipe.to_bytes(), message);
    recipe
}

/// Test 3 comes before test 4.
#[test]
fn a_matrix_has_20_numbers() {
    let shape = "refused 3 (Shape) at step 0, color_matrix: a matrix has 20 numbers";
    for count in [0, 1, 19, 21, 40] {
        let refusal = refused(&of_matrix(count), Kind::Straight);
        assert_eq!(refusal.to_string(), shape, "{count}");
    }
    let nan = "refused 4 (NotFinite) at step 0, color_matrix: a parameter is NaN or infinite";
    assert_eq!(refused(&of_matrix(20), Kind::Straight).to_string(), nan);
}

#[test]
fn a_step_is_refused_in_its_own_words() {
    let (kind, new) = (Kind::Premultiplied, Recipe::new);
    let see = |recipe: Recipe, kind: Kind, wanted: &str| {
        assert_eq!(refused(&recipe, kind).to_string(), wanted);
    };
    let second = dilate(dilate(new(), 0, 1), 300, 2);
    see(
        second,
        kind,
        "refused 7 (Slot) at step 1, morphology: a step writes slot 1, 2 or 3, none that it reads, and reads \
         slot 0 or what an earlier one wrote",
    );
    see(
        dilate(new(), 0, 1),
        Kind::Straight,
        "refused 8 (Kind) at step 0, morphology: the input must be premultiplied",
    );
    see(
        new().arithmetic(0, 0, 1, f32::NAN, 0.0, 0.0, 1e9),
        kind,
        "refused 4 (NotFinite) at step 0, arithmetic: a parameter is NaN or infinite",
    );
    see(
        dilate(new(), 0, 3).turbulence(1, 0.0, 0.0, 1.0, 1.0, 0.0, 0.0, 9, 0, true),
        kind,
        "refused 5 (Range) at step 1, turbulence: offsets are -4,096 to 4,096, scales 1/16 to 16, \
         frequencies 0 to 16, octaves at most 8",
    );
}

/// A wrong step told by number, index and name, as the first step and as the second.
#[test]
fn the_refused_step_is_told() {
    let misshapen = ConvolveMatrix {
        rows: 2,
        ..row(&[1.0])
    };
    type Add<'a> = &'a dyn Fn(Recipe) -> Recipe;
    let add: [(u8, &str, Add); 5] = [
        (3, "convolve_matrix", &|to| {
            to.convolve_matrix(0, 2, &misshapen)
        }),
        (4, "arithmetic", &|to| {
            to.arithmetic(0, 0, 2, f32::NAN, 0.0, 0.0, 0.0)
        }),
        (5, "morphology", &|to| {
            to.morphology(0, 2, MorphologyOperator::Erode, -1.0, 0.0)
        }),
        (7, "morphology", &|to| dilate(to, 0, 0)),
        (8, "color_matrix", &|to| {
            to.color_matrix(0, 2, &ColorMatrix::LuminanceToAlpha)
        }),
    ];
    for (number, name, add) in add {
        let first = [Recipe::new(), dilate(Recipe::new(), 0, 1)];
        for (step, before) in (0..).zip(first) {
            let refusal = refused(&add(before), Kind::Premultiplied);
            assert_eq!((refusal.number(), refusal.step()), (number, Some(step)));
            assert_eq!(refusal.offset(), None);
            let place = format!(" at step {step}, {name}: ");
            assert!(refusal.to_string().contains(&place), "{refusal}");
        }
    }
}

/// A recipe of sixteen steps of four tables, all of `length` entries.
fn tables(length: usize) -> Recipe {
    let values = vec![0.5; length];
    let table = TransferFunction::Table(&values);
    (0..16).fold(Recipe::new(), |recipe, i| {
        recipe.component_transfer(0, 1 + i % 3, &table, &table, &table, &table)
    })
}

#[test]
fn as_many_numbers_as_there_is_room_for() {
    let mut sheets = Sheets::new(Kind::Straight, 7, 5, source());
    let result = tables(256).run(&mut sheets).map(<[u8]>::to_vec);
    assert_eq!(result, Ok(vec![127; 140]));
    let said = "refused 11 (Room): over 16,384 numbers of matrices, tables and kernels";
    let refusal = refused(&tables(257), Kind::Straight);
    assert_eq!((refusal, refusal.step()), (Refusal::Room, None));
    assert_eq!(refusal.to_string(), said);
    let refusal = Recipe::from_bytes(&tables(257).to_bytes()).expect_err("a refusal");
    assert_eq!(refusal.to_string(), said);
}

#[test]
fn a_wrong_message_tells_its_place() {
    let message = dilate(Recipe::new(), 0, 1).to_bytes();
    let offset = |message: &[u8]| {
        let refusal = Recipe::from_bytes(message).expect_err("a refusal");
        assert_eq!((refusal.number(), refusal.name()), (10, "Malformed"));
        assert_eq!(refusal.step(), None);
        let offset = refusal.offset().expect("an offset");
        let told = format!("refused 10 (Malformed) at byte {offset}: ");
        assert!(refusal.to_string().starts_with(&told));
        offset
    };
    assert_eq!(offset(&[]), 0);
    assert_eq!(offset(&message[..7]), 5);
    assert_eq!(offset(&[&message[..], &[0]].concat()), message.len() as u64);
    assert_eq!(offset(&[1, 10]), 1);
    assert_eq!(offset(&[1, 1, 0x80, 0]), 2);
    assert_eq!(offset(&[0x80, 0x80, 0x80, 0x80, 0x10]), 0);
}

/// A source is taken exactly where the result has a kind, and then a step is taken that wants this kind alone. Of
/// these recipes each that is taken writes its last output to the slot of as many steps as it has.
#[test]
fn the_kind_of_a_result() {
    let (x, y) = (ColorChannel::R, ColorChannel::G);
    let map = Recipe::new().turbulence(1, 0.0, 0.0, 1.0, 1.0, 0.05, 0.1, 1, 7, true);
    let moved = map.displacement_map(0, 1, 2, x, y, 1.0, 1.0, 20.0);
    let wrong_slots = [
        Recipe::new(),
        dilate(Recipe::new(), 0, 0),
        dilate(Recipe::new(), 0, 4),
        dilate(dilate(Recipe::new(), 0, 1), 1, 1),
    ];
    let three = dilate(moved.clone(), 2, 3);
    let recipes = every_step().into_iter().chain([moved, three]);
    for recipe in recipes.chain(wrong_slots) {
        for source in [Kind::Straight, Kind::Premultiplied] {
            let sheets = Sheets::new(source, 1, 1, [0; 4]);
            let taken = |recipe: &Recipe| recipe.reaches(&sheets).is_ok();
            let kind = recipe.result_kind(source);
            assert_eq!(kind.is_some(), taken(&recipe), "{recipe:?} of {source:?}");
            let Some(kind) = kind else { continue };
            let output = u32::from(recipe.to_bytes()[0]);
            let saturate = ColorMatrix::Saturate(1.0);
            let next = output % 3 + 1;
            let straight = recipe.clone().color_matrix(output, next, &saturate);
            let premultiplied = dilate(recipe.clone(), output, next);
            assert_eq!(taken(&straight), kind == Kind::Straight, "{recipe:?}");
            assert_eq!(taken(&premultiplied), kind == Kind::Premultiplied);
        }
    }
}
