//! docs/MESSAGES.md: its numbers and its example of each step are what is written here, and are read back.

use std::fs;
use std::path::Path;

use oracle::message::{message, read, shortest};
use oracle::recipe::{Function, Kernel, Kind, Lighting, Recipe, Step, Work};

fn document() -> String {
    let path = Path::new(env!("CARGO_MANIFEST_DIR")).join("../docs/MESSAGES.md");
    fs::read_to_string(path).expect("the document")
}

fn bytes(hex: &str) -> Vec<u8> {
    let byte = |two: &str| u8::from_str_radix(two, 16).expect(two);
    hex.split(' ').map(byte).collect()
}

/// The indented lines below the heading of each step: their bytes stand before two spaces.
fn examples(document: &str) -> Vec<Vec<u8>> {
    let each = document.split("\n### ").skip(1).map(|example| {
        let lines = example.lines().filter_map(|line| line.strip_prefix("    "));
        let hex = lines.map(|line| line.split_once("  ").expect("what it says").0);
        hex.flat_map(bytes).collect()
    });
    each.collect()
}

const LIST: [f32; 3] = [1.0, 0.0, 0.5];
const KERNEL: Kernel = Kernel {
    columns: 2,
    rows: 1,
    target_x: 1,
    target_y: 0,
    start: 3,
    length: 2,
    divisor: 4.0,
    bias: 0.0,
    edge: 1,
    preserve_alpha: false,
};

fn steps() -> [(Work, Vec<u32>, u32); 9] {
    let lighting = |light, place, surface_scale, constant, color| Lighting {
        light,
        place,
        surface_scale,
        constant,
        color,
    };
    let warm = lighting(0, [0.6, 0.0, 0.8], 5.0, 1.0, [255, 240, 200]);
    let blue = lighting(1, [40.0, 30.0, 90.0], 2.0, 0.5, [0, 0, 255]);
    let functions = [
        Function::Table(0, 2),
        Function::Discrete(2, 1),
        Function::Linear(2.0, -1.0),
        Function::Identity,
    ];
    [
        (Work::Morphology(0, 1.0, 0.0), vec![0], 1),
        (Work::Saturate(0.5), vec![0], 2),
        (Work::Transfer(functions), vec![0], 1),
        (Work::Arithmetic([0.0, 1.0, -1.0, 0.0]), vec![0, 1], 2),
        (Work::Convolve(KERNEL), vec![0], 1),
        (Work::Displacement([0, 3], [1.0, 1.0, 20.0]), vec![0, 1], 2),
        (
            Work::Turbulence([0.0, 0.0, 1.0, 1.0, 0.05, 0.5], 3, -5, 1),
            vec![],
            1,
        ),
        (Work::Diffuse(warm), vec![0], 1),
        (Work::Specular(blue, 1.0), vec![0], 1),
    ]
}

fn recipe(steps: Vec<Step>, pool: Vec<f32>) -> Recipe {
    Recipe {
        width: 1,
        height: 1,
        kind: Kind::Straight,
        pool,
        count: steps.len() as u32,
        steps,
        sheets: vec![],
    }
}

#[test]
fn the_example_of_each_step_is_its_message() {
    let examples = examples(&document());
    assert_eq!(examples.len(), 9);
    for (example, (work, inputs, output)) in examples.into_iter().zip(steps()) {
        let step = Step {
            work,
            inputs,
            output,
        };
        let pool = [&LIST[..], &[1.0, 3.0]].concat();
        assert_eq!(message(&recipe(vec![step], pool)), example);
        let (steps, pool) = read(&example).expect("a message");
        assert_eq!(message(&recipe(steps, pool)), example);
    }
}

#[test]
fn the_numbers_are_in_their_shortest_form() {
    let document = document();
    let rows = document.lines().filter_map(|line| {
        let (number, hex) = line.strip_prefix("| ")?.split_once(" | ")?;
        Some((number.parse().ok()?, hex.strip_suffix(" |")?))
    });
    let rows: Vec<(u64, &str)> = rows.filter(|(_, hex)| !hex.contains('|')).collect();
    assert!(rows.len() > 4);
    for (number, hex) in rows {
        assert_eq!(shortest(number), bytes(hex), "{number}");
    }
}
