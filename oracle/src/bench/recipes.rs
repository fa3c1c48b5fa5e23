//! Recipes: one step by nup_run beside the single call, and a card's five steps beside the Rust's calls in a row.

use super::{SIDE, card, least, noise, row, slices};
use crate::message;
use crate::ours;
use crate::recipe::{self, Kind, Recipe, Step, Work};

/// examples/recipes/emboss.recipe.
const EMBOSS: &[u8] = include_bytes!("../../../examples/recipes/emboss.recipe");

const HEAD: &str = "\
Recipes, in ns for each pixel: one step by nup_run beside the single call, which works in place where nup_run
copies its input first; five steps beside the Rust's calls in a row, each on copies of its inputs.

| recipe | input | nup_run | beside it | nup_run / beside it |
|---|---|---|---|---|";

pub fn rows() {
    println!("\n{HEAD}");
    if ours::DIRECT {
        one_step("saturate", Work::Saturate(0.5), Kind::Straight);
        let dilate = Work::Morphology(0, 1.0, 1.0);
        one_step("dilate 1 by 1", dilate, Kind::Premultiplied);
    }
    let (steps, pool) = message::read(EMBOSS).expect("a message");
    let recipe = of(steps, pool, Kind::Straight, &card(SIDE));
    let rust = least(
        &mut vec![],
        |_| {},
        |sheets| *sheets = recipe::run(&recipe).sheets,
    );
    let ours = ours::DIRECT.then(|| run(&recipe));
    row("emboss, five steps", "card", pixels(), ours, rust);
}

fn pixels() -> usize {
    (SIDE * SIDE) as usize
}

fn of(steps: Vec<Step>, pool: Vec<f32>, kind: Kind, sheet: &[u8]) -> Recipe {
    Recipe {
        width: SIDE,
        height: SIDE,
        kind,
        pool,
        count: steps.len() as u32,
        steps,
        sheets: vec![sheet.to_vec(); 5],
    }
}

/// The time of nup_run, which leaves its source as it is.
fn run(recipe: &Recipe) -> f64 {
    let (message, kind) = (message::message(recipe), recipe.kind.number());
    let mut sheets = recipe.sheets.clone();
    let call = |sheets: &mut Vec<Vec<u8>>| {
        let answer = message::run(&message, kind, SIDE, SIDE, &mut slices(sheets));
        assert_eq!(answer.number, 0);
    };
    least(&mut sheets, |_| {}, call)
}

fn one_step(what: &str, work: Work, kind: Kind) {
    let sheet = noise(SIDE);
    let step = Step {
        work,
        inputs: vec![0],
        output: 1,
    };
    let recipe = of(vec![step], vec![], kind, &sheet);
    let primitive = work.primitive();
    let call = recipe.call(&work).expect("no range of the pool");
    let mut sheets = vec![sheet.clone(); 1 + primitive.scratch.is_some() as usize];
    let single = least(
        &mut sheets,
        |sheets| sheets[0].copy_from_slice(&sheet),
        |sheets| {
            (primitive.ours)(&call, &mut slices(sheets));
        },
    );
    let ours = Some(run(&recipe));
    row(
        &format!("{what}, one step"),
        "noise",
        pixels(),
        ours,
        single,
    );
}
