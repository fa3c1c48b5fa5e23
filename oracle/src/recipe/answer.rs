//! docs/LAW.md's tests of a recipe: 1, 2 and 6, then step by step 7, 8, 3, 4 and 5.

use super::{Kind, Recipe, STEPS, Step};
use crate::case::Answer;
use crate::table;

/// What the slots 0 to 3 hold: nothing, or a sheet of a kind.
type Held = [Option<Kind>; 4];

/// What they hold after these steps, whose slots are taken.
pub fn held(source: Kind, steps: &[Step]) -> Held {
    let mut held = [Some(source), None, None, None];
    steps.iter().for_each(|step| write(step, &mut held));
    held
}

fn write(step: &Step, held: &mut Held) {
    let first = step.inputs.first().and_then(|slot| held[*slot as usize]);
    held[step.output as usize] = step.work.makes(first);
}

pub fn answer(recipe: &Recipe) -> Answer {
    let number = before_steps(recipe);
    if number != 0 {
        return Answer { number, step: 0 };
    }
    let mut held = held(recipe.kind, &[]);
    for (step, index) in recipe.taken().iter().zip(0..) {
        let number = of_step(recipe, step, &held);
        if number != 0 {
            return Answer {
                number,
                step: index,
            };
        }
        write(step, &mut held);
    }
    Answer { number: 0, step: 0 }
}

/// Tests 1, 2 and 6.
fn before_steps(recipe: &Recipe) -> u8 {
    match table::sheets(recipe.width, recipe.height, &recipe.sheets) {
        0 if recipe.count == 0 || recipe.count as usize > STEPS => 6,
        number => number,
    }
}

/// Tests 7, 8, 3, 4 and 5 of one step.
fn of_step(recipe: &Recipe, step: &Step, held: &Held) -> u8 {
    let slots = step.inputs.iter().chain([&step.output]);
    let unwritten = |slot: u32| held[slot as usize].is_none();
    if slots.into_iter().any(|slot| *slot > 3)
        || step.output == 0
        || step.inputs.contains(&step.output)
        || step.inputs.iter().any(|slot| unwritten(*slot))
    {
        return 7;
    }
    let wanted = step.work.wanted();
    let wrong =
        |(slot, wanted): (&u32, &Option<Kind>)| wanted.is_some() && held[*slot as usize] != *wanted;
    if step.inputs.iter().zip(&wanted).any(wrong) {
        return 8;
    }
    match recipe.call(&step.work) {
        None => 3,
        Some(call) => table::parameters(&(step.work.primitive().reading)(&call)),
    }
}
