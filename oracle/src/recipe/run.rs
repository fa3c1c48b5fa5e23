//! A run of a recipe by resvg's functions, step by step.

use super::{Recipe, SCRATCH, Step, answer};
use crate::case::Outcome;

/// What is expected of a run: on a refusal no byte changes.
pub fn run(recipe: &Recipe) -> Outcome {
    let answer = answer(recipe);
    let mut sheets = recipe.sheets.clone();
    if answer.number == 0 {
        for step in recipe.taken() {
            sheets[step.output as usize] = made(recipe, step, &sheets);
        }
        sheets[SCRATCH].fill(0);
    }
    Outcome { answer, sheets }
}

/// The step's output: copies of its inputs, and a destination, if there is one, go through the Rust.
fn made(recipe: &Recipe, step: &Step, slots: &[Vec<u8>]) -> Vec<u8> {
    let primitive = step.work.primitive();
    let call = recipe.call(&step.work).expect("tested");
    let mut sheets: Vec<Vec<u8>> = step
        .inputs
        .iter()
        .map(|slot| slots[*slot as usize].clone())
        .collect();
    if primitive.dest.is_some() || primitive.scratch.is_some() {
        sheets.push(vec![0x5a; slots[0].len()]);
    }
    primitive.run_rust(&call, &mut sheets);
    sheets.swap_remove(primitive.dest.unwrap_or(0))
}

#[cfg(test)]
mod tests {
    use super::*;
    use crate::recipe::{Kind, Work, draw, draw_spoiled, reach};
    use crate::rng::Rng;

    fn alphas(values: &[u8]) -> Vec<u8> {
        values.iter().flat_map(|a| [0, 0, 0, *a]).collect()
    }

    fn step(work: Work, inputs: &[u32], output: u32) -> Step {
        Step {
            work,
            inputs: inputs.into(),
            output,
        }
    }

    fn recipe(source: Vec<u8>, steps: Vec<Step>) -> Recipe {
        let junk = |b: u8| vec![b; source.len()];
        Recipe {
            width: source.len() as u32 / 4,
            height: 1,
            kind: Kind::Premultiplied,
            pool: vec![],
            count: steps.len() as u32,
            steps,
            sheets: vec![source.clone(), junk(11), junk(22), junk(33), junk(44)],
        }
    }

    #[test]
    fn dilate_twice() {
        let dilate = Work::Morphology(0, 1.0, 0.0);
        let steps = vec![step(dilate, &[0], 1), step(dilate, &[1], 2)];
        let recipe = recipe(alphas(&[9, 0, 70, 0, 200]), steps);
        let outcome = run(&recipe);
        assert_eq!(outcome.answer.number, 0);
        let expected = [
            recipe.sheets[0].clone(),
            alphas(&[9, 70, 70, 200, 200]),
            alphas(&[70, 70, 200, 200, 200]),
            vec![33; 20],
            vec![0; 20],
        ];
        assert_eq!(outcome.sheets, expected);
        assert_eq!(reach(&recipe, 3), [3, 7, 11]);
        assert_eq!(reach(&recipe, 11), [3, 7, 11, 15, 19]);
    }

    /// Both branches of a diamond are kept, a slot is written again, and both inputs are one slot.
    #[test]
    fn diamond() {
        let steps = vec![
            step(Work::Morphology(0, 1.0, 0.0), &[0], 1),
            step(Work::Morphology(1, 1.0, 0.0), &[0], 2),
            step(Work::Arithmetic([0.0, 1.0, -1.0, 0.0]), &[1, 2], 3),
            step(Work::Arithmetic([0.0, 0.5, 0.5, 0.0]), &[3, 3], 1),
        ];
        let recipe = recipe(alphas(&[10, 200, 30]), steps);
        let outcome = run(&recipe);
        let expected = [
            recipe.sheets[0].clone(),
            alphas(&[190, 190, 170]),
            alphas(&[10, 10, 30]),
            alphas(&[190, 190, 170]),
            vec![0; 12],
        ];
        assert_eq!(outcome.sheets, expected);
        assert_eq!(reach(&recipe, 3), [3, 7]);
        assert_eq!(reach(&recipe, 0), [0, 3, 4, 7]);
    }

    #[test]
    fn refusals_change_nothing() {
        let mut rng = Rng::new(5);
        for faults in 0..500 {
            let recipe = draw_spoiled(&mut rng, 1 + faults as u8 % 8, 0);
            let outcome = run(&recipe);
            assert!(outcome.answer.number == 0 || outcome.sheets == recipe.sheets);
        }
    }

    /// A byte outside its reach, or of a working slot or scratch, never changes a result byte in the Rust.
    #[test]
    fn results_depend_on_their_reach_alone() {
        let mut rng = Rng::new(6);
        for _ in 0..300 {
            let recipe = draw(&mut rng);
            let result = recipe.taken().last().unwrap().output as usize;
            let before = run(&recipe).sheets;
            let k = rng.below(before[0].len() as u32) as usize;
            let reached = reach(&recipe, k);
            let mut other = recipe.clone();
            for (slot, sheet) in other.sheets.iter_mut().enumerate() {
                for (j, byte) in sheet.iter_mut().enumerate() {
                    if slot != 0 || !reached.contains(&j) {
                        *byte = rng.byte();
                    }
                }
            }
            assert_eq!(run(&other).sheets[result][k], before[result][k]);
        }
    }
}
