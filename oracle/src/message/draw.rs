//! Recipes as messages carry them: 0 to 18 steps, any number below 2^32 in the place of a slot or a count, every
//! pattern of NaN, and as many numbers as there is room for, or one more.

use super::damage::damaged;
use super::write::words;
use super::{Call, Expected, expected, expected_of, message, read};
use crate::nasty;
use crate::recipe::{self, Function, Kind, Recipe, STEPS, Step, Work, spoil_float};
use crate::rng::Rng;

/// The most steps that are drawn.
const MOST: u32 = STEPS as u32 + 2;

/// A call, and what is expected of it.
pub type Drawn = (Call, Expected);

/// A recipe that is mostly accepted.
pub fn draw(rng: &mut Rng) -> Drawn {
    let recipe = good(rng);
    of_recipe(recipe)
}

/// A recipe with up to three faults.
pub fn draw_spoiled(rng: &mut Rng) -> Drawn {
    let mut recipe = spoiled(rng);
    if rng.one_in(16) {
        let kind = rng.pick(&[2, 3, 128, 255]);
        recipe.kind = rng.pick(&[Kind::Straight, Kind::Premultiplied]);
        return with_kind(recipe, kind);
    }
    of_recipe(recipe)
}

/// A message that is damaged; its reader says what is expected. Where damage made the lowest seed, another is drawn.
pub fn draw_damaged(rng: &mut Rng) -> Drawn {
    let mut call = damaged_call(rng);
    while has_lowest_seed(&call.message) {
        call = damaged_call(rng);
    }
    let expected = expected_of(&call);
    (call, expected)
}

fn damaged_call(rng: &mut Rng) -> Call {
    let recipe = match rng.one_in(2) {
        true => good(rng),
        false => spoiled(rng),
    };
    let kind = if rng.one_in(16) {
        2
    } else {
        recipe.kind.number()
    };
    Call::new(damaged(rng, &words(&recipe)), kind, &recipe)
}

/// Whether a step has the seed at which turbulence.rs overflows.
fn has_lowest_seed(message: &[u8]) -> bool {
    let lowest = |step: &Step| matches!(step.work, Work::Turbulence(_, _, i32::MIN, _));
    read(message).is_ok_and(|(steps, _)| steps.iter().any(lowest))
}

fn of_recipe(recipe: Recipe) -> Drawn {
    let kind = recipe.kind.number();
    with_kind(recipe, kind)
}

fn with_kind(recipe: Recipe, kind: u8) -> Drawn {
    let call = Call::new(message(&recipe), kind, &recipe);
    (call, expected(&recipe, kind))
}

fn good(rng: &mut Rng) -> Recipe {
    match rng.one_in(128) {
        true => full(rng),
        false => sendable(recipe::draw(rng)),
    }
}

fn spoiled(rng: &mut Rng) -> Recipe {
    let (first, second) = (rng.below(9) as u8, rng.below(9) as u8);
    let mut recipe = recipe::draw_spoiled(rng, first, second);
    if rng.one_in(8) {
        recipe.count = rng.below(MOST + 1);
    }
    let mut recipe = sendable(recipe);
    if !recipe.steps.is_empty() {
        let at = rng.below(recipe.count) as usize;
        match rng.below(4) {
            0 => widen(rng, &mut recipe.steps[at]),
            1 => put_nan(rng, &mut recipe, at),
            _ => {}
        }
    }
    recipe
}

/// The recipe as a message can say it: it has all of its steps, at most 18, and a range that leaves the pool, as none of a
/// message does, becomes one of 257 more numbers, which is refused 3 as well.
pub fn sendable(mut recipe: Recipe) -> Recipe {
    recipe.count = recipe.count.min(MOST);
    let own = recipe.steps.clone();
    let repeated = own.into_iter().cycle();
    recipe.steps = repeated.take(recipe.count as usize).collect();
    let Recipe { steps, pool, .. } = &mut recipe;
    for (start, count) in steps.iter_mut().flat_map(|step| step.work.ranges()) {
        let length = pool.len() as u32;
        if start.checked_add(*count).is_none_or(|end| end > length) {
            (*start, *count) = (length, 257);
            pool.resize(pool.len() + 257, 0.0);
        }
    }
    recipe
}

/// Adds to one of the step's whole numbers what a narrower type would lose.
fn widen(rng: &mut Rng, step: &mut Step) {
    let more = rng.pick(&[8, 256, 256, 1 << 16, 1 << 31, u32::MAX]);
    let number = match (&mut step.work, step.inputs.first_mut()) {
        (Work::Turbulence(_, octaves, ..), _) if !rng.one_in(3) => octaves,
        (Work::Convolve(kernel), _) if !rng.one_in(3) => rng.pick_mut([
            &mut kernel.columns,
            &mut kernel.rows,
            &mut kernel.target_x,
            &mut kernel.target_y,
        ]),
        (_, Some(input)) if rng.one_in(2) => input,
        _ => &mut step.output,
    };
    *number = number.saturating_add(more);
}

/// A NaN of any pattern in the place of one of the step's floats.
fn put_nan(rng: &mut Rng, recipe: &mut Recipe, at: usize) {
    let (sign, payload) = (rng.below(2), rng.bits() >> 9);
    let payload = match rng.below(4) {
        0 => 1,
        1 => 1 << 22,
        _ => payload.max(1),
    };
    let bits = sign << 31 | 0xff << 23 | payload;
    match &mut recipe.steps[at].work {
        Work::Turbulence(doubles, ..) => {
            let fraction = rng.pick(&[1, 1 << 51, payload as u64, (payload as u64) << 29]);
            let bits = (sign as u64) << 63 | 0x7ff << 52 | fraction;
            doubles[rng.below(6) as usize] = f64::from_bits(bits);
        }
        _ => spoil_float(rng, recipe, at, &[f32::from_bits(bits)]),
    }
}

/// Sixteen steps of four full tables: as many numbers as a message can hold. Or a table of one number more or fewer,
/// a step more, or all numbers in one kernel or one matrix.
fn full(rng: &mut Rng) -> Recipe {
    let (width, height) = (1 + rng.below(3), 1);
    let variant = rng.below(8);
    let count = if variant == 3 { STEPS + 1 } else { STEPS };
    let mut steps: Vec<Step> = (0..count as u32)
        .map(|i| Step {
            work: Work::Transfer([Function::Table(0, 256); 4]),
            inputs: vec![if i == 0 { 0 } else { 1 + i % 2 }],
            output: 2 - i % 2,
        })
        .collect();
    let at = rng.below(count as u32) as usize;
    let other = |length: u32| {
        let table = Function::Discrete(0, 256);
        Work::Transfer([table, table, Function::Table(0, length), table])
    };
    let lone = (super::POOL as u32) + rng.below(2);
    match variant {
        0 | 1 => steps[at].work = other(257),
        2 => steps[at].work = other(255),
        4 => {
            steps.truncate(1);
            steps[0].work = Work::Matrix(0, lone);
        }
        _ => {}
    }
    let pool = if variant == 4 { lone } else { 257 };
    Recipe {
        width,
        height,
        kind: Kind::Straight,
        pool: (0..pool).map(|_| rng.unit()).collect(),
        count: steps.len() as u32,
        steps,
        sheets: (0..5).map(|_| nasty::sheet(rng, width, height)).collect(),
    }
}

#[cfg(test)]
mod tests {
    use super::*;
    use std::collections::BTreeSet;

    /// What is read of a recipe's message is written as the same message, and expects the same.
    #[test]
    fn messages_come_back() {
        let mut rng = Rng::new(3);
        let mut most = 0;
        for i in 0..6000 {
            let recipe = if i % 2 == 0 {
                good(&mut rng)
            } else {
                spoiled(&mut rng)
            };
            let (call, expected) = of_recipe(recipe.clone());
            assert_eq!(expected_of(&call), expected);
            if let Ok((steps, pool)) = read(&call.message) {
                most = most.max(pool.len());
                let again = Recipe {
                    steps,
                    pool,
                    ..recipe
                };
                assert_eq!(message(&again), call.message);
            }
        }
        assert_eq!(most, super::super::POOL);
    }

    /// The draws meet every answer that there is, recipes of every length from 0 to 18 among them.
    #[test]
    fn draws_meet_every_answer() {
        let mut rng = Rng::new(4);
        let (mut answers, mut counts) = ([[0; 12]; 3], BTreeSet::new());
        for _ in 0..4000 {
            let drawn = [draw, draw_spoiled, draw_damaged].map(|draw| draw(&mut rng));
            counts.extend(drawn[..2].iter().map(|(call, _)| call.message[0]));
            for (answers, (_, expected)) in answers.iter_mut().zip(drawn) {
                answers[expected.answer.number as usize] += 1;
            }
        }
        println!("{answers:?} {counts:?}");
        assert_eq!(counts, (0..=MOST as u8).collect());
        let met = |i: usize| {
            (0..12)
                .filter(|n| answers[i][*n] > 0)
                .collect::<Vec<usize>>()
        };
        assert_eq!(met(0), [0, 3, 6, 11]);
        assert_eq!(met(1), [0, 1, 2, 3, 4, 5, 6, 7, 8]);
        assert_eq!(met(2)[..10], [0, 1, 2, 3, 4, 5, 6, 7, 8, 10]);
    }

    /// The lowest seed is known in a message, and its neighbour is none.
    #[test]
    fn the_lowest_seed_is_found() {
        let with = |seed: i32| {
            let mut recipe = full(&mut Rng::new(6));
            recipe.steps = vec![Step {
                work: Work::Turbulence([1.0; 6], 1, seed, 0),
                inputs: vec![],
                output: 1,
            }];
            has_lowest_seed(&message(&recipe))
        };
        assert_eq!([i32::MIN, -i32::MAX].map(with), [true, false]);
    }

    /// The message's own refusals come first, then the kind's, then those of a run.
    #[test]
    fn the_order_of_the_tests() {
        let mut rng = Rng::new(5);
        let mut recipe = full(&mut rng);
        while recipe.steps.len() < 2 {
            recipe = full(&mut rng);
        }
        recipe.width = 0;
        let one = recipe.steps[0].clone();
        let number = |recipe: &Recipe, end: &[u8]| {
            let mut call = Call::new(message(recipe), 2, recipe);
            call.message.extend(end);
            expected_of(&call).answer.number
        };
        recipe.steps.resize(17, one.clone());
        assert_eq!((number(&recipe, &[0]), number(&recipe, &[])), (10, 6));
        recipe.steps.truncate(16);
        let long = Work::Transfer([Function::Table(0, 257); 4]);
        recipe.steps.iter_mut().for_each(|step| step.work = long);
        assert_eq!((number(&recipe, &[0]), number(&recipe, &[])), (10, 11));
        recipe.steps.clear();
        assert_eq!((number(&recipe, &[0]), number(&recipe, &[])), (10, 5));
        let run = |recipe: &Recipe| expected_of(&Call::new(message(recipe), 0, recipe));
        assert_eq!(run(&recipe).answer.number, 1);
        recipe.width = 4;
        assert_eq!(run(&recipe).answer.number, 2);
        recipe.sheets = vec![vec![0; 16]; 5];
        assert_eq!(run(&recipe).answer.number, 6);
        recipe.steps.push(one);
        assert_eq!(run(&recipe).answer.number, 0);
    }
}
