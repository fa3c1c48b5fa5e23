//! The stored list of recipes, which a Rattle program replays without Rust.
//!
//! A case is its width and height, a word each; its kind (0 straight, 1 premultiplied), one byte; the message's length, a
//! word, and the message's bytes, without padding; then five times a length with that many bytes (slots 0 to 3 and
//! scratch); then the answer's number and step, 1 where the result reaches slot 0 and else 0, and the answer's offset;
//! and the five sheets' bytes after the run. Words are little-endian u32 at any place; behind each sheet's bytes stand
//! zeros up to the next multiple of four of its length. The end of the file ends the list. The answers are those of
//! nup_run and nup_reaches: the message's own refusals come first.

use super::{Kind, Recipe, STEPS, Step, Work, answer, draw, draw_spoiled};
use crate::message::{Call, Expected, draw_damaged, expected, message, sendable};
use crate::primitives;
use crate::rng::Rng;

const SEED: u64 = 0x7265_6369;
const ACCEPTED: usize = 140;
const MALFORMED: usize = 60;
/// The most bytes of a malformed message.
const LONGEST: usize = 1000;
/// Every fault, and those of a step.
const FAULTS: [u8; 8] = [1, 2, 3, 4, 5, 6, 7, 8];
const OF_STEPS: [u8; 5] = [7, 8, 3, 4, 5];

pub fn list() -> Vec<u8> {
    let mut list = Vec::new();
    for recipe in recipes() {
        let kind = recipe.kind.number();
        let call = Call::new(message(&recipe), kind, &recipe);
        write(&mut list, &call, &expected(&recipe, kind));
    }
    for (call, expected) in malformed() {
        write(&mut list, &call, &expected);
    }
    list
}

/// What is known, then accepted recipes, then recipes with each fault alone and with each other one, then those that
/// are refused at a step of each primitive; each as far as a message can say it.
fn recipes() -> Vec<Recipe> {
    let mut rng = Rng::new(SEED);
    let mut recipes = known();
    recipes.extend((0..ACCEPTED).map(|_| draw(&mut rng)));
    for faults in [&FAULTS[..], &OF_STEPS, &OF_STEPS] {
        for first in faults {
            for second in [&0].into_iter().chain(faults) {
                recipes.push(draw_spoiled(&mut rng, *first, *second));
            }
        }
    }
    for primitive in &primitives::ALL {
        for number in OF_STEPS
            .into_iter()
            .filter(|n| can_give(primitive.name, *n))
        {
            let mut drawn = std::iter::repeat_with(|| draw_spoiled(&mut rng, number, 0));
            let refused = drawn.by_ref().filter(|recipe| {
                let answer = answer(recipe);
                answer.number == number
                    && recipe.steps[answer.step as usize].work.primitive().name == primitive.name
            });
            recipes.extend(refused.take(2));
        }
    }
    recipes.into_iter().map(sendable).collect()
}

/// Messages that are refused 10, each at an offset.
fn malformed() -> impl Iterator<Item = (Call, Expected)> {
    let mut rng = Rng::new(SEED);
    let drawn = std::iter::repeat_with(move || draw_damaged(&mut rng));
    let wrong = drawn.filter(|(call, expected)| {
        expected.answer.number == 10 && call.kind < 2 && call.message.len() <= LONGEST
    });
    wrong.take(MALFORMED)
}

/// Whether a step of this primitive can be refused with this number of `OF_STEPS`.
fn can_give(name: &str, number: u8) -> bool {
    let pooled = ["color_matrix", "component_transfer", "convolve_matrix"].contains(&name);
    let any_kind = ["turbulence", "diffuse_lighting", "specular_lighting"].contains(&name);
    match number {
        3 => pooled,
        8 => !any_kind,
        _ => true,
    }
}

fn step(work: Work, inputs: &[u32], output: u32) -> Step {
    Step {
        work,
        inputs: inputs.into(),
        output,
    }
}

fn known() -> Vec<Recipe> {
    let base = |count: u32, steps: Vec<Step>| Recipe {
        width: 5,
        height: 1,
        kind: Kind::Premultiplied,
        pool: vec![],
        count,
        steps,
        sheets: [3, 5, 7, 11, 13]
            .map(|n| (0..20).map(|i| 7 + i * n).collect())
            .into(),
    };
    let dilate = Work::Morphology(0, 1.0, 0.0);
    let erode = Work::Morphology(1, 0.0, 1.0);
    let add = Work::Arithmetic([0.0, 0.5, 0.5, 0.0]);
    // The source, slot 1, slot 2, slot 1 and so on.
    let to_and_fro: Vec<Step> = (0..STEPS)
        .map(|i| match i {
            0 => step(dilate, &[0], 1),
            _ if i % 2 == 1 => step(erode, &[1], 2),
            _ => step(dilate, &[2], 1),
        })
        .collect();
    let mut recipes = vec![
        base(2, vec![step(dilate, &[0], 1), step(dilate, &[1], 2)]),
        // A diamond that ends where it began, and a slot read twice.
        base(
            4,
            vec![
                step(dilate, &[0], 1),
                step(erode, &[0], 2),
                step(add, &[1, 2], 3),
                step(add, &[3, 3], 1),
            ],
        ),
        // An input that only a later step writes.
        base(2, vec![step(dilate, &[2], 1), step(dilate, &[0], 2)]),
        // What stood in a slot before is no input, though it is a sheet.
        base(1, vec![step(add, &[0, 3], 1)]),
        // A 6 before what is wrong with a step.
        base(0, vec![]),
        base(17, vec![step(dilate, &[9], 9)]),
    ];
    let clouds = Work::Turbulence([0.5, 0.0, 1.0, 1.0, 0.3, 0.7], 3, 346, 1);
    let moved = Work::Displacement([0, 3], [1.0, 1.0, 4.0]);
    recipes.extend([
        // A drawn map moves the source.
        base(2, vec![step(clouds, &[], 1), step(moved, &[0, 1], 2)]),
        // What is drawn last reaches nothing, and moved by itself neither.
        base(2, vec![step(dilate, &[0], 1), step(clouds, &[], 2)]),
        base(2, vec![step(clouds, &[], 1), step(moved, &[1, 1], 3)]),
    ]);
    recipes.extend([15, 16, 17, 18, 255].map(|count| base(count, to_and_fro.clone())));
    recipes.extend(in_one_step().map(|work| base(1, vec![step(work, &[0], 1)])));
    recipes
}

/// Work that is wrong on a premultiplied source, first by its kind, and by more.
fn in_one_step() -> [Work; 3] {
    [
        Work::Matrix(0, 20),
        Work::Saturate(f32::NAN),
        Work::HueRotate(2.0, 0.0),
    ]
}

fn write(list: &mut Vec<u8>, call: &Call, expected: &Expected) {
    write_words(list, [call.lent.width, call.lent.height]);
    list.push(call.kind);
    write_words(list, [call.message.len() as u32]);
    list.extend(&call.message);
    for sheet in &call.lent.sheets {
        write_words(list, [sheet.len() as u32]);
        write_bytes(list, sheet);
    }
    let answer = expected.answer;
    let (number, step) = (answer.number.into(), answer.step.into());
    let offset = u32::try_from(answer.offset).expect("a short message");
    write_words(list, [number, step, expected.reaches.into(), offset]);
    for sheet in &expected.sheets {
        write_bytes(list, sheet);
    }
}

fn write_words(list: &mut Vec<u8>, words: impl IntoIterator<Item = u32>) {
    list.extend(words.into_iter().flat_map(u32::to_le_bytes));
}

fn write_bytes(list: &mut Vec<u8>, bytes: &[u8]) {
    list.extend(bytes);
    let padding = bytes.len().next_multiple_of(4) - bytes.len();
    list.resize(list.len() + padding, 0);
}

#[cfg(test)]
mod tests {
    use super::super::{Kernel, Lighting};
    use super::*;
    use crate::message::read;
    use crate::recipe::SCRATCH;
    use std::collections::{BTreeMap, BTreeSet};

    const MOST_BYTES: usize = 250_000;

    /// A list and the place in it.
    struct Reader<'a>(&'a [u8], usize);

    impl Reader<'_> {
        fn word(&mut self) -> u32 {
            self.1 += 4;
            u32::from_le_bytes(self.0[self.1 - 4..self.1].try_into().unwrap())
        }

        /// What stands before the sheets.
        fn head(&mut self) {
            self.1 += 9;
            let length = self.word() as usize;
            let (start, end) = (self.1, self.1 + length);
            let told = read(&self.0[start..end]);
            assert!(told.map_or(true, |(_, pool)| pool.len() < 4096));
            self.1 = end;
        }

        /// The sheets before and after, and the answer between: its number and step, whether it reaches, and its offset.
        fn run(&mut self) -> [u32; 4] {
            let mut spans = Vec::new();
            for _ in 0..5 {
                let length = self.word() as usize;
                spans.push(self.1..self.1 + length);
                self.1 += length.next_multiple_of(4);
            }
            let answer = [(); 4].map(|()| self.word());
            for (slot, span) in spans.into_iter().enumerate() {
                let after = &self.0[self.1..self.1 + span.len()];
                self.1 += span.len().next_multiple_of(4);
                if answer[0] != 0 || slot == 0 {
                    assert_eq!(self.0[span], *after);
                } else if slot == SCRATCH {
                    assert!(after.iter().all(|b| *b == 0));
                }
            }
            answer
        }
    }

    /// Reads a list back by its description alone: the answers.
    fn answers(list: &[u8]) -> Vec<[u32; 4]> {
        let mut reader = Reader(list, 0);
        let mut answers = Vec::new();
        while reader.1 < list.len() {
            reader.head();
            answers.push(reader.run());
        }
        assert_eq!(reader.1, list.len());
        answers
    }

    #[test]
    fn the_list_reads_back_and_holds_every_answer_at_many_steps() {
        let bytes = list();
        assert_eq!(bytes, list());
        println!("{} bytes", bytes.len());
        assert!(bytes.len() <= MOST_BYTES);
        let answers = answers(&bytes);
        println!("{} recipes", answers.len());
        assert!(answers.len() > 400);
        for number in (0..9).chain([10]) {
            let these = answers.iter().filter(|answer| answer[0] == number);
            let count = these.clone().count();
            let steps: BTreeSet<u32> = these.clone().map(|answer| answer[1]).collect();
            let offsets: BTreeSet<u32> = these.map(|answer| answer[3]).collect();
            println!("{number}: {count} recipes, steps {steps:?}, offsets {offsets:?}");
            assert!(count >= 12, "{number}");
            let of_steps = [3, 4, 5, 7, 8].contains(&number);
            assert!(if of_steps {
                steps.len() >= 5
            } else {
                steps.len() == 1
            });
            assert!(if number == 10 {
                offsets.len() >= 20
            } else {
                offsets.len() == 1
            });
        }
        // A refused recipe reaches nothing, and one that draws turbulence need not reach the source.
        assert!(
            answers
                .iter()
                .all(|answer| answer[0] == 0 || answer[2] == 0)
        );
        let accepted = answers.iter().filter(|answer| answer[0] == 0);
        let reach = accepted.clone().filter(|answer| answer[2] == 1).count();
        println!("{reach} reach the source");
        assert!(reach >= 100 && accepted.count() - reach >= 15);
    }

    /// Each primitive is run often, and stands where a recipe is refused for each reason that it can give.
    #[test]
    fn every_work_is_taken_and_refused() {
        let mut seen = BTreeMap::new();
        for recipe in recipes() {
            let answer = answer(&recipe);
            let steps: &[Step] = match answer.number {
                0 => recipe.taken(),
                1 | 2 | 6 => &[],
                _ => &recipe.steps[answer.step as usize..][..1],
            };
            for step in steps {
                let name = step.work.primitive().name;
                seen.entry(name).or_insert([0; 9])[answer.number as usize] += 1;
            }
        }
        for (name, counts) in &seen {
            println!("{name}: {counts:?}");
            assert!(counts[0] >= 20, "{name}");
            for number in OF_STEPS {
                let often = counts[number as usize] > 1;
                assert_eq!(often, can_give(name, number), "{name} {number}");
            }
        }
        assert_eq!(seen.len(), primitives::ALL.len());
    }

    /// The first test that fails answers: 1, 2, 6, then step by step 7, 8, 3, 4, 5.
    #[test]
    fn the_order_of_the_tests() {
        let all_wrong = step(Work::Matrix(0, 19), &[2], 2);
        let mut recipe = Recipe {
            width: 0,
            height: 1,
            kind: Kind::Premultiplied,
            pool: vec![f32::NAN; 20],
            count: 17,
            steps: vec![step(Work::Saturate(1.0), &[0], 1), all_wrong],
            sheets: vec![vec![0; 4], vec![1; 4], vec![2; 4], vec![3; 4], vec![]],
        };
        let see = |recipe: &Recipe, number: u8, index: u8| {
            let seen = answer(recipe);
            assert_eq!((seen.number, seen.step), (number, index));
        };
        see(&recipe, 1, 0);
        recipe.width = 1;
        see(&recipe, 2, 0);
        recipe.sheets[SCRATCH] = vec![4; 4];
        see(&recipe, 6, 0);
        recipe.count = 0;
        see(&recipe, 6, 0);
        recipe.count = 2;
        see(&recipe, 8, 0);
        recipe.kind = Kind::Straight;
        see(&recipe, 7, 1);
        recipe.steps[1] = step(Work::Morphology(0, f32::NAN, -1.0), &[3], 2);
        see(&recipe, 7, 1);
        recipe.steps[1].inputs = vec![1];
        see(&recipe, 8, 1);
        recipe.steps[1] = step(Work::Matrix(0, 19), &[1], 2);
        see(&recipe, 3, 1);
        recipe.steps[1].work = Work::Matrix(1, 20);
        see(&recipe, 3, 1);
        recipe.steps[1].work = Work::Matrix(0, 20);
        see(&recipe, 4, 1);
        recipe.pool = vec![70000.0; 20];
        see(&recipe, 5, 1);
        recipe.pool = vec![65536.0; 20];
        see(&recipe, 0, 0);
        recipe.count = 3;
        recipe.steps.push(step(Work::LuminanceToAlpha, &[0], 0));
        see(&recipe, 7, 2);
        // An earlier step's fault of a later number comes first.
        recipe.steps[0].work = Work::HueRotate(1.0, 1.0);
        see(&recipe, 5, 0);
    }

    fn lone_kernel(preserve_alpha: bool) -> Work {
        Work::Convolve(Kernel {
            columns: 1,
            rows: 1,
            target_x: 0,
            target_y: 0,
            start: 0,
            length: 1,
            divisor: 1.0,
            bias: 0.0,
            edge: 0,
            preserve_alpha,
        })
    }

    /// What each work makes of which kind: the second step takes it, or is refused 8.
    #[test]
    fn the_kinds_of_what_is_made() {
        let lighting = Lighting {
            light: 1,
            place: [0.0, 0.0, 9.0],
            surface_scale: 1.0,
            constant: 1.0,
            color: [255; 3],
        };
        let moved = Work::Displacement([0, 1], [1.0; 3]);
        let clouds = Work::Turbulence([1.0; 6], 1, 1, 0);
        let (straight, premultiplied) = (Kind::Straight, Kind::Premultiplied);
        let made = |kind: Kind, work: Work, inputs: &[u32]| {
            let works = [
                (Work::Saturate(1.0), straight),
                (Work::Morphology(0, 1.0, 1.0), premultiplied),
            ];
            let taken = works.into_iter().filter(|(next, _)| {
                let steps = vec![
                    step(clouds, &[], 1),
                    step(work, inputs, 2),
                    step(*next, &[2], 3),
                ];
                let recipe = Recipe {
                    width: 1,
                    height: 1,
                    kind,
                    pool: vec![1.0],
                    count: 3,
                    steps,
                    sheets: vec![vec![0; 4]; 5],
                };
                answer(&recipe).number == 0
            });
            taken.map(|(_, kind)| kind).collect::<Vec<Kind>>()
        };
        for source in [straight, premultiplied] {
            assert_eq!(made(source, moved, &[0, 1]), [source]);
            assert_eq!(made(source, Work::Diffuse(lighting), &[0]), [straight]);
            assert_eq!(
                made(source, Work::Specular(lighting, 1.0), &[0]),
                [premultiplied]
            );
            assert_eq!(made(source, clouds, &[]), [straight]);
        }
        assert_eq!(made(straight, lone_kernel(true), &[0]), [premultiplied]);
        assert_eq!(
            made(premultiplied, lone_kernel(false), &[0]),
            [premultiplied]
        );
        assert_eq!(made(premultiplied, lone_kernel(true), &[0]), []);
        assert_eq!(made(straight, lone_kernel(false), &[0]), []);
        assert_eq!(made(premultiplied, moved, &[1, 0]), []);
    }
}
