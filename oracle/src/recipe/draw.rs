//! Recipes that are awkward on purpose: chains and diamonds, slots read twice and written again, and
//! recipes with one or two faults, so that the order of the tests shows.

use super::{Function, Kernel, Kind, Lighting, Recipe, STEPS, Step, Work, held};
use crate::case::Case;
use crate::nasty::{self, Limits};
use crate::primitives;
use crate::rng::Rng;
use crate::table::{LEAST_DIVISOR, SIDE, WIDE};

const LIMITS: Limits = Limits {
    side: 5,
    any_nan: false,
};

/// A recipe that is accepted.
pub fn draw(rng: &mut Rng) -> Recipe {
    let kind = rng.pick(&[Kind::Straight, Kind::Premultiplied, Kind::Premultiplied]);
    let count = rng.pick(&[1, 1, 2, 2, 2, 3, 3, 3, 4, 4, 5, 6, 7, 9, 12, 16]);
    let side = rng.pick(&[1, 2, 2, 3, 3, 5]);
    let size = match rng.one_in(3) {
        // Light falls on no smaller ones.
        true => (3 + rng.below(2), 3 + rng.below(2)),
        false => nasty::size(rng, Limits { side, ..LIMITS }),
    };
    draw_of(rng, size, kind, count)
}

fn draw_of(rng: &mut Rng, (width, height): (u32, u32), kind: Kind, count: u32) -> Recipe {
    let mut recipe = Recipe {
        width,
        height,
        kind,
        pool: vec![f32::NAN; rng.pick(&[0, 0, 1, 3])],
        count,
        steps: vec![],
        sheets: (0..5).map(|_| nasty::sheet(rng, width, height)).collect(),
    };
    let chain = rng.one_in(3);
    for _ in 0..count {
        let step = draw_step(rng, &mut recipe, chain);
        recipe.steps.push(step);
    }
    if rng.one_in(4) {
        // Numbers that no step has.
        recipe.pool.push(f32::INFINITY);
    }
    if rng.one_in(4) && recipe.steps.len() < STEPS {
        // A step past the count, which nobody looks at.
        recipe.steps.push(Step {
            work: Work::Matrix(7, u32::MAX),
            inputs: vec![200],
            output: 0,
        });
    }
    recipe
}

/// A step that reads the source or what earlier steps wrote; in a chain, the step before.
fn draw_step(rng: &mut Rng, recipe: &mut Recipe, chain: bool) -> Step {
    let held = held(recipe.kind, &recipe.steps);
    let last = recipe.steps.last().map_or(0, |step| step.output);
    let others: Vec<u32> = (1..4).filter(|slot| !chain || *slot != last).collect();
    let output = rng.pick(&others);
    let readable = |kind: Option<Kind>| -> Vec<u32> {
        let holds =
            |slot: u32| held[slot as usize].is_some_and(|has| kind.is_none_or(|k| k == has));
        let slots = (0..4).filter(|slot| *slot != output && holds(*slot));
        slots.collect()
    };
    let first = match chain {
        true => last,
        false => rng.pick(&readable(None)),
    };
    let mapped = !readable(Some(Kind::Straight)).is_empty();
    let work = draw_work(rng, recipe, held[first as usize].unwrap(), mapped);
    let mut inputs: Vec<u32> = work
        .wanted()
        .into_iter()
        .map(|kind| rng.pick(&readable(kind)))
        .collect();
    if let Some(input) = inputs.first_mut() {
        *input = first;
    }
    Step {
        work,
        inputs,
        output,
    }
}

/// The primitives of a step that reads this kind first.
fn names(kind: Kind, mapped: bool) -> Vec<&'static str> {
    let either = [
        "convolve_matrix",
        "diffuse_lighting",
        "specular_lighting",
        "turbulence",
    ];
    let own = match kind {
        Kind::Premultiplied => ["morphology", "composite"],
        Kind::Straight => ["color_matrix", "component_transfer"],
    };
    let map: &[&str] = if mapped {
        &["displacement_map"; 2]
    } else {
        &[]
    };
    [&own, &own, &own, &either[..], map].concat()
}

/// Work on that kind: mostly such that something of the picture is left after some steps.
fn draw_work(rng: &mut Rng, recipe: &mut Recipe, kind: Kind, mapped: bool) -> Work {
    let wild = rng.one_in(4);
    let name = rng.pick(&names(kind, mapped));
    match name {
        "color_matrix" if !rng.one_in(4) => draw_matrix(rng, recipe, wild),
        "color_matrix" => {
            let angle = std::f32::consts::TAU * rng.unit();
            let hue = Work::HueRotate(angle.cos(), angle.sin());
            rng.pick(&[hue, hue, Work::Saturate(0.4), Work::LuminanceToAlpha])
        }
        "component_transfer" => Work::Transfer([(); 4].map(|_| draw_function(rng, recipe, wild))),
        "convolve_matrix" => Work::Convolve(draw_kernel(rng, recipe, kind == Kind::Straight, wild)),
        "morphology" if !wild => Work::Morphology(
            rng.below(2),
            nasty::radius(rng, 1),
            rng.pick(&[0.0, 0.0, 1.0]),
        ),
        "composite" if !wild => {
            let part = rng.unit();
            Work::Arithmetic(rng.pick(&[
                [0.0, part, 1.0 - part, 0.0],
                [1.0, 0.0, 0.0, 0.0],
                [0.0, 1.0, -part, 0.25],
                [part, 0.5, 0.5, -0.1],
            ]))
        }
        _ => of_call(name, &drawn(rng, name)),
    }
}

/// The work of a single call that keeps no numbers in the pool.
fn of_call(name: &str, case: &Case) -> Work {
    let lighting = || Lighting {
        light: case.choice(0),
        place: [1, 2, 3].map(|i| case.float(i)),
        surface_scale: case.float(4),
        constant: case.float(5),
        color: [6, 7, 8].map(|i| case.choice(i) as u8),
    };
    match name {
        "morphology" => Work::Morphology(case.choice(0), case.float(1), case.float(2)),
        "composite" => Work::Arithmetic([0, 1, 2, 3].map(|i| case.float(i))),
        "displacement_map" => Work::Displacement(
            [0, 1].map(|i| case.choice(i)),
            [2, 3, 4].map(|i| case.float(i)),
        ),
        "turbulence" => Work::Turbulence(
            [0, 1, 2, 3, 4, 5].map(|i| case.double(i)),
            case.choice(6),
            case.choice(7) as i32,
            case.choice(9),
        ),
        "diffuse_lighting" => Work::Diffuse(lighting()),
        "specular_lighting" => Work::Specular(lighting(), case.float(9)),
        _ => unreachable!("{name} is drawn apart"),
    }
}

/// A kernel: a wild one, or a few small numbers and one that outweighs them; they go to the pool.
fn draw_kernel(rng: &mut Rng, recipe: &mut Recipe, preserve_alpha: bool, wild: bool) -> Kernel {
    let start = recipe.pool.len() as u32;
    let case = drawn(rng, "convolve_matrix");
    let numbers = case.floats(8);
    let edge = case.choice(4);
    if wild && (numbers.len() < 26 || start < 100) {
        recipe.pool.extend(&numbers);
        return Kernel {
            columns: case.choice(0),
            rows: case.choice(1),
            target_x: case.choice(2),
            target_y: case.choice(3),
            start,
            length: numbers.len() as u32,
            divisor: case.float(6),
            bias: case.float(7),
            edge,
            preserve_alpha,
        };
    }
    let (columns, rows) = rng.pick(&[(3, 1), (1, 3), (2, 2), (3, 3), (2, 1)]);
    let length = columns * rows;
    let target = rng.below(length);
    let parts = (0..length).map(|i| if i == target { 1.5 } else { rng.unit() - 0.4 });
    recipe.pool.extend(parts);
    Kernel {
        columns,
        rows,
        target_x: rng.below(columns),
        target_y: rng.below(rows),
        start,
        length,
        divisor: rng.pick(&[1.0, 1.5, 2.0]),
        bias: rng.pick(&[0.0, 0.0, 0.1]),
        edge,
        preserve_alpha,
    }
}

/// A matrix that an earlier step has, a wild one, or channels changed about; its numbers go to the pool.
fn draw_matrix(rng: &mut Rng, recipe: &mut Recipe, wild: bool) -> Work {
    let earlier = recipe.steps.iter().map(|step| step.work);
    let earlier: Vec<Work> = earlier
        .filter(|work| matches!(work, Work::Matrix(..)))
        .collect();
    if !earlier.is_empty() && !rng.one_in(3) {
        return rng.pick(&earlier);
    }
    let start = recipe.pool.len() as u32;
    if wild {
        let case = drawn(rng, "color_matrix");
        return match case.choice(0) {
            0 => {
                recipe.pool.extend(case.floats(1));
                Work::Matrix(start, 20)
            }
            1 => Work::Saturate(case.float(1)),
            2 => Work::HueRotate(case.float(1), case.float(2)),
            _ => Work::LuminanceToAlpha,
        };
    }
    for row in 0..4 {
        let from = if rng.one_in(3) { rng.below(4) } else { row };
        let chosen = |column| if column == from { 1.0 } else { 0.0 };
        recipe.pool.extend((0..4).map(chosen));
        recipe.pool.push(rng.unit() / 8.0);
    }
    Work::Matrix(start, 20)
}

/// A transfer function; the numbers of a table go to the pool.
fn draw_function(rng: &mut Rng, recipe: &mut Recipe, wild: bool) -> Function {
    let count = match rng.below(32) {
        0 if recipe.pool.len() < 200 => 256,
        _ => rng.pick(&[0, 1, 2, 2, 3, 3, 4, 6]),
    };
    let start = recipe.pool.len() as u32;
    let number = |rng: &mut Rng| match wild {
        true => nasty::float(rng, WIDE),
        false => 1.4 * rng.unit() - 0.2,
    };
    match rng.below(5) {
        0 => Function::Identity,
        1 | 2 => Function::Linear(number(rng), number(rng)),
        kind => {
            recipe.pool.extend((0..count).map(|_| number(rng)));
            match kind {
                3 => Function::Table(start, count),
                _ => Function::Discrete(start, count),
            }
        }
    }
}

fn drawn(rng: &mut Rng, name: &str) -> Case {
    let mut all = primitives::ALL.iter();
    let primitive = all.find(|primitive| primitive.name == name).unwrap();
    primitive.drawn(rng, LIMITS)
}

/// A recipe with the faults of these two numbers of the table, 0 for none; each may hide the other.
pub fn draw_spoiled(rng: &mut Rng, first: u8, second: u8) -> Recipe {
    let kind = rng.pick(&[Kind::Straight, Kind::Premultiplied]);
    let count = rng.pick(&[1, 2, 2, 3, 3, 4, 5, 6, 7, 16]);
    let side = rng.pick(&[1, 1, 2]);
    let size = nasty::size(rng, Limits { side, ..LIMITS });
    let mut recipe = draw_of(rng, size, kind, count);
    let at = rng.below(recipe.count) as usize;
    let other = match rng.one_in(2) {
        true => at,
        false => rng.below(recipe.count) as usize,
    };
    // Faults that set a step's work come before those that change it.
    for number in [8, 3, 5, 4, 7, 6, 2, 1] {
        for (fault, at) in [(first, at), (second, other)] {
            if fault == number {
                spoil(rng, &mut recipe, number, at);
            }
        }
    }
    recipe
}

fn spoil(rng: &mut Rng, recipe: &mut Recipe, number: u8, at: usize) {
    match number {
        1 => {
            let side = rng.pick(&[0, 0, SIDE + 1, 2 * SIDE, 65536, 1 << 30, u32::MAX]);
            match rng.one_in(2) {
                true => recipe.width = side,
                false => recipe.height = side,
            }
        }
        2 => {
            let sheet = &mut recipe.sheets[rng.below(5) as usize];
            let length = sheet.len();
            let lengths = [
                length + 1,
                length.saturating_sub(1),
                length + 4,
                length.saturating_sub(4),
                0,
            ];
            sheet.resize(rng.pick(&lengths), 9);
        }
        3 => spoil_range(rng, recipe, at),
        4 => spoil_float(rng, recipe, at, &[f32::NAN, f32::INFINITY, -f32::INFINITY]),
        5 if rng.one_in(2) => spoil_own(rng, recipe, at),
        5 => {
            let over = 65536f32.next_up();
            spoil_float(rng, recipe, at, &[over, -over, f32::MAX, -70000.0]);
        }
        6 => recipe.count = rng.pick(&[0, 0, 17, 18, 255, 256, 1 << 16, u32::MAX]),
        7 => spoil_slot(rng, recipe, at),
        _ => spoil_kind(rng, recipe, at),
    }
}

/// A range past the pool's end, a matrix not of 20 numbers, a table of more than 256, or a kernel of a wrong shape.
fn spoil_range(rng: &mut Rng, recipe: &mut Recipe, at: usize) {
    let length = recipe.pool.len() as u32;
    let held = held(recipe.kind, &recipe.steps[..at]);
    let (start, numbers) = rng.pick(&[
        (length.saturating_sub(20) + 1, 20),
        (length, 20),
        (0, length + 1),
        (0, 0),
        (0, length.min(19)),
        (0, 21),
        (u32::MAX, 20),
        (u32::MAX - 19, 20),
        (u32::MAX, u32::MAX),
        (0, u32::MAX),
    ]);
    if let Work::Transfer(functions) = &mut recipe.steps[at].work {
        return spoil_table(rng, functions, &mut recipe.pool);
    }
    let input = recipe.steps[at].inputs.first().map_or(0, |slot| *slot);
    let straight = held[input as usize] == Some(Kind::Straight);
    let work = match straight && rng.one_in(2) {
        true => Work::Matrix(start, numbers),
        false => {
            let kernel = draw_kernel(rng, recipe, straight, false);
            Work::Convolve(misshapen(rng, kernel))
        }
    };
    recipe.steps[at].work = work;
    recipe.steps[at].inputs = vec![input];
}

/// A table that leaves the pool, or has one entry too many.
fn spoil_table(rng: &mut Rng, functions: &mut [Function; 4], pool: &mut Vec<f32>) {
    let length = pool.len() as u32;
    let (start, numbers) = rng.pick(&[
        (length, 1),
        (length + 1, 0),
        (0, length + 1),
        (0, 257),
        (u32::MAX, u32::MAX),
    ]);
    functions[rng.below(4) as usize] = match rng.one_in(2) {
        true => Function::Table(start, numbers),
        false => Function::Discrete(start, numbers),
    };
    if numbers == 257 {
        pool.resize(257, 0.5);
    }
}

/// A side or a target that is wrong, or a range of another length or past the end of the pool.
fn misshapen(rng: &mut Rng, mut kernel: Kernel) -> Kernel {
    match rng.below(6) {
        0 => kernel.columns = rng.pick(&[0, 16, u32::MAX, kernel.columns + 1]),
        1 => kernel.rows = rng.pick(&[0, 16, 1 << 31, kernel.rows + 1]),
        2 => kernel.target_x = kernel.columns,
        3 => kernel.target_y = rng.pick(&[kernel.rows, u32::MAX]),
        4 => kernel.start = rng.pick(&[kernel.start + 1, u32::MAX]),
        _ => kernel.length = rng.pick(&[kernel.length - 1, kernel.length + 1, 0, u32::MAX]),
    }
    kernel
}

/// What only this work has leaves its range by a step, as in the single calls; enums keep to their cases.
fn spoil_own(rng: &mut Rng, recipe: &mut Recipe, at: usize) {
    let own = [
        "composite",
        "displacement_map",
        "turbulence",
        "diffuse_lighting",
        "specular_lighting",
    ];
    let mut work = recipe.steps[at].work;
    let primitive = work.primitive();
    if let Work::Convolve(kernel) = &mut work {
        kernel.divisor = rng.pick(&[0.0, -0.0, LEAST_DIVISOR.next_down(), -1e-5]);
    } else if own.contains(&primitive.name) {
        let call = recipe.call(&work).expect("no range of the pool");
        let spoiled = std::iter::repeat_with(|| {
            let mut call = call.clone();
            (primitive.spoil)(rng, &mut call);
            call
        });
        let mut named = spoiled.filter(|call| !(primitive.reading)(call).unnamed);
        work = of_call(primitive.name, &named.next().unwrap());
    }
    recipe.steps[at].work = work;
}

/// One of the values in the place of one of the step's floats.
pub fn spoil_float(rng: &mut Rng, recipe: &mut Recipe, at: usize, values: &[f32]) {
    let value = rng.pick(values);
    let Recipe { steps, pool, .. } = recipe;
    let mut pooled = |start: u32, place: u32| {
        if let Some(number) = pool.get_mut(start.wrapping_add(place) as usize) {
            *number = value;
        }
    };
    match &mut steps[at].work {
        Work::Morphology(_, rx, ry) => match rng.one_in(2) {
            true => *rx = value,
            false => *ry = value,
        },
        Work::Matrix(start, length) => pooled(*start, rng.below((*length).max(1))),
        Work::HueRotate(cosine, sine) => match rng.below(3) {
            0 => *cosine = value,
            1 => *sine = value,
            _ if value.is_finite() => (*cosine, *sine) = (1.0, f32::next_up(1.0 / 32.0)),
            _ => (*cosine, *sine) = (value, 65536.0),
        },
        work @ (Work::Saturate(_) | Work::LuminanceToAlpha) => *work = Work::Saturate(value),
        Work::Convolve(kernel) => match rng.below(3) {
            0 => kernel.divisor = value,
            1 => kernel.bias = value,
            _ => pooled(kernel.start, rng.below(kernel.length.max(1))),
        },
        Work::Displacement(_, numbers) => numbers[rng.below(3) as usize] = value,
        Work::Turbulence(doubles, ..) => doubles[rng.below(6) as usize] = value as f64,
        Work::Specular(_, exponent) if rng.one_in(4) => *exponent = value,
        Work::Diffuse(lighting) | Work::Specular(lighting, _) => match rng.below(5) {
            3 => lighting.surface_scale = value,
            4 => lighting.constant = value,
            i => lighting.place[i as usize] = value,
        },
        Work::Arithmetic(k) => k[rng.below(4) as usize] = value,
        Work::Transfer(functions) => {
            let function = &mut functions[rng.below(4) as usize];
            match *function {
                Function::Table(start, length) | Function::Discrete(start, length)
                    if length > 0 =>
                {
                    pooled(start, rng.below(length));
                }
                Function::Linear(slope, _) => *function = Function::Linear(slope, value),
                _ => *function = Function::Linear(value, 0.0),
            }
        }
    }
}

/// A slot that there is not, an output that is no working slot or an input, an input that holds nothing yet.
fn spoil_slot(rng: &mut Rng, recipe: &mut Recipe, at: usize) {
    let written = |slot: u32| recipe.steps[..at].iter().any(|step| step.output == slot);
    let unwritten: Vec<u32> = (1..4).filter(|slot| !written(*slot)).collect();
    let step = &mut recipe.steps[at];
    let input = rng.below(step.inputs.len() as u32) as usize;
    let faults = if step.inputs.is_empty() { 2 } else { 6 };
    match rng.below(faults) {
        0 => step.output = 0,
        1 => step.output = rng.pick(&[4, 5, 128, 255]),
        2 => step.inputs[input] = rng.pick(&[4, 5, 128, 255]),
        3 => step.output = step.inputs[input],
        4 => step.inputs[input] = step.output,
        _ if unwritten.is_empty() => step.inputs[input] = 4,
        _ => step.inputs[input] = rng.pick(&unwritten),
    }
}

/// Another kind declared, or work that takes the other kind, one of its inputs or both.
fn spoil_kind(rng: &mut Rng, recipe: &mut Recipe, at: usize) {
    if rng.one_in(8) {
        recipe.kind = match recipe.kind {
            Kind::Straight => Kind::Premultiplied,
            Kind::Premultiplied => Kind::Straight,
        };
        return;
    }
    let held = held(recipe.kind, &recipe.steps[..at]);
    let output = recipe.steps[at].output;
    let first = recipe.steps[at].inputs.first().map_or(0, |slot| *slot);
    let straight = held[first as usize] == Some(Kind::Straight);
    let premultiplied = |slot: &u32| held[*slot as usize] == Some(Kind::Premultiplied);
    let maps: Vec<u32> = (0..4)
        .filter(|slot| *slot != output && premultiplied(slot))
        .collect();
    let alone = |work: Work| (work, vec![first]);
    let (work, inputs) = match rng.below(4) {
        0 if !maps.is_empty() => {
            let work = of_call("displacement_map", &drawn(rng, "displacement_map"));
            (work, vec![first, rng.pick(&maps)])
        }
        0 | 1 => alone(Work::Convolve(draw_kernel(rng, recipe, !straight, false))),
        2 if straight => {
            let other = maps.first().map_or(first, |slot| *slot);
            let work = Work::Arithmetic([0.0, 1.0, 0.0, 0.0]);
            (work, rng.pick(&[[other, first], [first, other]]).into())
        }
        _ if straight => alone(Work::Morphology(1, 1.0, 0.0)),
        _ => alone(rng.pick(&[
            Work::LuminanceToAlpha,
            Work::Saturate(0.5),
            Work::Matrix(0, 20),
            Work::Transfer([Function::Linear(0.5, 0.1); 4]),
        ])),
    };
    recipe.steps[at] = Step {
        work,
        inputs,
        output,
    };
}
