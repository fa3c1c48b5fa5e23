//! A recipe as a message: first the numbers that it is made of, then their bytes.

use crate::recipe::{Function, Kernel, Lighting, Recipe, Step, Work};

/// A number of a message. A code or a colour must be below `limit`.
#[derive(Clone, Copy, Debug)]
pub struct Word {
    pub value: u32,
    pub limit: Option<u32>,
}

/// The message of all steps of the recipe, whose ranges are inside its pool.
pub fn message(recipe: &Recipe) -> Vec<u8> {
    let words = words(recipe).into_iter();
    words.flat_map(|word| shortest(word.value.into())).collect()
}

/// The bytes of a number in groups of seven bits, lowest first.
pub fn shortest(mut number: u64) -> Vec<u8> {
    let mut bytes = vec![];
    while number >= 128 {
        bytes.push(number as u8 | 128);
        number >>= 7;
    }
    bytes.push(number as u8);
    bytes
}

pub fn words(recipe: &Recipe) -> Vec<Word> {
    let mut words = Words {
        pool: &recipe.pool,
        list: vec![],
    };
    words.number(recipe.steps.len() as u32);
    for step in &recipe.steps {
        words.step(step);
    }
    words.list
}

struct Words<'a> {
    pool: &'a [f32],
    list: Vec<Word>,
}

impl Words<'_> {
    fn number(&mut self, value: u32) {
        self.list.push(Word { value, limit: None });
    }

    fn code(&mut self, value: u32, limit: u32) {
        let limit = Some(limit);
        self.list.push(Word { value, limit });
    }

    fn floats(&mut self, numbers: &[f32]) {
        numbers.iter().for_each(|x| self.number(x.to_bits()));
    }

    fn double(&mut self, x: f64) {
        self.number(x.to_bits() as u32);
        self.number((x.to_bits() >> 32) as u32);
    }

    /// The count of a range's numbers, and they.
    fn range(&mut self, start: u32, length: u32) {
        self.number(length);
        self.floats(&self.pool[start as usize..][..length as usize]);
    }

    fn step(&mut self, step: &Step) {
        self.code(code(&step.work), 10);
        step.inputs.iter().for_each(|slot| self.number(*slot));
        self.number(step.output);
        match step.work {
            Work::Morphology(op, rx, ry) => {
                self.code(op, 2);
                self.floats(&[rx, ry]);
            }
            Work::Matrix(start, length) => {
                self.code(0, 4);
                self.range(start, length);
            }
            Work::Saturate(v) => {
                self.code(1, 4);
                self.floats(&[v]);
            }
            Work::HueRotate(cosine, sine) => {
                self.code(2, 4);
                self.floats(&[cosine, sine]);
            }
            Work::LuminanceToAlpha => self.code(3, 4),
            Work::Transfer(functions) => functions.iter().for_each(|f| self.function(f)),
            Work::Arithmetic(k) => self.floats(&k),
            Work::Convolve(kernel) => self.kernel(&kernel),
            Work::Displacement(channels, numbers) => {
                channels.iter().for_each(|channel| self.code(*channel, 4));
                self.floats(&numbers);
            }
            Work::Turbulence(doubles, octaves, seed, kind) => {
                doubles.iter().for_each(|x| self.double(*x));
                self.number(octaves);
                self.number(seed as u32);
                self.code(kind, 2);
            }
            Work::Diffuse(lighting) => self.lighting(&lighting, &[]),
            Work::Specular(lighting, exponent) => self.lighting(&lighting, &[exponent]),
        }
    }

    fn function(&mut self, function: &Function) {
        let mut kind = |kind: u32| self.code(kind, 4);
        match *function {
            Function::Identity => kind(0),
            Function::Table(start, length) => {
                kind(1);
                self.range(start, length);
            }
            Function::Discrete(start, length) => {
                kind(2);
                self.range(start, length);
            }
            Function::Linear(slope, intercept) => {
                kind(3);
                self.floats(&[slope, intercept]);
            }
        }
    }

    fn kernel(&mut self, kernel: &Kernel) {
        let sides = [kernel.columns, kernel.rows];
        let target = [kernel.target_x, kernel.target_y];
        sides.iter().chain(&target).for_each(|n| self.number(*n));
        self.range(kernel.start, kernel.length);
        self.floats(&[kernel.divisor, kernel.bias]);
        self.code(kernel.edge, 3);
        self.code(kernel.preserve_alpha as u32, 2);
    }

    fn lighting(&mut self, lighting: &Lighting, exponent: &[f32]) {
        self.floats(&[lighting.surface_scale, lighting.constant]);
        self.floats(exponent);
        lighting
            .color
            .iter()
            .for_each(|c| self.code(*c as u32, 256));
        self.code(lighting.light, 2);
        self.floats(&lighting.place);
    }
}

fn code(work: &Work) -> u32 {
    match work {
        Work::Morphology(..) => 1,
        Work::Matrix(..) | Work::Saturate(_) | Work::HueRotate(..) | Work::LuminanceToAlpha => 2,
        Work::Transfer(_) => 3,
        Work::Arithmetic(_) => 4,
        Work::Convolve(_) => 5,
        Work::Displacement(..) => 6,
        Work::Turbulence(..) => 7,
        Work::Diffuse(_) => 8,
        Work::Specular(..) => 9,
    }
}
