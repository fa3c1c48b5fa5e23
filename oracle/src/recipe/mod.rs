//! Recipes over four slots, read apart from the library: what they are, docs/LAW.md's tests, a run by
//! resvg's functions step by step, reach, awkward draws, and the stored list.

mod answer;
mod draw;
mod reach;
mod run;
mod stored;

pub use answer::answer;
use answer::held;
pub use draw::{draw, draw_spoiled, spoil_float};
pub use reach::{reach, reaches};
pub use run::run;
pub use stored::list;

use crate::case::{Case, Param};
use crate::primitives::{self, Primitive};

/// The most steps of a recipe.
pub const STEPS: usize = 16;

#[derive(Clone, Copy, Debug, PartialEq, Eq)]
pub enum Kind {
    Straight,
    Premultiplied,
}

impl Kind {
    /// As calls and lists have it.
    pub fn number(self) -> u8 {
        match self {
            Kind::Straight => 0,
            Kind::Premultiplied => 1,
        }
    }
}

#[derive(Clone, Copy, Debug)]
pub enum Work {
    /// Operator (0 dilate, 1 erode) and two radii.
    Morphology(u32, f32, f32),
    /// Start and length of its numbers in the pool.
    Matrix(u32, u32),
    Saturate(f32),
    HueRotate(f32, f32),
    LuminanceToAlpha,
    Arithmetic([f32; 4]),
    /// A function for each of red, green, blue and alpha.
    Transfer([Function; 4]),
    Convolve(Kernel),
    /// The channels that move columns and rows; sx, sy and scale. It reads the picture, then the map.
    Displacement([u32; 2], [f32; 3]),
    /// Offsets, scales and frequencies of columns and rows by turns; octaves, seed, and 0 for turbulence or 1 for
    /// fractal noise. It reads nothing.
    Turbulence([f64; 6], u32, i32, u32),
    Diffuse(Lighting),
    /// With its exponent.
    Specular(Lighting, f32),
}

/// A kernel; its numbers are a range of the pool.
#[derive(Clone, Copy, Debug)]
pub struct Kernel {
    pub columns: u32,
    pub rows: u32,
    pub target_x: u32,
    pub target_y: u32,
    pub start: u32,
    pub length: u32,
    pub divisor: f32,
    pub bias: f32,
    /// 0 none, 1 duplicate, 2 wrap.
    pub edge: u32,
    pub preserve_alpha: bool,
}

#[derive(Clone, Copy, Debug)]
pub struct Lighting {
    /// 0 distant, 1 point.
    pub light: u32,
    pub place: [f32; 3],
    pub surface_scale: f32,
    pub constant: f32,
    pub color: [u8; 3],
}

/// A transfer function; tables are ranges of the pool, a start and a length.
#[derive(Clone, Copy, Debug)]
pub enum Function {
    Identity,
    Table(u32, u32),
    Discrete(u32, u32),
    Linear(f32, f32),
}

/// The slots have any numbers.
#[derive(Clone, Debug)]
pub struct Step {
    pub work: Work,
    pub inputs: Vec<u32>,
    pub output: u32,
}

/// A recipe and everything that a run of it is lent: the sheets are slots 0 to 3 and scratch.
#[derive(Clone, Debug)]
pub struct Recipe {
    pub width: u32,
    pub height: u32,
    pub kind: Kind,
    pub pool: Vec<f32>,
    /// Any number; the first so many steps are run.
    pub count: u32,
    pub steps: Vec<Step>,
    pub sheets: Vec<Vec<u8>>,
}

/// The place of scratch among the sheets.
pub const SCRATCH: usize = 4;

impl Work {
    pub fn primitive(&self) -> &'static Primitive {
        let name = match self {
            Work::Morphology(..) => "morphology",
            Work::Arithmetic(_) => "composite",
            Work::Transfer(_) => "component_transfer",
            Work::Convolve(_) => "convolve_matrix",
            Work::Displacement(..) => "displacement_map",
            Work::Turbulence(..) => "turbulence",
            Work::Diffuse(_) => "diffuse_lighting",
            Work::Specular(..) => "specular_lighting",
            Work::Matrix(..) | Work::Saturate(_) | Work::HueRotate(..) | Work::LuminanceToAlpha => {
                "color_matrix"
            }
        };
        let mut all = primitives::ALL.iter();
        all.find(|primitive| primitive.name == name).unwrap()
    }

    /// The ranges of the pool that it has, a start and a length each.
    pub fn ranges(&mut self) -> Vec<(&mut u32, &mut u32)> {
        match self {
            Work::Matrix(start, length) => vec![(start, length)],
            Work::Convolve(kernel) => vec![(&mut kernel.start, &mut kernel.length)],
            Work::Transfer(functions) => functions
                .iter_mut()
                .filter_map(|function| match function {
                    Function::Table(start, length) | Function::Discrete(start, length) => {
                        Some((start, length))
                    }
                    _ => None,
                })
                .collect(),
            _ => vec![],
        }
    }

    /// How many numbers its ranges have.
    pub fn numbers(mut self) -> usize {
        let ranges = self.ranges().into_iter();
        ranges.map(|(_, length)| *length as usize).sum()
    }

    /// The kind that each input must have; None where either will do.
    fn wanted(&self) -> Vec<Option<Kind>> {
        let (straight, premultiplied) = (Some(Kind::Straight), Some(Kind::Premultiplied));
        match self {
            Work::Morphology(..) => vec![premultiplied],
            Work::Arithmetic(_) => vec![premultiplied; 2],
            Work::Convolve(kernel) if !kernel.preserve_alpha => vec![premultiplied],
            Work::Displacement(..) => vec![None, straight],
            Work::Turbulence(..) => vec![],
            Work::Diffuse(_) | Work::Specular(..) => vec![None],
            _ => vec![straight],
        }
    }

    /// The kind of what is made, of a first input of the kind `first`.
    fn makes(&self, first: Option<Kind>) -> Option<Kind> {
        match self {
            Work::Displacement(..) => first,
            Work::Morphology(..) | Work::Arithmetic(_) => Some(Kind::Premultiplied),
            Work::Convolve(_) | Work::Specular(..) => Some(Kind::Premultiplied),
            _ => Some(Kind::Straight),
        }
    }

    /// The parameters of the single call; None where a range leaves the pool.
    fn params(&self, pool: &[f32]) -> Option<Vec<Param>> {
        Some(match *self {
            Work::Morphology(op, rx, ry) => {
                vec![Param::Choice(op), Param::float(rx), Param::float(ry)]
            }
            Work::Matrix(start, length) => {
                let numbers = range(pool, start, length)?;
                vec![Param::Choice(0), Param::Rest(Param::floats(numbers))]
            }
            Work::Saturate(v) => vec![Param::Choice(1), Param::float(v)],
            Work::HueRotate(cosine, sine) => {
                vec![Param::Choice(2), Param::float(cosine), Param::float(sine)]
            }
            Work::LuminanceToAlpha => vec![Param::Choice(3)],
            Work::Arithmetic(k) => k.map(Param::float).into(),
            Work::Transfer(functions) => {
                let mut params = vec![];
                for function in functions {
                    params.extend(function.params(pool)?);
                }
                params
            }
            Work::Convolve(kernel) => kernel.params(pool)?,
            Work::Displacement(channels, numbers) => {
                let channels = channels.map(Param::Choice).into_iter();
                channels.chain(numbers.map(Param::float)).collect()
            }
            Work::Turbulence(doubles, octaves, seed, kind) => {
                let choices = [octaves, seed as u32, 0, kind].map(Param::Choice);
                let doubles = doubles.map(Param::double).into_iter();
                doubles.chain(choices).collect()
            }
            Work::Diffuse(lighting) => lighting.params(),
            Work::Specular(lighting, exponent) => {
                let mut params = lighting.params();
                params.push(Param::float(exponent));
                params
            }
        })
    }
}

impl Kernel {
    /// None where the range leaves the pool.
    fn params(&self, pool: &[f32]) -> Option<Vec<Param>> {
        let numbers = range(pool, self.start, self.length)?;
        let preserve = self.preserve_alpha as u32;
        let target = [self.target_x, self.target_y];
        let mut params = vec![Param::Choice(self.columns), Param::Choice(self.rows)];
        params.extend(target.map(Param::Choice));
        params.extend([self.edge, preserve].map(Param::Choice));
        params.extend([self.divisor, self.bias].map(Param::float));
        params.push(Param::Rest(Param::floats(numbers)));
        Some(params)
    }
}

impl Lighting {
    fn params(&self) -> Vec<Param> {
        let mut params = vec![Param::Choice(self.light)];
        params.extend(self.place.map(Param::float));
        params.extend([self.surface_scale, self.constant].map(Param::float));
        params.extend(self.color.map(|c| Param::Choice(c as u32)));
        params
    }
}

impl Function {
    /// The kind and the numbers; None where a range leaves the pool.
    fn params(&self, pool: &[f32]) -> Option<[Param; 2]> {
        let list = |numbers: &[f32]| Param::List(Param::floats(numbers));
        Some(match *self {
            Function::Identity => [Param::Choice(0), list(&[])],
            Function::Table(start, length) => [Param::Choice(1), list(range(pool, start, length)?)],
            Function::Discrete(start, length) => {
                [Param::Choice(2), list(range(pool, start, length)?)]
            }
            Function::Linear(slope, intercept) => [Param::Choice(3), list(&[slope, intercept])],
        })
    }
}

fn range(pool: &[f32], start: u32, length: u32) -> Option<&[f32]> {
    let end = (start as usize).checked_add(length as usize)?;
    pool.get(start as usize..end)
}

impl Recipe {
    /// The steps that are run, of a recipe whose count is taken.
    fn taken(&self) -> &[Step] {
        &self.steps[..self.count as usize]
    }

    /// A step's work as a single call with no sheets yet.
    pub fn call(&self, work: &Work) -> Option<Case> {
        Some(Case {
            width: self.width,
            height: self.height,
            params: work.params(&self.pool)?,
            sheets: vec![],
        })
    }
}
