//! The primitives that are compared: one file and one entry of `ALL` each.

mod color_matrix;
mod component_transfer;
mod composite;
mod convolve_matrix;
mod displacement_map;
mod lighting;
mod morphology;
mod turbulence;

use crate::case::{Answer, Case, Outcome};
use crate::nasty::{self, Limits};
use crate::rng::Rng;
use crate::table::{self, Reading};

pub struct Primitive {
    pub name: &'static str,
    /// Its number in the stored lists.
    pub code: u32,
    /// The largest side that is worth drawing: the Rust's morphology slows with the square of its radii.
    pub large: u32,
    /// Cases that are always among the stored ones: docs/LAW.md's known results and edges.
    pub known: fn() -> Vec<Case>,
    /// A case of this width and height that is accepted.
    pub draw: fn(&mut Rng, u32, u32) -> Case,
    /// Spoils what only this primitive has: a shape, a unit pair, an enum.
    pub spoil: fn(&mut Rng, &mut Case),
    /// Its parameters, as tests 3 to 5 see them.
    pub reading: fn(&Case) -> Reading,
    /// resvg's Rust on the sheets of an accepted case, a destination being clear.
    pub rust: fn(&Case, &mut [Vec<u8>]),
    /// The sheet that is a destination, cleared first.
    pub dest: Option<usize>,
    /// The sheet that is scratch, all zero afterwards.
    pub scratch: Option<usize>,
    /// The library's function, on the sheets in the case's order.
    pub ours: fn(&Case, &mut [&mut [u8]]) -> Answer,
}

pub const ALL: [Primitive; 9] = [
    morphology::PRIMITIVE,
    color_matrix::PRIMITIVE,
    composite::PRIMITIVE,
    component_transfer::PRIMITIVE,
    convolve_matrix::PRIMITIVE,
    displacement_map::PRIMITIVE,
    turbulence::PRIMITIVE,
    lighting::DIFFUSE,
    lighting::SPECULAR,
];

impl Primitive {
    pub fn answer(&self, case: &Case) -> Answer {
        table::answer(case, &(self.reading)(case))
    }

    /// What the papers and the Rust expect of the call: on a refusal no byte changes.
    pub fn expected(&self, case: &Case) -> Outcome {
        let answer = self.answer(case);
        let mut sheets = case.sheets.clone();
        if answer.number == 0 {
            self.run_rust(case, &mut sheets);
            if let Some(scratch) = self.scratch {
                sheets[scratch].fill(0);
            }
        }
        Outcome { answer, sheets }
    }

    /// The Rust's own work, and the clearing that its caller does.
    pub fn run_rust(&self, case: &Case, sheets: &mut [Vec<u8>]) {
        if let Some(dest) = self.dest {
            sheets[dest].fill(0);
        }
        (self.rust)(case, sheets);
    }

    /// A case of an awkward size that is accepted.
    pub fn drawn(&self, rng: &mut Rng, limits: Limits) -> Case {
        let (width, height) = nasty::size(rng, limits);
        (self.draw)(rng, width, height)
    }

    /// A case with one to three things spoiled, so that the order of the tests shows.
    pub fn draw_spoiled(&self, rng: &mut Rng, limits: Limits) -> Case {
        let mut case = self.drawn(rng, limits);
        for _ in 0..rng.pick(&[1, 1, 2, 3]) {
            match rng.one_in(3) {
                true => (self.spoil)(rng, &mut case),
                false => nasty::spoil(rng, &mut case, limits),
            }
        }
        case
    }
}

/// A sheet with these alphas and nothing else.
fn alphas(values: &[u8]) -> Vec<u8> {
    values.iter().flat_map(|a| [0, 0, 0, *a]).collect()
}

/// A row as wide as is allowed, and one that is a pixel too wide, for which a pixel's bytes are lent.
fn long_rows(case: impl Fn(u32, Vec<u8>) -> Case) -> Vec<Case> {
    let row = |width: u32| (0..4 * width).map(|i| (i * i / 7) as u8).collect();
    [(table::SIDE, table::SIDE), (table::SIDE + 1, 1)]
        .map(|(width, lent)| case(width, row(lent)))
        .into()
}
