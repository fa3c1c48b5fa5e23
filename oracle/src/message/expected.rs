//! What is expected of nup_run and nup_reaches: the message's own refusals, the kind's, then those of a run.

use super::{Call, POOL, Refused, read};
use crate::case::{ReachAnswer, RunAnswer};
use crate::recipe::{self, Kind, Recipe, STEPS};

/// The answers, and every lent sheet after the run.
#[derive(Clone, Debug, PartialEq, Eq)]
pub struct Expected {
    pub answer: RunAnswer,
    pub reaches: bool,
    pub sheets: Vec<Vec<u8>>,
}

impl Expected {
    fn refused(Refused { number, offset }: Refused, sheets: &[Vec<u8>]) -> Expected {
        Expected {
            answer: RunAnswer {
                number,
                step: 0,
                offset,
            },
            reaches: false,
            sheets: sheets.to_vec(),
        }
    }

    /// What nup_reaches answers.
    pub fn reach_answer(&self) -> ReachAnswer {
        let RunAnswer {
            number,
            step,
            offset,
        } = self.answer;
        ReachAnswer {
            number,
            step,
            reaches: self.reaches as u8,
            offset,
        }
    }
}

/// Of this recipe's message, all of whose steps it has, with this byte for its kind.
pub fn expected(recipe: &Recipe, kind: u8) -> Expected {
    let numbers: usize = recipe.steps.iter().map(|step| step.work.numbers()).sum();
    let number = match kind {
        _ if recipe.steps.len() > STEPS => 6,
        _ if numbers > POOL => 11,
        0 | 1 => 0,
        _ => 5,
    };
    if number != 0 {
        return Expected::refused(Refused { number, offset: 0 }, &recipe.sheets);
    }
    let outcome = recipe::run(recipe);
    Expected {
        answer: RunAnswer {
            number: outcome.answer.number,
            step: outcome.answer.step,
            offset: 0,
        },
        reaches: recipe::reaches(recipe),
        sheets: outcome.sheets,
    }
}

/// Of any bytes.
pub fn expected_of(call: &Call) -> Expected {
    let lent = &call.lent;
    match read(&call.message) {
        Err(refused) => Expected::refused(refused, &lent.sheets),
        Ok((steps, pool)) => {
            let recipe = Recipe {
                width: lent.width,
                height: lent.height,
                kind: match call.kind {
                    0 => Kind::Straight,
                    _ => Kind::Premultiplied,
                },
                pool,
                count: steps.len() as u32,
                steps,
                sheets: lent.sheets.clone(),
            };
            expected(&recipe, call.kind)
        }
    }
}
