//! Recipes as messages, in the form of docs/MESSAGES.md, read apart from the library: a writer, a reader that
//! knows where a message is wrong, what is expected of a call, awkward draws and damage, and the comparison.

mod compare;
mod damage;
mod draw;
mod expected;
mod read;
mod write;

pub use compare::{compare, run};
pub use draw::{draw_damaged, sendable};
pub use expected::{Expected, expected, expected_of};
pub use read::{Refused, read};
pub use write::{message, shortest};

use crate::case::Case;
use crate::recipe::Recipe;

/// The most numbers of matrices, tables and kernels that a message holds.
pub const POOL: usize = 16_384;

/// Everything that nup_run or nup_reaches is lent.
#[derive(Clone, Debug)]
pub struct Call {
    pub message: Vec<u8>,
    /// 0 straight, 1 premultiplied.
    pub kind: u8,
    /// The size and the sheets: slots 0 to 3 and scratch. It has no parameters.
    pub lent: Case,
}

impl Call {
    pub fn new(message: Vec<u8>, kind: u8, recipe: &Recipe) -> Call {
        Call {
            message,
            kind,
            lent: Case {
                width: recipe.width,
                height: recipe.height,
                params: vec![],
                sheets: recipe.sheets.clone(),
            },
        }
    }
}
