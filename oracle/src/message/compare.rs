//! nup_run and nup_reaches against the interpreter over the Rust and the reader.

use super::draw::{Drawn, draw, draw_damaged, draw_spoiled};
use super::{Call, Expected, expected_of, message, read};
use crate::case::{ReachAnswer, RunAnswer};
use crate::compare::{Wanted, compare_sheets, describe, lend};
use crate::lend::Lent;
use crate::ours;
use crate::recipe::{Kind, Recipe};
use crate::rng::Rng;
use crate::shrink::{self, Shrinks};

type Draw = fn(&mut Rng) -> Drawn;

/// Recipes that are accepted, recipes with faults, and damaged messages.
const DRAWS: [(&str, Draw); 3] = [
    ("messages", draw),
    ("messages refusals", draw_spoiled),
    ("messages damaged", draw_damaged),
];

/// Each draw so many times; the error shows the first difference.
pub fn compare(wanted: &Wanted) -> Result<(), String> {
    for (i, (title, draw)) in DRAWS.iter().enumerate() {
        let mut rng = Rng::new(wanted.seed.wrapping_add(i as u64));
        let mut answers = [0; 12];
        for done in 1..=wanted.cases {
            let (call, expected) = draw(&mut rng);
            match check(&call, &expected) {
                Ok(()) => answers[expected.answer.number as usize] += 1,
                Err(what) => {
                    let shown = shown(call, what);
                    return Err(format!("{title}: {done} cases, 1 differences\n{shown}"));
                }
            }
        }
        let cases = wanted.cases;
        println!("{title}: {cases} cases, 0 differences (answers 0 to 11: {answers:?})");
    }
    Ok(())
}

/// Whether both functions do what is expected; nup_reaches, which is called first, writes nothing.
fn check(call: &Call, expected: &Expected) -> Result<(), String> {
    let mut message = Lent::new(&call.message, 0xa5, 0);
    let mut lent = lend(&call.lent.sheets);
    let mut slices: Vec<&mut [u8]> = lent.iter_mut().map(Lent::now_mut).collect();
    let (width, height) = (call.lent.width, call.lent.height);
    let answer = reaches(message.now(), call.kind, width, height, &slices);
    let wanted = expected.reach_answer();
    if answer != wanted {
        return Err(format!(
            "nup_reaches: expected {wanted}, the library gave {answer}"
        ));
    }
    compare_sheets(&lent, &call.lent.sheets).map_err(|what| format!("nup_reaches: {what}"))?;
    slices = lent.iter_mut().map(Lent::now_mut).collect();
    let answer = run(message.now_mut(), call.kind, width, height, &mut slices);
    let wanted = expected.answer;
    if answer != wanted {
        return Err(format!(
            "nup_run: expected {wanted}, the library gave {answer}"
        ));
    }
    compare_sheets(&lent, &expected.sheets).map_err(|what| format!("nup_run: {what}"))?;
    compare_sheets(&[message], std::slice::from_ref(&call.message))
        .map_err(|what| format!("message: {what}"))
}

/// nup_run on slots 0 to 3 and scratch.
pub fn run(
    message: &[u8],
    kind: u8,
    width: u32,
    height: u32,
    sheets: &mut [&mut [u8]],
) -> RunAnswer {
    let [source, slot1, slot2, slot3, scratch] = sheets else {
        unreachable!()
    };
    unsafe {
        ours::nup_run(
            message.as_ptr(),
            message.len(),
            kind,
            width,
            height,
            source.as_ptr(),
            source.len(),
            slot1.as_mut_ptr(),
            slot1.len(),
            slot2.as_mut_ptr(),
            slot2.len(),
            slot3.as_mut_ptr(),
            slot3.len(),
            scratch.as_mut_ptr(),
            scratch.len(),
        )
    }
}

fn reaches(message: &[u8], kind: u8, width: u32, height: u32, sheets: &[&mut [u8]]) -> ReachAnswer {
    let [source, slot1, slot2, slot3, scratch] = sheets else {
        unreachable!()
    };
    unsafe {
        ours::nup_reaches(
            message.as_ptr(),
            message.len(),
            kind,
            width,
            height,
            source.as_ptr(),
            source.len(),
            slot1.as_ptr(),
            slot1.len(),
            slot2.as_ptr(),
            slot2.len(),
            slot3.as_ptr(),
            slot3.len(),
            scratch.as_ptr(),
            scratch.len(),
        )
    }
}

/// The smallest call found that differs from what its reader expects, or this one where it does not.
fn shown(call: Call, what: String) -> String {
    let differs = |call: &Call| check(call, &expected_of(call)).is_err();
    let small = shrink::shrink(call, &differs);
    let what = check(&small, &expected_of(&small)).err().unwrap_or(what);
    let hex: Vec<String> = small.message.iter().map(|b| format!("{b:02x}")).collect();
    let steps = match read(&small.message) {
        Ok((steps, pool)) => format!("{steps:?}, pool {pool:?}"),
        Err(refused) => format!("{refused:?}"),
    };
    format!(
        "{what}\n  message of {} bytes: {}\n  read as: {steps}\n  kind {}\n{}",
        small.message.len(),
        hex.join(" "),
        small.kind,
        describe(&small.lent)
    )
}

impl Shrinks for Call {
    /// One step less, one of the last bytes less, or simpler sheets.
    fn simpler(&self) -> impl Iterator<Item = Call> {
        let with = |message: Vec<u8>| Call {
            message,
            ..self.clone()
        };
        let sheets = self.lent.simpler().map(|lent| Call {
            lent,
            ..self.clone()
        });
        let bytes = (0..self.message.len()).rev().take(256).map(|at| {
            let mut message = self.message.clone();
            message.remove(at);
            message
        });
        fewer_steps(&self.message)
            .into_iter()
            .chain(bytes)
            .map(with)
            .chain(sheets)
    }
}

/// The messages of all steps but one; none of bytes that are no message.
fn fewer_steps(bytes: &[u8]) -> Vec<Vec<u8>> {
    let Ok((steps, pool)) = read(bytes) else {
        return vec![];
    };
    let without = |at: usize| {
        let mut recipe = Recipe {
            width: 0,
            height: 0,
            kind: Kind::Straight,
            pool: pool.clone(),
            count: 0,
            steps: steps.clone(),
            sheets: vec![],
        };
        recipe.steps.remove(at);
        message(&recipe)
    };
    (0..steps.len()).rev().map(without).collect()
}
