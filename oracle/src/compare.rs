//! The library against the Rust and the table, at scale; a difference is shown as small as it gets.

use crate::case::{Case, Param};
use crate::leaves::{self, Leaf};
use crate::lend::Lent;
use crate::message;
use crate::nasty::Limits;
use crate::ours;
use crate::primitives::{ALL, Primitive};
use crate::rng::Rng;
use crate::shrink;
use crate::table::SIDE;

/// The seed of the cases that are the same in every run.
pub const SEED: u64 = 0x636f_6d70;

/// What `oracle compare` was asked for.
pub struct Wanted {
    /// One primitive or leaf, or messages, or all.
    pub name: Option<String>,
    pub cases: u32,
    pub seed: u64,
}

/// Runs what is wanted; the error is what to print before leaving with status 1.
pub fn run(wanted: &Wanted) -> Result<(), String> {
    ours::linked()?;
    println!("seed {:x}, which --seed repeats", wanted.seed);
    let is_wanted = |name: &str| wanted.name.as_deref().is_none_or(|only| only == name);
    let mut found = false;
    for leaf in leaves::ALL.iter().filter(|leaf| is_wanted(leaf.name)) {
        found = true;
        compare_leaf(leaf, wanted)?;
    }
    for primitive in ALL.iter().filter(|primitive| is_wanted(primitive.name)) {
        found = true;
        compare_draws(primitive, wanted)?;
    }
    if is_wanted("messages") {
        found = true;
        message::compare(wanted)?;
    }
    match &wanted.name {
        Some(name) if !found => Err(format!("nothing that is compared is called {name}")),
        _ => Ok(()),
    }
}

fn compare_leaf(leaf: &Leaf, wanted: &Wanted) -> Result<(), String> {
    let mut rng = Rng::new(wanted.seed);
    for (title, refused) in [
        (leaf.name.to_string(), false),
        (format!("{} refusals", leaf.name), true),
    ] {
        if refused && !leaf.refuses {
            continue;
        }
        for i in 0..wanted.cases {
            (leaf.check)(&mut rng, refused)
                .map_err(|shown| format!("{title}: {} cases, 1 differences\n{shown}", i + 1))?;
        }
        println!("{title}: {} cases, 0 differences", wanted.cases);
    }
    Ok(())
}

/// Accepted cases, known ones first; large ones; and refusals.
fn compare_draws(primitive: &Primitive, wanted: &Wanted) -> Result<(), String> {
    let limits = |side: u32| Limits {
        side,
        any_nan: true,
    };
    let known = (primitive.known)();
    compare_primitive(primitive, wanted, Kind::Accepted, &mut |rng, i| {
        let side = match i % 500 {
            499 => primitive.large,
            _ => [4, 9, 24][i as usize % 3],
        };
        let drawn = || primitive.drawn(rng, limits(side));
        known.get(i as usize).cloned().unwrap_or_else(drawn)
    })?;
    compare_primitive(primitive, wanted, Kind::Large, &mut |rng, i| {
        let (width, height) = large(rng, i);
        (primitive.draw)(rng, width, height)
    })?;
    compare_primitive(primitive, wanted, Kind::Refusals, &mut |rng, i| {
        primitive.draw_spoiled(rng, limits([2, 5, 12][i as usize % 3]))
    })
}

/// The library works on so many columns at a time.
const STRIP: u32 = 512;

/// Rows and columns as long as is allowed, sides of 600 and more, a few rows that end about a strip's end, and once the
/// largest sheet.
fn large(rng: &mut Rng, i: u32) -> (u32, u32) {
    let mut side = || 600 + rng.below(400);
    match (i, i % 4) {
        (4, _) => (SIDE, SIDE),
        (_, 0) => (SIDE, 1),
        (_, 1) => (1, SIDE),
        (_, 2) => (side(), side()),
        _ => (
            STRIP * (1 + rng.below(3)) - 2 + rng.below(5),
            3 + rng.below(6),
        ),
    }
}

#[derive(Clone, Copy)]
enum Kind {
    Accepted,
    Refusals,
    Large,
}

fn compare_primitive(
    primitive: &Primitive,
    wanted: &Wanted,
    kind: Kind,
    draw: &mut dyn FnMut(&mut Rng, u32) -> Case,
) -> Result<(), String> {
    // A large case takes as long as a hundred others.
    let (what, cases) = match kind {
        Kind::Accepted => ("", wanted.cases),
        Kind::Refusals => (" refusals", wanted.cases),
        Kind::Large => (" large", wanted.cases.div_ceil(100)),
    };
    let title = format!("{}{what}", primitive.name);
    let own = 2 * primitive.code as u64 + kind as u64;
    let mut rng = Rng::new(wanted.seed.wrapping_add(own));
    let mut answers = [0; 6];
    for i in 0..cases {
        let case = draw(&mut rng, i);
        match check(primitive, &case) {
            Ok(number) => answers[number as usize] += 1,
            Err(_) => return Err(shown(primitive, &title, i + 1, case)),
        }
    }
    println!("{title}: {cases} cases, 0 differences (answers 0 to 5: {answers:?})");
    Ok(())
}

/// Whether the library does what is expected: the answer's number, or what differs.
pub fn check(primitive: &Primitive, case: &Case) -> Result<u8, String> {
    let mut lent = lend(&case.sheets);
    let mut slices: Vec<&mut [u8]> = lent.iter_mut().map(Lent::now_mut).collect();
    let answer = (primitive.ours)(case, &mut slices);
    let expected = primitive.expected(case);
    if answer != expected.answer {
        let expected = expected.answer;
        return Err(format!("expected {expected}, the library gave {answer}"));
    }
    compare_sheets(&lent, &expected.sheets)?;
    Ok(answer.number)
}

/// The sheets between strips, their bytes at any alignment.
pub fn lend(sheets: &[Vec<u8>]) -> Vec<Lent<u8>> {
    let shifted = |(i, sheet): (usize, &Vec<u8>)| Lent::new(sheet, 0xa5, (sheet.len() / 4 + i) % 4);
    sheets.iter().enumerate().map(shifted).collect()
}

/// What differs between the sheets that were lent and what is expected of them.
pub fn compare_sheets(lent: &[Lent<u8>], expected: &[Vec<u8>]) -> Result<(), String> {
    for (i, (lent, sheet)) in lent.iter().zip(expected).enumerate() {
        let mut pairs = lent.now().iter().zip(sheet);
        if let Some(at) = pairs.position(|(ours, rust)| ours != rust) {
            let (rust, ours) = (sheet[at], lent.now()[at]);
            return Err(format!(
                "sheet {i} byte {at}: expected {rust}, the library left {ours}"
            ));
        }
        if !lent.kept() {
            return Err(format!("the library wrote outside sheet {i}"));
        }
    }
    Ok(())
}

fn shown(primitive: &Primitive, title: &str, done: u32, case: Case) -> String {
    let differs = |case: &Case| check(primitive, case).is_err();
    let small = shrink::shrink(case, &differs);
    let what = check(primitive, &small).unwrap_err();
    format!(
        "{title}: {done} cases, 1 differences\n{what}\n{}",
        describe(&small)
    )
}

/// A case for people: numbers with their bits, sheets in hex, a pixel to a word.
pub fn describe(case: &Case) -> String {
    let number = |bits: &u32| format!("{:?} ({bits:#010x})", f32::from_bits(*bits));
    let mut text = format!("  width {} height {}\n", case.width, case.height);
    for (i, param) in case.params.iter().enumerate() {
        let param = match param {
            Param::Choice(n) => format!("choice {n}"),
            Param::Float(bits) => number(bits),
            Param::Double(bits) => format!("{:?} ({bits:#018x})", f64::from_bits(*bits)),
            Param::List(all) | Param::Rest(all) => {
                format!(
                    "{} numbers: {}",
                    all.len(),
                    all.iter().map(number).collect::<Vec<_>>().join(", ")
                )
            }
        };
        text += &format!("  parameter {i}: {param}\n");
    }
    for (i, sheet) in case.sheets.iter().enumerate() {
        let pixel = |p: &[u8]| p.iter().map(|b| format!("{b:02x}")).collect::<String>();
        let pixels: Vec<String> = sheet.chunks(4).take(256).map(pixel).collect();
        text += &format!("  sheet {i}, {} bytes: {}\n", sheet.len(), pixels.join(" "));
    }
    text
}
