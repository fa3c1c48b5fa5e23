//! Makes a failing case small: a smaller sheet, simpler bytes, simpler parameters.

use crate::case::{Case, Param};

/// Tries before giving up on something still smaller.
const TRIES: usize = 100_000;

/// What can be made simpler.
pub trait Shrinks: Sized {
    /// What is strictly simpler, the boldest first.
    fn simpler(&self) -> impl Iterator<Item = Self>;
}

/// The simplest case found that still fails.
pub fn shrink<T: Shrinks>(case: T, fails: &dyn Fn(&T) -> bool) -> T {
    let mut best = case;
    let mut left = TRIES;
    while left > 0 {
        let tried = |candidate: &T| {
            left = left.saturating_sub(1);
            fails(candidate)
        };
        let smaller = best.simpler().take(TRIES).find(tried);
        match smaller {
            Some(smaller) => best = smaller,
            None => break,
        }
    }
    best
}

impl Shrinks for Case {
    fn simpler(&self) -> impl Iterator<Item = Case> {
        sizes(self)
            .chain(params(self))
            .chain(lengths(self))
            .chain(bytes(self))
    }
}

/// A part of the sheet: its left column, a half, or all but one column; rows likewise.
fn sizes(case: &Case) -> impl Iterator<Item = Case> {
    let (w, h) = (case.width, case.height);
    let parts = |n: u32| {
        [
            (0, 1),
            (0, n / 2),
            (n / 2, n - n / 2),
            (0, n.saturating_sub(1)),
            (1, n.saturating_sub(1)),
        ]
    };
    let columns = parts(w).into_iter().filter(move |(_, n)| *n < w);
    let rows = parts(h).into_iter().filter(move |(_, n)| *n < h);
    let columns = columns.map(|(x, n)| part(case, x, 0, n, case.height));
    columns.chain(rows.map(|(y, n)| part(case, 0, y, case.width, n)))
}

/// The part from (x, y): whole sheets are cut out, others keep how far off their length was.
fn part(case: &Case, x: u32, y: u32, width: u32, height: u32) -> Case {
    let mut part = Case {
        width,
        height,
        ..case.clone()
    };
    for (sheet, old) in part.sheets.iter_mut().zip(&case.sheets) {
        let off = old.len() as i128 - case.size() as i128;
        if off == 0 {
            let line = |row: u32| {
                let start = 4 * ((y + row) as usize * case.width as usize + x as usize);
                &old[start..start + 4 * width as usize]
            };
            *sheet = (0..height).flat_map(line).copied().collect();
        } else if off.abs() < 64 {
            let length = (part.width as i128 * part.height as i128 * 4 + off).max(0);
            sheet.truncate(length as usize);
        }
    }
    part
}

fn with_param(case: &Case, i: usize, param: Param) -> Case {
    let mut new = case.clone();
    new.params[i] = param;
    new
}

fn params(case: &Case) -> impl Iterator<Item = Case> {
    let channels = (1..case.params.len()).filter_map(|i| match &case.params[i - 1..=i] {
        // A channel with a kind and a list becomes an identity.
        [Param::Choice(1..), Param::List(_)] => {
            let new = with_param(case, i - 1, Param::Choice(0));
            Some(with_param(&new, i, Param::List(vec![])))
        }
        _ => None,
    });
    let each = case.params.iter().enumerate().flat_map(move |(i, param)| {
        let simpler: Vec<Param> = match param {
            Param::Choice(_) => vec![],
            Param::Float(bits) => numbers(*bits).map(Param::Float).collect(),
            Param::Double(bits) => doubles(*bits).map(Param::Double).collect(),
            Param::List(bits) => lists(bits, true).map(Param::List).collect(),
            Param::Rest(bits) => lists(bits, false).map(Param::Rest).collect(),
        };
        simpler
            .into_iter()
            .map(move |param| with_param(case, i, param))
    });
    channels.chain(each)
}

/// Shorter lists (where the length is free), and lists with one number simpler.
fn lists(list: &[u32], shorter: bool) -> impl Iterator<Item = Vec<u32>> {
    let n = list.len();
    let cuts = [n / 2, n - n / 4, n.saturating_sub(1)];
    let cut = cuts
        .into_iter()
        .filter(move |m| shorter && *m < n)
        .map(|m| list[..m].to_vec());
    let simpler = (0..n).flat_map(move |i| {
        numbers(list[i]).map(move |bits| {
            let mut new = list.to_vec();
            new[i] = bits;
            new
        })
    });
    cut.chain(simpler)
}

fn numbers(bits: u32) -> impl Iterator<Item = u32> {
    let x = f32::from_bits(bits);
    let plain = [0.0, 1.0, -1.0, 0.5, 2.0, x.trunc(), x.abs()];
    simpler(bits as u64, plain.map(|x| x.to_bits() as u64)).map(|new| new as u32)
}

fn doubles(bits: u64) -> impl Iterator<Item = u64> {
    let x = f64::from_bits(bits);
    let plain = [0.0, 1.0, -1.0, 0.5, 2.0, x.trunc(), x.abs()];
    simpler(bits, plain.map(f64::to_bits))
}

/// Simpler patterns: plain ones, of which the first five are the simplest, then fewer bits set.
fn simpler(bits: u64, plain: [u64; 7]) -> impl Iterator<Item = u64> {
    let weight = move |bits: u64| {
        let rank = plain[..5].iter().position(|simple| *simple == bits);
        rank.map_or(10 + bits.count_ones(), |rank| rank as u32)
    };
    let fewer = [32, 16, 12, 8, 4].map(|n| bits >> n << n);
    plain
        .into_iter()
        .chain(fewer)
        .chain([bits & bits.wrapping_sub(1)])
        .filter(move |new| weight(*new) < weight(bits))
}

/// Sheets of a wrong length get shorter.
fn lengths(case: &Case) -> impl Iterator<Item = Case> {
    case.sheets.iter().enumerate().flat_map(move |(i, sheet)| {
        let n = sheet.len();
        let wrong = n as u128 != case.size();
        [0, n / 2, n.saturating_sub(1)]
            .into_iter()
            .filter(move |m| wrong && *m < n)
            .map(move |m| {
                let mut new = case.clone();
                new.sheets[i].truncate(m);
                new
            })
    })
}

/// Sheets with a stretch of bytes cleared, whole first and in the end single bytes; then plain bytes.
fn bytes(case: &Case) -> impl Iterator<Item = Case> {
    let stretches = case.sheets.iter().enumerate().flat_map(|(i, sheet)| {
        let widths = [sheet.len(), sheet.len() / 4, 64, 4, 1]
            .into_iter()
            .filter(|n| *n > 0);
        widths.flat_map(move |n| {
            (0..sheet.len())
                .step_by(n)
                .map(move |at| (i, at..sheet.len().min(at + n)))
        })
    });
    let cleared = stretches.filter_map(|(i, span)| {
        let mut new = case.clone();
        let stretch = &mut new.sheets[i][span];
        let changes = stretch.iter().any(|b| *b != 0);
        stretch.fill(0);
        changes.then_some(new)
    });
    let single = case.sheets.iter().enumerate().flat_map(move |(i, sheet)| {
        (0..sheet.len()).flat_map(move |at| {
            let old = sheet[at];
            let plain = [255, 128, old / 2, old.saturating_sub(1)];
            plain
                .into_iter()
                .filter(move |new| byte_weight(*new) < byte_weight(old))
                .map(move |byte| {
                    let mut new = case.clone();
                    new.sheets[i][at] = byte;
                    new
                })
        })
    });
    cleared.chain(single)
}

fn byte_weight(byte: u8) -> u32 {
    match byte {
        0 => 0,
        255 => 1,
        128 => 2,
        other => 3 + other as u32,
    }
}

#[cfg(test)]
mod tests {
    use super::*;

    #[test]
    fn a_fault_at_one_value_shrinks_to_one_pixel() {
        let sheet: Vec<u8> = (0..400).map(|i| i as u8).collect();
        let params = vec![
            Param::Choice(3),
            Param::List(Param::floats(&[0.3, 7.7])),
            Param::float(3.25),
            Param::double(1e300),
        ];
        let case = Case {
            width: 10,
            height: 10,
            params,
            sheets: vec![sheet],
        };
        let small = shrink(case, &|case: &Case| {
            let numbers = case.float(2) > 1.5 && case.double(3) > 0.7;
            case.sheets[0].iter().any(|b| (40..60).contains(b)) && numbers
        });
        assert_eq!((small.width, small.height), (1, 1));
        assert_eq!(small.sheets[0].iter().filter(|b| **b != 0).count(), 1);
        assert_eq!(
            small.params,
            [
                Param::Choice(0),
                Param::List(vec![]),
                Param::float(2.0),
                Param::double(1.0)
            ]
        );
    }
}
