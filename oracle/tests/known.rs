//! docs/LAW.md's known results and its table, by hand, through the same calls as every other case.

use oracle::case::{Case, Param};
use oracle::nasty::Limits;
use oracle::primitives::{ALL, Primitive};
use oracle::rng::Rng;
use oracle::table::SIDE;

fn primitive(name: &str) -> &'static Primitive {
    ALL.iter().find(|primitive| primitive.name == name).unwrap()
}

fn alphas(values: &[u8]) -> Vec<u8> {
    values.iter().flat_map(|a| [0, 0, 0, *a]).collect()
}

fn morphology(op: u32, rx: f32, ry: f32, values: &[u8]) -> Case {
    let sheet = alphas(values);
    Case {
        width: values.len() as u32,
        height: 1,
        params: vec![Param::Choice(op), Param::float(rx), Param::float(ry)],
        sheets: vec![sheet.clone(), sheet],
    }
}

#[test]
fn morphology_of_three_alphas() {
    let run = |op, rx| {
        let outcome = primitive("morphology").expected(&morphology(op, rx, 0.0, &[10, 200, 30]));
        assert!(outcome.answer.number == 0 && outcome.sheets[1].iter().all(|b| *b == 0));
        outcome.sheets[0].clone()
    };
    assert_eq!(run(0, 1.0), alphas(&[200, 200, 200]));
    assert_eq!(run(1, 1.0), alphas(&[10, 10, 30]));
    assert_eq!(run(1, 65536.0), alphas(&[10, 10, 10]));
    assert_eq!(run(0, 0.5), run(0, 1.0));
    assert_eq!(run(0, 0.499_999_97), alphas(&[10, 200, 30]));
}

fn transfer(kind: u32, values: &[f32], sheet: &[u8]) -> Case {
    let list = Param::List(Param::floats(values));
    let params = [(); 4]
        .iter()
        .flat_map(|_| [Param::Choice(kind), list.clone()])
        .collect();
    Case {
        width: sheet.len() as u32 / 4,
        height: 1,
        params,
        sheets: vec![sheet.to_vec()],
    }
}

#[test]
fn transfer_linear_discrete_and_empty() {
    let run = |case: Case| primitive("component_transfer").expected(&case).sheets[0].clone();
    assert_eq!(run(transfer(3, &[0.0, 0.5], &[0, 1, 200, 255])), [127; 4]);
    assert_eq!(
        run(transfer(2, &[0.0, 1.0], &[127, 128, 0, 255])),
        [0, 255, 0, 255]
    );
    for kind in 0..3 {
        assert_eq!(
            run(transfer(kind, &[], &[127, 128, 0, 255])),
            [127, 128, 0, 255]
        );
    }
}

#[test]
fn composite_of_clear_inputs() {
    let run = |k: [f32; 4]| {
        let params = k.map(Param::float).to_vec();
        let sheets = vec![vec![0; 4], vec![0; 4], vec![99; 4]];
        primitive("composite")
            .expected(&Case {
                width: 1,
                height: 1,
                params,
                sheets,
            })
            .sheets
    };
    assert_eq!(run([0.0, 0.0, 0.0, 0.5])[2], [127; 4]);
    assert_eq!(run([0.0; 4])[2], [0; 4]);
}

/// Each thing that is wrong is refused with its number, whatever else of a later number is wrong.
#[test]
fn the_first_test_that_fails_answers() {
    let number = |case: &Case| primitive("morphology").answer(case).number;
    let mut case = morphology(0, 1.0, 1.0, &[1, 2, 3]);
    assert_eq!(number(&case), 0);
    case.params[0] = Param::Choice(2);
    assert_eq!(number(&case), 5);
    case.params[1] = Param::float(f32::NAN);
    assert_eq!(number(&case), 4);
    case.sheets[1].pop();
    assert_eq!(number(&case), 2);
    case.height = 0;
    assert_eq!(number(&case), 1);

    let number = |case: &Case| primitive("component_transfer").answer(case).number;
    let mut case = transfer(1, &[0.0; 256], &[0; 8]);
    assert_eq!(number(&case), 0);
    case.params[6] = Param::Choice(9);
    assert_eq!(number(&case), 5);
    case.params[5] = Param::List(vec![f32::INFINITY.to_bits()]);
    assert_eq!(number(&case), 4);
    case.params[3] = Param::List(vec![0; 257]);
    assert_eq!(number(&case), 3);
    case.params[2] = Param::Choice(3);
    assert_eq!(number(&case), 3);
    case.sheets[0].push(0);
    assert_eq!(number(&case), 2);
    case.width = SIDE + 1;
    assert_eq!(number(&case), 1);
}

#[test]
fn ends_of_ranges_are_inside() {
    let radius = |rx: f32| {
        primitive("morphology")
            .answer(&morphology(1, rx, 0.0, &[1]))
            .number
    };
    let taken = [0.0, -0.0, f32::from_bits(1), 65536.0];
    let refused = [-f32::from_bits(1), 65536f32.next_up(), f32::MAX, -1.0];
    assert_eq!(taken.map(radius), [0; 4]);
    assert_eq!(refused.map(radius), [5; 4]);
    assert_eq!(
        [f32::NAN, f32::INFINITY, -f32::INFINITY].map(radius),
        [4; 3]
    );

    let linear = |x: f32| {
        primitive("component_transfer")
            .answer(&transfer(3, &[x, -x], &[0; 4]))
            .number
    };
    assert_eq!([65536.0, -65536.0, -0.0].map(linear), [0; 3]);
    assert_eq!(
        [65536f32.next_up(), -65536f32.next_up()].map(linear),
        [5; 2]
    );
}

#[test]
fn sides_up_to_4096_are_taken() {
    for primitive in &ALL {
        let wide = (primitive.known)()
            .into_iter()
            .filter(|case| case.width >= 4096);
        let answers: Vec<(u32, u8)> = wide
            .map(|case| (case.width, primitive.answer(&case).number))
            .collect();
        assert_eq!(answers, [(4096, 0), (4097, 1)], "{}", primitive.name);
    }
}

/// Drawn cases are accepted, spoiled ones meet every number that the primitive can give.
#[test]
fn draws_meet_every_answer() {
    let limits = Limits {
        side: 6,
        any_nan: true,
    };
    for primitive in &ALL {
        let mut rng = Rng::new(11);
        let mut seen = [0; 6];
        for _ in 0..2000 {
            let case = primitive.drawn(&mut rng, limits);
            assert_eq!(primitive.expected(&case).answer.number, 0, "{case:?}");
            let case = primitive.draw_spoiled(&mut rng, limits);
            seen[primitive.expected(&case).answer.number as usize] += 1;
        }
        let shapeless = [
            "morphology",
            "composite",
            "displacement_map",
            "turbulence",
            "diffuse_lighting",
            "specular_lighting",
        ]
        .contains(&primitive.name);
        let never: Vec<usize> = (0..6).filter(|number| seen[*number] < 10).collect();
        assert_eq!(
            never,
            if shapeless { vec![3] } else { vec![] },
            "{}: {seen:?}",
            primitive.name
        );
    }
}
