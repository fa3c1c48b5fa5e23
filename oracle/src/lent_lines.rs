// The lines that a lent copy changes: file, then each line as the Rust has it and as the copy has it. That of turbulence is lent
// nothing: it tells each state that it draws the next one from; and it lacks an attribute that an included text cannot have.
// build.rs makes the copies from this list and tests/copies.rs shows that they differ in nothing else.

pub const LENT: [(&str, &[(&str, &str)]); 3] = [
    (
        "color_matrix",
        &[
            ("let a1 = angle.cos();", "let a1 = super::lent::cosine();"),
            ("let a2 = angle.sin();", "let a2 = super::lent::sine();"),
        ],
    ),
    (
        "lighting",
        &[
            ("azimuth.cos() * elevation.cos(),", "super::lent::x(),"),
            ("azimuth.sin() * elevation.cos(),", "super::lent::y(),"),
            ("elevation.sin(),", "super::lent::z(),"),
        ],
    ),
    (
        "turbulence",
        &[
            ("#![allow(clippy::needless_range_loop)]", ""),
            (
                "fn random(seed: i32) -> i32 {",
                "fn random(seed: i32) -> i32 { super::lent::tell_state(seed);",
            ),
        ],
    ),
];
