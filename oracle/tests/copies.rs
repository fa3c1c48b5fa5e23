//! What the oracle compiles is resvg's text: the nine copies, mod.rs's items, and the lent lines.

use std::fs;
use std::io::Write;
use std::path::PathBuf;
use std::process::{Command, Stdio};

use oracle::filter::{ImageRefMut, color_matrix, color_matrix_lent, lent};
use rgb::FromSlice;
use usvg::filter::ColorMatrixKind;

include!("../src/lent_lines.rs");

/// SHA-256 of resvg 0.49.0's own files.
const COPIES: [(&str, &str); 9] = [
    (
        "color_matrix.rs",
        "5f721bd5b56bd6ceeba3e0dfce8cf788d49943dd808ea6beca2b045345f8f616",
    ),
    (
        "component_transfer.rs",
        "78c6961374d9d0829cb37dca470dee1e4a868f8597c91a2735646ab76edf562d",
    ),
    (
        "composite.rs",
        "391394fceb347771bb6c930882635f99e022a7b6108df66cf7616aa83d13a1af",
    ),
    (
        "convolve_matrix.rs",
        "d4e8b2e7604b93866a8d02ac1524e16c914e5803f0a05285f40cef6785631a09",
    ),
    (
        "displacement_map.rs",
        "e54274bb502bd7d262c6daa98b447ef2c90ee49a084e32f6892782bd9d678687",
    ),
    (
        "iir_blur.rs",
        "b489b4d6c905ca246b72a9d9cddb2ffd40cbef7ca2b51c15d63d13902e9cc5a4",
    ),
    (
        "lighting.rs",
        "55c68c61f27b831d81f30c62e3adf56f131d40664ce34ece4acfacfe0ddcdf71",
    ),
    (
        "morphology.rs",
        "5444eec7f659319fc6ccda51d2b24b7bff316f89e501903b7a5f6fb9e9ab1a9d",
    ),
    (
        "turbulence.rs",
        "2b4c288e174664836d17f829831809bee0fc55f02e6eab8425447f2ab778d974",
    ),
];

/// SHA-256 of the seven items that src/filter/mod.rs takes of resvg's mod.rs.
const ITEMS: &str = "cf71771e850cff8580b6e0bdf3c3a93d31d97871c666f2c9140a2f2ab0ff3292";

fn package(file: &str) -> PathBuf {
    PathBuf::from(env!("CARGO_MANIFEST_DIR")).join(file)
}

/// The SHA-256 of the bytes, by the command sha256sum.
fn sum(bytes: &[u8]) -> String {
    let mut command = Command::new("sha256sum")
        .stdin(Stdio::piped())
        .stdout(Stdio::piped())
        .spawn()
        .expect("sha256sum starts");
    command.stdin.take().unwrap().write_all(bytes).unwrap();
    let output = command.wait_with_output().unwrap();
    let printed = String::from_utf8(output.stdout).unwrap();
    printed.split(' ').next().unwrap().to_string()
}

#[test]
fn copies_are_resvg_byte_for_byte() {
    let found = fs::read_dir(package("resvg/filter")).unwrap().count();
    assert_eq!(found, COPIES.len());
    for (file, resvg) in COPIES {
        let copy = fs::read(package("resvg/filter").join(file)).unwrap();
        assert_eq!(sum(&copy), resvg, "{file} differs from resvg's");
    }
}

#[test]
fn items_of_mod_are_resvg_word_for_word() {
    let ours = fs::read_to_string(package("src/filter/mod.rs")).unwrap();
    let (_, items) = ours.split_once("word for word.\n\n").unwrap();
    assert_eq!(sum(items.as_bytes()), ITEMS, "not resvg's items of mod.rs");
}

#[test]
fn lent_copies_differ_in_the_lent_lines_alone() {
    let made = [
        include_str!(concat!(env!("OUT_DIR"), "/color_matrix_lent.rs")),
        include_str!(concat!(env!("OUT_DIR"), "/lighting_lent.rs")),
        include_str!(concat!(env!("OUT_DIR"), "/turbulence_lent.rs")),
    ];
    for ((file, lines), copy) in LENT.iter().zip(made) {
        let rust = fs::read_to_string(package(&format!("resvg/filter/{file}.rs"))).unwrap();
        assert_eq!(rust.lines().count(), copy.lines().count());
        let changed: Vec<(&str, &str)> = rust
            .lines()
            .zip(copy.lines())
            .filter(|(old, new)| old != new)
            .map(|(old, new)| (old.trim_start(), new.trim_start()))
            .collect();
        assert_eq!(changed, *lines, "{file}");
    }
}

#[test]
fn lending_the_rust_its_own_pair_changes_no_byte() {
    for degree in -720..=720 {
        let angle = degree as f32 / 2.0;
        let pixels: Vec<u8> = (0..64u32)
            .map(|i| (i * 37 + degree as u32 % 251) as u8)
            .collect();
        let (mut plain, mut changed) = (pixels.clone(), pixels);
        let kind = ColorMatrixKind::HueRotate(angle);
        color_matrix::apply(&kind, ImageRefMut::new(4, 4, plain.as_rgba_mut()));
        lent::lend_pair(angle.to_radians().cos(), angle.to_radians().sin());
        color_matrix_lent::apply(&kind, ImageRefMut::new(4, 4, changed.as_rgba_mut()));
        assert_eq!(plain, changed, "angle {angle}");
    }
}
