//! The package without `std`, with and without `alloc`, as a dependent of it would build it.

use std::process::Command;

/// Checks the library with these features alone, where a warning is an error.
fn checked(features: &str) {
    let told = Command::new(env!("CARGO"))
        .args(["check", "--quiet", "--offline", "--lib"])
        .args(["--no-default-features", "--features", features])
        .args(["--target-dir", env!("CARGO_TARGET_TMPDIR")])
        .current_dir(env!("CARGO_MANIFEST_DIR"))
        .env("RUSTFLAGS", "-D warnings")
        .output()
        .expect("cargo");
    let said = String::from_utf8_lossy(&told.stderr);
    assert!(told.status.success(), "{features}: {said}");
}

#[test]
fn without_std() {
    for features in ["", "alloc"] {
        checked(features);
    }
}
