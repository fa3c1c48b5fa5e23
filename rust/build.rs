//! Links the static library: the archive named by NUPRIKHEN_ARCHIVE, else the one that ./build makes.

use std::path::{Path, PathBuf};
use std::{env, fs};

/// ELF's numbers of processors, by Rust's names.
const PROCESSORS: [(&str, [u8; 2]); 3] = [
    ("x86_64", [62, 0]),
    ("aarch64", [183, 0]),
    ("riscv64", [243, 0]),
];

fn main() {
    println!("cargo::rerun-if-changed=build.rs");
    println!("cargo::rerun-if-env-changed=NUPRIKHEN_ARCHIVE");
    let package = PathBuf::from(env::var_os("CARGO_MANIFEST_DIR").unwrap());
    let archive = match env::var_os("NUPRIKHEN_ARCHIVE") {
        Some(named) => package.join(named),
        None => package
            .parent()
            .unwrap()
            .join("target/library/libnuprikhen.a"),
    };
    println!("cargo::rerun-if-changed={}", archive.display());
    if let Err(what) = link(&archive) {
        println!(
            "cargo::error={}: {what}. Run ./build in the repository, or name an archive by an \
             absolute path in NUPRIKHEN_ARCHIVE.",
            archive.display()
        );
    }
}

fn link(archive: &Path) -> Result<(), String> {
    let bytes = fs::read(archive).map_err(|error| error.to_string())?;
    let wanted = env::var("CARGO_CFG_TARGET_ARCH").unwrap();
    match processor(&bytes) {
        Some(found) if found == wanted => {}
        Some(found) => return Err(format!("its code is for {found}, not {wanted}")),
        None => return Err("no archive of objects for a known processor".to_string()),
    }
    let folder = env::var("OUT_DIR").unwrap();
    fs::write(Path::new(&folder).join("libnuprikhen.a"), bytes)
        .map_err(|error| error.to_string())?;
    println!("cargo::rustc-link-search=native={folder}");
    println!("cargo::rustc-link-lib=static=nuprikhen");
    Ok(())
}

/// The processor that the archive's first object is for.
fn processor(archive: &[u8]) -> Option<&'static str> {
    let object = archive.windows(4).position(|four| four == b"\x7fELF")?;
    let number = archive.get(object + 18..object + 20)?;
    let known = PROCESSORS.iter().find(|(_, known)| known == number)?;
    Some(known.0)
}
