//! Compiles the original crate `str_indices` and takes its own tests out of its source, where the environment variable
//! `STR_INDICES_ORIGINAL` names its folder.

mod own_tests;

use std::path::{Path, PathBuf};
use std::process::Command;
use std::{env, fs};

/// The environment variable that names the folder of the original's source.
const VARIABLE: &str = "STR_INDICES_ORIGINAL";

fn main() {
    println!("cargo::rerun-if-env-changed={VARIABLE}");
    println!("cargo::rustc-check-cfg=cfg(original_at_hand)");
    let out = PathBuf::from(env::var_os("OUT_DIR").expect("cargo sets OUT_DIR"));
    let named = env::var_os(VARIABLE).filter(|folder| !folder.is_empty());
    let original = named.map(PathBuf::from);
    let tests = match &original {
        Some(folder) => {
            check(folder);
            compile(folder, &out);
            own_tests::from_folder(folder)
        }
        None => Vec::new(),
    };
    let macro_file = out.join("own_tests.rs");
    let written = fs::write(&macro_file, own_tests::as_macro(&tests));
    written.unwrap_or_else(|error| panic!("cannot write {}: {error}", macro_file.display()));
}

/// Panics unless the original's source is in the folder. Only an absolute path is taken: cargo runs this script in the
/// folder of its package, which is hardly where a relative path was meant from.
fn check(folder: &Path) {
    let named = folder.display();
    assert!(
        folder.is_absolute(),
        "{VARIABLE} must be an absolute path, and is '{named}'"
    );
    assert!(
        folder.join("src/lib.rs").is_file(),
        "{VARIABLE} names '{named}', which has no src/lib.rs"
    );
}

/// Compiles the original into the folder `out`, as cargo does it for a release with the default features, and lets
/// this package and those above it find it there.
fn compile(folder: &Path, out: &Path) {
    let rustc = env::var_os("RUSTC").expect("cargo sets RUSTC");
    let status = Command::new(rustc)
        .args(["--edition", "2018"])
        .args(["--crate-name", "str_indices_original"])
        .args(["--crate-type", "rlib"])
        .args(["--cfg", "feature=\"simd\""])
        .args(["-C", "opt-level=3", "-A", "unexpected_cfgs"])
        .arg("--out-dir")
        .arg(out)
        .arg(folder.join("src/lib.rs"))
        .status()
        .expect("rustc can be run");
    assert!(status.success(), "the original does not compile: {status}");
    println!("cargo::rustc-link-search=all={}", out.display());
    println!("cargo::rustc-cfg=original_at_hand");
    println!("cargo::rerun-if-changed={}", folder.join("src").display());
    if folder.join("tests").is_dir() {
        println!("cargo::rerun-if-changed={}", folder.join("tests").display());
    }
}
