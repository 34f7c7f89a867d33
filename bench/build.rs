//! Compiles Debian's crate `bytecount` where it is installed, and hands on the compiler's version.

use std::env;
use std::path::{Path, PathBuf};
use std::process::Command;

fn main() {
    println!("cargo::rustc-check-cfg=cfg(bytecount_at_hand)");
    // What is installed changes with this file. Where it is not there, cargo runs this script each time.
    println!("cargo::rerun-if-changed=/var/lib/dpkg/status");
    println!("cargo::rerun-if-changed=build.rs");
    let rustc = PathBuf::from(env::var_os("RUSTC").expect("cargo sets RUSTC"));
    let version = printed(Command::new(&rustc).arg("--version")).expect("rustc tells its version");
    println!("cargo::rustc-env=RUSTC_VERSION={}", version.trim());
    if let Some(source) = bytecount_source() {
        let out = PathBuf::from(env::var_os("OUT_DIR").expect("cargo sets OUT_DIR"));
        compile_bytecount(&rustc, &source, &out);
    }
}

/// The file `src/lib.rs` of the package `librust-bytecount-dev`, where `dpkg` and the package are there.
fn bytecount_source() -> Option<PathBuf> {
    let files = printed(Command::new("dpkg").args(["-L", "librust-bytecount-dev"]))?;
    let source = files.lines().find(|path| path.ends_with("/src/lib.rs"))?;
    Some(PathBuf::from(source))
}

/// Compiles it with the choice of the machine's widest vectors at run time. Where that fails, the table does without.
fn compile_bytecount(rustc: &Path, source: &Path, out: &Path) {
    let status = Command::new(rustc)
        .args(["--edition", "2018"])
        .args(["--crate-name", "bytecount"])
        .args(["--crate-type", "rlib"])
        .args(["--cfg", "feature=\"runtime-dispatch-simd\""])
        .args(["-C", "opt-level=3", "-A", "warnings"])
        .arg("--out-dir")
        .arg(out)
        .arg(source)
        .status()
        .expect("rustc can be run");
    if status.success() {
        println!("cargo::rustc-link-search=all={}", out.display());
        println!("cargo::rustc-cfg=bytecount_at_hand");
    } else {
        println!("cargo::warning=bytecount does not compile: {status}");
    }
}

/// What a command prints, where it can be run and succeeds.
fn printed(command: &mut Command) -> Option<String> {
    let output = command.output().ok()?;
    let text = output.status.success().then_some(output.stdout)?;
    String::from_utf8(text).ok()
}
