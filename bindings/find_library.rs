//! Finds a static library of the proved functions, or builds it. The build scripts of the Cargo crates beside this file
//! take it in.
use std::env;
use std::fs;
use std::path::{Path, PathBuf};
use std::process::{exit, Command};

/// The environment variable that names the folder of the libraries.
const LIBRARY_FOLDER: &str = "STR_INDICES_LIB_DIR";

/// The repository's script that builds a library. It leaves a library alone that it built from the present sources.
const SCRIPT: &str = "bindings/c/build_library";

/// The files and folders of the repository that the script builds a library from.
const SOURCES: [&str; 3] = ["crates.txt", "HANDLES", "bindings/c"];

/// The folders of each crate that the script builds a library from.
const SOURCES_OF_CRATE: [&str; 4] = ["src", "specs", "proofs", "c"];

/// A static library, by its name.
pub struct Library {
    pub name: &'static str,
}

impl Library {
    /// Links the crate with the library, or ends with what is missing.
    pub fn link(&self) {
        println!("cargo:rerun-if-env-changed={LIBRARY_FOLDER}");
        match check_target().and_then(|()| self.folder()) {
            Ok(folder) => {
                println!("cargo:rerun-if-changed={}", folder.join(self.file()).display());
                println!("cargo:rustc-link-search=native={}", folder.display());
                println!("cargo:rustc-link-lib=static={}", self.name);
            }
            Err(missing) => {
                eprintln!("{}: {missing}", self.name);
                exit(1);
            }
        }
    }

    fn file(&self) -> String {
        format!("lib{}.a", self.name)
    }

    /// Where the library is: in the folder that was named, else where this repository builds it or a release has it, else
    /// where it is installed; and where it is nowhere, it is built. One of another version is refused, and one that the
    /// repository built from other sources is built anew.
    fn folder(&self) -> Result<PathBuf, String> {
        let named = env::var_os(LIBRARY_FOLDER).filter(|folder| !folder.is_empty());
        if let Some(folder) = named.map(PathBuf::from) {
            return if self.is_in(&folder) {
                self.with_version(folder)
            } else {
                let (file, folder) = (self.file(), folder.display());
                Err(format!("{LIBRARY_FOLDER} names {folder}, which has no {file}"))
            };
        }
        let repository = Path::new(env!("CARGO_MANIFEST_DIR")).join("../..");
        let built = repository.join("out");
        if self.is_in(&built) {
            return self.build(&repository, "may have been built from other sources");
        }
        let found = [Some(repository.join("lib")), self.installed_folder()];
        match found.into_iter().flatten().find(|folder| self.is_in(folder)) {
            Some(folder) => self.with_version(folder),
            None => self.build(&repository, "is missing"),
        }
    }

    /// The folder, where the library in it has the version of the crate: it has its own behind its name.
    fn with_version(&self, folder: PathBuf) -> Result<PathBuf, String> {
        let version = env!("CARGO_PKG_VERSION");
        let named = format!("{} {version}\0", self.name);
        let library = folder.join(self.file());
        let bytes = fs::read(&library).map_err(|error| format!("{}: {error}", library.display()))?;
        if bytes.windows(named.len()).any(|part| part == named.as_bytes()) {
            Ok(folder)
        } else {
            let library = library.display();
            Err(format!("{library} is not of version {version}, as this crate is"))
        }
    }

    fn is_in(&self, folder: &Path) -> bool {
        folder.join(self.file()).is_file()
    }

    /// The folder of the installed library, by pkg-config.
    fn installed_folder(&self) -> Option<PathBuf> {
        let output = Command::new("pkg-config")
            .args(["--variable=libdir", self.name])
            .output()
            .ok()?;
        // pkg-config writes a backslash before a blank
        let folder = String::from_utf8(output.stdout).ok()?.replace("\\ ", " ");
        output.status.success().then(|| PathBuf::from(folder.trim_end()))
    }

    /// Lets the repository that the crate is part of prove and build the library, which takes minutes the first time. Where
    /// it cannot, the error says what was wrong with the library.
    fn build(&self, repository: &Path, wrong: &str) -> Result<PathBuf, String> {
        let (file, name) = (self.file(), self.name);
        let missing = format!(
            "the static library {file} {wrong}. Let {LIBRARY_FOLDER} name a folder that has it, or install it where \
             pkg-config finds {name}"
        );
        if !repository.join(SCRIPT).is_file() {
            return Err(missing);
        }
        if Command::new("rt").arg("version").output().is_err() {
            return Err(format!(
                "{missing}, or build it by {SCRIPT} {name} with Rattle's command rt on the path"
            ));
        }
        watch_sources(repository);
        let folder = repository.join("out");
        match Command::new(repository.join(SCRIPT)).arg(name).status() {
            Ok(status) if !status.success() => Err(format!("{SCRIPT} failed: {status}")),
            Ok(_) if !self.is_in(&folder) => Err(format!("{SCRIPT} left no {file}")),
            Ok(_) => Ok(folder),
            Err(error) => Err(format!("{SCRIPT} cannot be run: {error}")),
        }
    }
}

/// Lets cargo look for the library again where a crate has changed.
fn watch_sources(repository: &Path) {
    let crates = fs::read_dir(repository.join("crates")).into_iter().flatten().flatten();
    let parts = crates.flat_map(|entry| SOURCES_OF_CRATE.map(|part| entry.path().join(part)));
    let others = SOURCES.map(|name| repository.join(name));
    // cargo would run it each time for a path that is not there
    for path in parts.chain(others).filter(|path| path.exists()) {
        println!("cargo:rerun-if-changed={}", path.display());
    }
}

/// A library is machine code, so it serves one kind of machine.
fn check_target() -> Result<(), String> {
    let target = env::var("TARGET").unwrap_or_default();
    if target.starts_with("x86_64-") && target.contains("-linux-") {
        Ok(())
    } else {
        Err(format!(
            "the proved library is built for Linux on x86-64, and not for {target}"
        ))
    }
}
