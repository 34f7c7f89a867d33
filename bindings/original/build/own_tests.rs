//! The original's own tests, taken out of its source as text.
//!
//! They stand in modules `mod tests { .. }`, each of which runs to the `}` in the first column: at the end of
//! `src/NAME.rs`, or gathered in the files of `tests/`, where a comment line above each names `src/NAME.rs`.

use std::fmt::Write;
use std::fs;
use std::path::{Path, PathBuf};

/// The modules of the original that have tests of public functions. `lib` is the crate itself.
pub const MODULES: [&str; 6] = ["chars", "utf16", "lines_lf", "lines_crlf", "lines", "lib"];

/// The tests of one module of the original.
pub struct OwnTests {
    /// The module, one of [`MODULES`].
    pub module: &'static str,
    /// The lines from `mod tests {` to its `}`.
    pub text: String,
}

/// The tests of each module that has some, from the module's file, else from the files of `tests/`.
pub fn from_folder(folder: &Path) -> Vec<OwnTests> {
    let gathered: String = rust_files(&folder.join("tests"))
        .iter()
        .map(|path| read(path))
        .collect();
    let mut found = Vec::new();
    for module in MODULES {
        let own_file = folder.join("src").join(format!("{module}.rs"));
        let beside = tests_in(&read(&own_file));
        let text = beside.or_else(|| tests_in(part_headed(module, &gathered)?));
        found.extend(text.map(|text| OwnTests { module, text }));
    }
    found
}

/// The lines of the first `mod tests {` of a file, to the first `}` in the first column, if there is one.
pub fn tests_in(file: &str) -> Option<String> {
    let mut text = String::new();
    for line in file.lines().skip_while(|line| *line != "mod tests {") {
        text.push_str(line);
        text.push('\n');
        if line == "}" {
            return Some(text);
        }
    }
    None
}

/// What stands below the comment line that names `src/MODULE.rs`, up to the next comment line that names a file of
/// `src`.
pub fn part_headed<'a>(module: &str, gathered: &'a str) -> Option<&'a str> {
    let head = format!("src/{module}.rs");
    let mut start = None;
    let mut place = 0;
    for line in gathered.split_inclusive('\n') {
        let next = place + line.len();
        match start {
            None if line.starts_with("//") && line.contains(&head) => start = Some(next),
            Some(start) if line.starts_with("// ") && line.contains("src/") => {
                return Some(&gathered[start..place]);
            }
            _ => {}
        }
        place = next;
    }
    Some(&gathered[start?..])
}

/// The text of a file that defines the macro `own_tests`, which expands to the tests over a crate `str_indices`.
///
/// Each module of tests gets the functions that it is about from its parent, so it stands unchanged.
pub fn as_macro(tests: &[OwnTests]) -> String {
    let mut modules = String::new();
    for OwnTests { module, text } in tests {
        let subject = match *module {
            "lib" => "str_indices".to_string(),
            module => format!("str_indices::{module}"),
        };
        write!(modules, "mod {module} {{\nuse {subject}::*;\n{text}}}\n").expect("a String takes all text");
    }
    let head = "/// The original's own tests over a crate `str_indices` in scope; nothing where they are not at hand.";
    format!("{head}\n#[macro_export]\nmacro_rules! own_tests {{\n() => {{\n{modules}}};\n}}\n")
}

/// The Rust files of a folder by name; none where there is no such folder.
fn rust_files(folder: &Path) -> Vec<PathBuf> {
    let Ok(entries) = fs::read_dir(folder) else {
        return Vec::new();
    };
    let paths = entries.filter_map(|entry| Some(entry.ok()?.path()));
    let mut files: Vec<PathBuf> = paths
        .filter(|path| path.extension().is_some_and(|end| end == "rs"))
        .collect();
    files.sort();
    files
}

fn read(path: &Path) -> String {
    fs::read_to_string(path).unwrap_or_else(|error| panic!("cannot read {}: {error}", path.display()))
}
