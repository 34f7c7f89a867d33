//! The taking out of tests, over source made up here.

#[path = "../build/own_tests.rs"]
mod own_tests;

use own_tests::{as_macro, from_folder, part_headed, tests_in, OwnTests, MODULES};
use std::fs;
use std::path::Path;

const SOURCE: &str = "fn one() {\n}\n#[cfg(test)]\nmod tests {\n    fn two() {\n    }\n}\n// the end\n";
const TESTS: &str = "mod tests {\n    fn two() {\n    }\n}\n";

#[test]
fn tests_are_the_module_of_that_name_to_its_brace() {
    assert_eq!(tests_in(SOURCE).as_deref(), Some(TESTS));
    assert_eq!(tests_in("fn one() {\n}\n"), None);
    assert_eq!(tests_in("mod tests {\n    fn two() {}\n"), None);
}

#[test]
fn a_part_runs_to_the_next_comment_that_names_a_file() {
    let gathered = "// src/lines_lf.rs\na\n// b\n// src/lines.rs\nc\n// src/chars.rs\n";
    assert_eq!(part_headed("lines_lf", gathered), Some("a\n// b\n"));
    assert_eq!(part_headed("lines", gathered), Some("c\n"));
    assert_eq!(part_headed("chars", gathered), Some(""));
    assert_eq!(part_headed("utf16", gathered), None);
}

#[test]
fn the_macro_has_a_module_for_each() {
    let tests = ["chars", "lib"].map(|module| OwnTests {
        module,
        text: TESTS.to_string(),
    });
    let text = as_macro(&tests);
    assert!(text.contains("mod chars {\nuse str_indices::chars::*;\nmod tests {"));
    assert!(text.contains("mod lib {\nuse str_indices::*;\nmod tests {"));
}

#[test]
fn tests_are_taken_from_beside_the_source_or_from_the_folder_of_tests() {
    let folder = Path::new(env!("CARGO_TARGET_TMPDIR")).join("made_up");
    fs::create_dir_all(folder.join("src")).unwrap();
    fs::create_dir_all(folder.join("tests")).unwrap();
    for module in MODULES {
        let source = if module == "chars" { SOURCE } else { "" };
        fs::write(folder.join(format!("src/{module}.rs")), source).unwrap();
    }
    let gathered = format!(
        "// src/lines.rs, its tests\n{SOURCE}// src/chars.rs\n{}",
        SOURCE.replace("two", "three")
    );
    fs::write(folder.join("tests/all.rs"), gathered).unwrap();
    let found = from_folder(&folder);
    let found: Vec<(&str, &str)> = found.iter().map(|own| (own.module, own.text.as_str())).collect();
    assert_eq!(found, [("chars", TESTS), ("lines", TESTS)]);
}
