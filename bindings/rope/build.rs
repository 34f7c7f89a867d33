//! Finds the static library, or builds it.
#[path = "../find_library.rs"]
mod find_library;

use find_library::Library;

fn main() {
    Library { name: "str_rope" }.link();
}
