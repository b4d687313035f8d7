//! Hands the crate's own text to the compiler: `fixed.rs` and `variable.rs` whole, by path, and a
//! few items cut out of `lib.rs`, whose other imports would bring in all of Arrow.

use std::env;
use std::fs;
use std::path::{Path, PathBuf};

/// The items of lib.rs that run, by how their first line begins.
const ITEMS: [&str; 4] = [
    "fn null_sentinel(",
    "enum LengthTracker ",
    "impl LengthTracker ",
    "fn push_generic_byte_array_lengths<",
];

fn main() {
    println!("cargo::rerun-if-env-changed=ARROW_ROW_SRC");
    println!("cargo::rerun-if-changed=build.rs");
    let folder = source_folder();
    for file in ["fixed.rs", "variable.rs", "lib.rs"] {
        println!("cargo::rerun-if-changed={}", folder.join(file).display());
    }
    match crate_text(&folder) {
        Ok(text) => {
            let out = PathBuf::from(env::var_os("OUT_DIR").expect("cargo sets this"));
            fs::write(out.join("crate_text.rs"), text).expect("OUT_DIR can be written");
        }
        Err(missing) => println!(
            "cargo::error={missing}. Say in ARROW_ROW_SRC which folder has fixed.rs, variable.rs \
             and lib.rs of arrow-row 60.0.0."
        ),
    }
}

/// The folder named by ARROW_ROW_SRC, or `../shared/docs/src/src` from the repository's root.
fn source_folder() -> PathBuf {
    match env::var_os("ARROW_ROW_SRC") {
        Some(folder) => PathBuf::from(folder),
        None => PathBuf::from(env::var_os("CARGO_MANIFEST_DIR").expect("cargo sets this"))
            .join("../../../shared/docs/src/src"),
    }
}

/// The two modules, and the items of lib.rs after them.
fn crate_text(folder: &Path) -> Result<String, String> {
    let mut text = String::new();
    for module in ["fixed", "variable"] {
        let file = folder.join(module).with_extension("rs");
        let file = fs::canonicalize(&file).map_err(|e| format!("{}: {e}", file.display()))?;
        // The crate's text names a lint that this clippy may not know.
        text += &format!("#[allow(unknown_lints)]\n#[path = {file:?}]\npub mod {module};\n");
    }
    let file = folder.join("lib.rs");
    let lib = fs::read_to_string(&file).map_err(|e| format!("{}: {e}", file.display()))?;
    for start in ITEMS {
        let item = item(&lib, start).ok_or(format!("{}: no `{start}`", file.display()))?;
        text += &format!("#[allow(dead_code)]\n{item}\n");
    }
    Ok(text)
}

/// The lines from the one that begins with `start` to the brace that closes it, and the attributes
/// above it.
fn item(lib: &str, start: &str) -> Option<String> {
    let lines: Vec<&str> = lib.lines().collect();
    let head = lines.iter().position(|line| line.starts_with(start))?;
    let attributes = lines[..head].iter().rev();
    let attributes = attributes.take_while(|line| line.starts_with("#["));
    let first = head - attributes.count();
    let length = lines[first..].iter().position(|line| *line == "}")? + 1;
    Some(lines[first..first + length].join("\n"))
}
