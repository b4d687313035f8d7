//! Finds the station's archive and links it; or makes a release, where the toolchain is; or says
//! how to make one.

use std::env;
use std::path::{Path, PathBuf};
use std::process::Command;

/// The archive's name in a release, and as `rt lib` writes it.
const NAMES: [&str; 2] = ["station", "station_c"];

fn main() {
    println!("cargo::rerun-if-env-changed=STATION_LIB_DIR");
    println!("cargo::rerun-if-changed=build.rs");
    let built = repository().join("crates/station_c/out");
    let made = repository().join("target/release");
    let found = match env::var_os("STATION_LIB_DIR") {
        Some(dir) => archive(Path::new(&dir)),
        None => archive(&built)
            .or_else(|| archive(&made))
            .or_else(|| release(&made)),
    };
    let Some((dir, name)) = found else {
        println!(
            "cargo::error=The station's archive is not there. Say in STATION_LIB_DIR which folder \
             has libstation.a; `tools/release OUT` makes one where the toolchain is, or \
             `tools/archive` in the repository."
        );
        return;
    };
    println!("cargo::rerun-if-changed={}", file(&dir, name).display());
    println!("cargo::rustc-link-search=native={}", dir.display());
    println!("cargo::rustc-link-lib=static={name}");
}

/// The repository that these bindings are in.
fn repository() -> PathBuf {
    PathBuf::from(env::var_os("CARGO_MANIFEST_DIR").expect("cargo sets this")).join("../..")
}

fn file(dir: &Path, name: &str) -> PathBuf {
    dir.join(format!("lib{name}.a"))
}

/// The archive in a folder, if there is one.
fn archive(dir: &Path) -> Option<(PathBuf, &'static str)> {
    let name = NAMES.into_iter().find(|name| file(dir, name).is_file())?;
    Some((dir.to_path_buf(), name))
}

/// Makes a release in a folder, if that can be done here.
fn release(dir: &Path) -> Option<(PathBuf, &'static str)> {
    let made = Command::new(repository().join("tools/release"))
        .arg(dir)
        .status();
    made.ok().filter(|status| status.success())?;
    archive(dir)
}
