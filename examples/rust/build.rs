//! Finds the static library and links it, or says what is missing.
//!
//! It is, in this order:
//!
//! 1. what the environment variable `LNORM_LIBRARY` names: a path of `liblnorm_c.a`, under any name that begins with `lib`;
//! 2. `out/library/liblnorm_c.a` at the top of the repository, two folders above this package, where `tools/library` makes it;
//! 3. `lib/liblnorm_c.a` there, in an installed package.
//!
//! A copy of this package elsewhere needs the variable. The archive needs nothing but a C library; no Rattle is asked for.
use std::env;
use std::path::{Path, PathBuf};
use std::process::exit;

/// Where the library may be, from two folders above.
const PLACES: [&str; 2] = ["out/library/liblnorm_c.a", "lib/liblnorm_c.a"];
/// The one command that makes it.
const HOW: &str = "This makes it, at the top of the repository:\n    tools/library";

fn main() {
    println!("cargo:rerun-if-env-changed=LNORM_LIBRARY");
    let places = match env::var_os("LNORM_LIBRARY") {
        Some(path) => vec![PathBuf::from(path)],
        None => PLACES.iter().map(|place| top().join(place)).collect(),
    };
    for place in &places {
        println!("cargo:rerun-if-changed={}", place.display());
    }
    match places.iter().find_map(|place| place.canonicalize().ok()) {
        Some(library) => link(&library),
        None => missing(&places),
    }
}

/// The top of the repository or of an installed package, two folders above this one.
fn top() -> PathBuf {
    let here = PathBuf::from(env::var_os("CARGO_MANIFEST_DIR").unwrap_or_default());
    here.ancestors().nth(2).unwrap_or(&here).to_path_buf()
}

/// Links an archive, `libNAME.a`.
fn link(archive: &Path) {
    let stem = archive.file_stem().unwrap_or_default().to_string_lossy();
    let folder = archive.parent().unwrap_or(Path::new("."));
    println!("cargo:rustc-link-search=native={}", folder.display());
    println!(
        "cargo:rustc-link-lib=static={}",
        stem.strip_prefix("lib").unwrap_or(&stem)
    );
}

fn missing(places: &[PathBuf]) -> ! {
    let places: Vec<String> = places.iter().map(|place| place.display().to_string()).collect();
    eprintln!("the library is not there: {}. {HOW}", places.join(", "));
    eprintln!("If it is elsewhere, name its path in the environment variable LNORM_LIBRARY.");
    exit(1)
}
