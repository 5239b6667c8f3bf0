//! Links the proved library: that of the folder which `SPIREYERBA_LIB_DIR` names, as `make install` leaves it, or the one that
//! `make proved` writes.

use std::path::{Path, PathBuf};

/// The folder of an installed library.
const FOLDER: &str = "SPIREYERBA_LIB_DIR";

fn main() {
    let root = Path::new(env!("CARGO_MANIFEST_DIR")).join("..");
    let installed = std::env::var_os(FOLDER).map(PathBuf::from);
    let folder = installed.clone().unwrap_or_else(|| root.join("target/staticlib"));
    let archive = folder.join("libspireyerba.a");
    println!("cargo:rerun-if-env-changed={FOLDER}");
    println!("cargo:rerun-if-changed={}", archive.display());
    println!("cargo:rustc-link-search=native={}", folder.display());
    println!("cargo:rustc-link-lib=static=spireyerba");
    if !archive.exists() {
        println!("cargo:warning=no {}: run `make proved`, or set {FOLDER}", archive.display());
    }
    let (said_in, before) = match installed {
        Some(folder) => (folder.join("pkgconfig/spireyerba.pc"), "Version: "),
        None => (root.join("include/spireyerba_util.h"), "#define SPIREYERBA_VERSION "),
    };
    println!("cargo:rerun-if-changed={}", said_in.display());
    let version = version(&said_in, before).unwrap_or_else(|| "unknown".to_owned());
    println!("cargo:rustc-env=SPIREYERBA_LIBRARY_VERSION={version}");
}

/// What a file says behind the beginning of a line.
fn version(file: &Path, before: &str) -> Option<String> {
    let text = std::fs::read_to_string(file).ok()?;
    let said = text.lines().find_map(|line| line.strip_prefix(before))?;
    Some(said.trim().trim_matches('"').to_owned())
}
