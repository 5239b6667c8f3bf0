//! Gives the shared library its name, with the number of the interface that include/spireyerba_text.h has.

const HEADER: &str = "../include/spireyerba_text.h";
const DEFINITION: &str = "#define SPIREYERBA_TEXT_INTERFACE ";

fn main() {
    println!("cargo:rerun-if-changed={HEADER}");
    let header = std::fs::read_to_string(HEADER).unwrap_or_default();
    if let Some(number) = header.lines().find_map(|line| line.strip_prefix(DEFINITION)) {
        println!("cargo:rustc-cdylib-link-arg=-Wl,-soname,libspireyerba_text.so.{number}");
    }
}
