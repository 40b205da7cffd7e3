//! Tells the linker where the library's archive is.
use std::path::Path;

const NAME: &str = "jirmeklo";

fn main() {
    let manifest = std::env::var("CARGO_MANIFEST_DIR").expect("cargo sets CARGO_MANIFEST_DIR");
    let folder = Path::new(&manifest).join("../crates").join(NAME).join("out");
    let archive = folder.join(format!("lib{NAME}.a"));
    if !archive.is_file() {
        eprintln!(
            "{} is missing: run `rt lib` in crates/{NAME} first",
            archive.display()
        );
        std::process::exit(1);
    }
    println!("cargo:rerun-if-changed=build.rs");
    // A new archive has to be linked anew, or an old library would be compared.
    println!("cargo:rerun-if-changed={}", archive.display());
    println!("cargo:rustc-link-search=native={}", folder.display());
    println!("cargo:rustc-link-lib=static={NAME}");
}
