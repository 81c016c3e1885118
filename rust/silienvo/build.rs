//! Links the archive that `./build library` writes: target/staticlib/libsilienvo.a of the repository, or SILIENVO_LIBRARY names its folder.

use std::path::Path;

fn main() {
    println!("cargo:rerun-if-env-changed=SILIENVO_LIBRARY");
    let here = std::env::var("CARGO_MANIFEST_DIR").expect("set by cargo");
    let folder = match std::env::var("SILIENVO_LIBRARY") {
        Ok(folder) => folder.into(),
        Err(_) => Path::new(&here).join("../../target/staticlib"),
    };
    let archive = folder.join("libsilienvo.a");
    println!("cargo:rerun-if-changed={}", archive.display());
    if !archive.is_file() {
        eprintln!("{} is not there. Run ./build library in the repository, which proves the library and writes it.", archive.display());
        std::process::exit(1);
    }
    println!("cargo:rustc-link-search=native={}", folder.display());
    println!("cargo:rustc-link-lib=static=silienvo");
}
