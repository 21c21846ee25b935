//! Links the proved library, which `scripts/library.sh` builds.

use std::path::Path;
use std::{env, process};

fn main() {
    let tests = env::var("CARGO_MANIFEST_DIR").expect("cargo names the folder");
    let folder = Path::new(&tests).join("../crates/exports/out");
    let library = folder.join("libexports.a");
    println!("cargo::rerun-if-changed={}", library.display());
    if !library.is_file() {
        let path = library.display();
        eprintln!("There is no proved library {path}.");
        eprintln!("Run `scripts/library.sh` in the repository first.");
        process::exit(1);
    }
    println!("cargo::rustc-link-search=native={}", folder.display());
    println!("cargo::rustc-link-lib=static=exports");
}
