//! Links the proved library, an archive that `rt lib` in crates/corkgully writes. `CORKGULLY_LIB_DIR`
//! names another folder to take it from.

use std::env;
use std::path::{Path, PathBuf};

fn main() {
    let here = env::var_os("CARGO_MANIFEST_DIR").expect("cargo names this crate's folder");
    let folder = env::var_os("CORKGULLY_LIB_DIR").map_or_else(
        || Path::new(&here).join("../crates/corkgully/out"),
        PathBuf::from,
    );
    let archive = folder.join("libcorkgully.a");

    // A new archive has the crate built again; without these lines a test could run against the old
    // one.
    println!("cargo:rerun-if-env-changed=CORKGULLY_LIB_DIR");
    println!("cargo:rerun-if-changed={}", archive.display());
    if !archive.is_file() {
        // The linker would say so too, but not what makes the archive.
        eprintln!(
            "{} is not there: `rt lib` in crates/corkgully makes it",
            archive.display()
        );
        std::process::exit(1);
    }
    println!("cargo:rustc-link-search=native={}", folder.display());
    println!("cargo:rustc-link-lib=static=corkgully");
}
