//! Links libpsic.a, which `tools/library` builds: from the folder that the environment variable `PSIC_LIB_DIR` names, else from
//! `target/psic/lib` of the checkout.

use std::env;
use std::path::PathBuf;

fn main() {
    println!("cargo:rerun-if-env-changed=PSIC_LIB_DIR");
    let folder = match env::var_os("PSIC_LIB_DIR") {
        Some(folder) => PathBuf::from(folder),
        None => PathBuf::from(env!("CARGO_MANIFEST_DIR")).join("../../target/psic/lib"),
    };
    let archive = folder.join("libpsic.a");
    if !archive.is_file() {
        eprintln!("{} is missing.", archive.display());
        eprintln!("Build it by tools/library, or name its folder by the environment variable PSIC_LIB_DIR.");
        std::process::exit(1);
    }
    println!("cargo:rerun-if-changed={}", archive.display());
    println!("cargo:rustc-link-search=native={}", folder.display());
    println!("cargo:rustc-link-lib=static=psic");
}
