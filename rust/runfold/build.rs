//! Says where the linker finds the static library, and what to run where it is not there.

use std::env;
use std::path::PathBuf;

fn main() {
    println!("cargo::rerun-if-env-changed=RUNFOLD_LIB_DIR");
    let here = PathBuf::from(env::var_os("CARGO_MANIFEST_DIR").expect("cargo names the package's folder"));
    let folder = match env::var_os("RUNFOLD_LIB_DIR") {
        Some(named) => PathBuf::from(named),
        // Where scripts/library.sh puts it, two folders up from rust/runfold.
        None => here.ancestors().nth(2).unwrap_or(&here).join("target/lib"),
    };
    let archive = folder.join("librunfold.a");
    println!("cargo::rerun-if-changed={}", archive.display());
    // Cargo runs this program and the linker in different folders.
    if folder.is_relative() {
        println!("cargo::error=RUNFOLD_LIB_DIR has to be an absolute path, and is {}", folder.display());
    } else if !archive.is_file() {
        println!(
            "cargo::error=there is no {}: run scripts/library.sh, which proves and builds it, \
             or have RUNFOLD_LIB_DIR name the folder that has librunfold.a",
            archive.display()
        );
    }
    println!("cargo::rustc-link-search=native={}", folder.display());
    println!("cargo::rustc-link-lib=static=runfold");
}
