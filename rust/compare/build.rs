//! Where the linker finds the report's method in C, for the benchmark and the climber.

use std::env;
use std::path::PathBuf;

fn main() {
    if env::var_os("CARGO_FEATURE_BENCHMARK").is_none() {
        return;
    }
    let here = PathBuf::from(env::var_os("CARGO_MANIFEST_DIR").expect("cargo names the package's folder"));
    let figure1 = here.join("../../target/benchmark");
    println!("cargo::rerun-if-changed={}", figure1.join("libfigure1.a").display());
    println!("cargo::rustc-link-search=native={}", figure1.display());
    println!("cargo::rustc-link-lib=static=figure1");
}
