//! Links the library that `run` has built, and the C functions of the kit that it depends on.

use std::env;

fn main() {
    for name in ["YASNA_BENCH_LIBRARY", "YASNA_KIT_LIBRARY"] {
        println!("cargo:rerun-if-env-changed={name}");
        let path = env::var(name).unwrap_or_else(|_| panic!("{name} is not set: call bench/run"));
        println!("cargo:rerun-if-changed={path}");
        println!("cargo:rustc-link-arg={path}");
    }
}
