//! Links the baseline in C, libbaseline.a, from the directory that STEAMACORN_BASELINE names.
use std::env;

fn main() {
    println!("cargo:rerun-if-changed=build.rs");
    println!("cargo:rerun-if-env-changed=STEAMACORN_BASELINE");
    let directory = env::var("STEAMACORN_BASELINE").expect("STEAMACORN_BASELINE names the directory of libbaseline.a");
    println!("cargo:rerun-if-changed={}/libbaseline.a", directory);
    println!("cargo:rustc-link-search=native={}", directory);
    println!("cargo:rustc-link-lib=static=baseline");
}
