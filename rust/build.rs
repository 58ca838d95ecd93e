//! With the feature `archive`: links libsteamacorn.a from the directory that STEAMACORN_LIB names.
use std::env;

fn main() {
    println!("cargo:rerun-if-changed=build.rs");
    println!("cargo:rerun-if-env-changed=STEAMACORN_LIB");
    if env::var_os("CARGO_FEATURE_ARCHIVE").is_none() {
        return;
    }
    let directory = env::var("STEAMACORN_LIB").expect("STEAMACORN_LIB names the directory of libsteamacorn.a");
    println!("cargo:rerun-if-changed={}/libsteamacorn.a", directory);
    println!("cargo:rustc-link-search=native={}", directory);
    println!("cargo:rustc-link-lib=static=steamacorn");
}
