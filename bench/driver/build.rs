//! Links our static libraries, which bench/run has left in BENCH_LIBS.

use std::env;

fn main() {
    let folder = env::var("BENCH_LIBS").expect("bench/run sets BENCH_LIBS");
    println!("cargo:rerun-if-env-changed=BENCH_LIBS");
    println!("cargo:rustc-link-search=native={folder}");
    for library in ["bench_calls", "bench_by_value"] {
        println!("cargo:rerun-if-changed={folder}/lib{library}.a");
        println!("cargo:rustc-link-lib=static={library}");
    }
}
