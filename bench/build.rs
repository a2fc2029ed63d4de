//! Links the static libraries of our calls and of the cuts, which the script `bench/run` has built. `CAPI` names
//! the folder that holds them.

use std::env;

fn main() {
    let folder = env::var("CAPI").expect("CAPI: the folder of the libraries, set by bench/run");
    println!("cargo:rerun-if-env-changed=CAPI");
    println!("cargo:rustc-link-search=native={folder}");
    for library in ["capi_c", "cut_calls_c"] {
        println!("cargo:rerun-if-changed={folder}/lib{library}.a");
        println!("cargo:rustc-link-lib=static={library}");
    }
}
