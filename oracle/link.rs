//! Links a static library of the port: DRIFTERS_EQF_LIB_DIR is the folder that has it. The package `port` links the calls, another the leaves.
use std::env;

fn main() {
    let library = match env::var("CARGO_PKG_NAME").as_deref() {
        Ok("port") => "drifters_eqf_c",
        _ => "drifters_leaves_c",
    };
    println!("cargo:rerun-if-env-changed=DRIFTERS_EQF_LIB_DIR");
    let folder = env::var("DRIFTERS_EQF_LIB_DIR").expect("DRIFTERS_EQF_LIB_DIR: the folder of the port's static libraries");
    println!("cargo:rerun-if-changed={folder}/lib{library}.a");
    println!("cargo:rustc-link-search=native={folder}");
    println!("cargo:rustc-link-lib=static={library}");
}
