//! Links libdrifters_eqf_c.a from the folder that DRIFTERS_EQF_LIB_DIR names.
//!
//! Where the library is missing, or the target is another, the script only warns: `cargo doc` and `cargo check` link
//! nothing and go on. What links then ends with rustc's "could not find native static library `drifters_eqf_c`",
//! beside the warning.
use std::env;
use std::error::Error;
use std::path;

const VARIABLE: &str = "DRIFTERS_EQF_LIB_DIR";
const FILE: &str = "libdrifters_eqf_c.a";

fn main() {
    println!("cargo::rerun-if-env-changed={VARIABLE}");
    println!("cargo::rerun-if-changed=build.rs");
    println!("cargo::rustc-link-lib=static=drifters_eqf_c");
    match target().and_then(|()| folder()) {
        Ok(folder) => link_from(&folder),
        Err(problem) => println!("cargo::warning={problem}"),
    }
}

/// Whether the library is for this target; what is wrong where it is not.
fn target() -> Result<(), String> {
    let arch = env::var("CARGO_CFG_TARGET_ARCH").unwrap_or_default();
    let os = env::var("CARGO_CFG_TARGET_OS").unwrap_or_default();
    if arch == "x86_64" && os == "linux" {
        return Ok(());
    }
    Err(format!(
        "{FILE} is for x86-64 Linux only; this target is {arch} {os}: nothing can be linked for it"
    ))
}

/// The folder of the library, as a full path; what is wrong, and what to do, where there is none.
fn folder() -> Result<String, String> {
    located().map_err(|problem| {
        format!(
            "{VARIABLE}: {problem}: set it to the folder of {FILE}; \
             `tools/build drifters_eqf_c` writes that file to target/staticlib"
        )
    })
}

fn located() -> Result<String, Box<dyn Error>> {
    let folder = path::absolute(env::var(VARIABLE)?)?;
    let file = folder.join(FILE);
    // While the file is missing, this makes cargo run the script each time.
    println!("cargo::rerun-if-changed={}", file.display());
    if file.is_file() {
        Ok(folder.display().to_string())
    } else {
        Err(format!("no file {}", file.display()).into())
    }
}

/// A dependent's build script has the folder as DEP_DRIFTERS_EQF_C_LIB_DIR, for C code of its own.
fn link_from(folder: &str) {
    println!("cargo::rustc-link-search=native={folder}");
    println!("cargo::metadata=LIB_DIR={folder}");
}
