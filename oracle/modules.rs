//! Names the original's files of a package as modules: DRIFTERS is the folder of hewers/drifters. They are unedited but for one expression of
//! filter.rs, and filter.rs unedited is `unedited::filter`.
use std::path::{Path, PathBuf};
use std::{env, fs};

/// In `process_noise`: the linear part of the lift as a difference of two lifts, of which one takes the unit input `n`.
const SUBTRACTED: &str = "Algebra::from_array(&sub(
                &lift(estimate, &n, self.gravity).to_array(),
                &quiet.to_array(),
            ))";

/// The same formed directly: the lines of `lift` with `n.omega` for the rate, and no part along `rho`.
const DIRECT: &str = "Algebra {
                c: crate::lie::Se23Tangent::new(n.omega, n.accel, Vec3::ZERO),
                gamma: estimate.bias.bracket(Se3Tangent { omega: n.omega, nu: n.accel }),
                delta: estimate.lever.cross(n.omega),
                e: estimate.mag.transpose() * n.omega,
            }";

/// The text of filter.rs with the one edit.
fn edited(filter: &str) -> String {
    let found = filter.matches(SUBTRACTED).count();
    assert_eq!(found, 1, "filter.rs has the two lifts that are subtracted {found} times, not once");
    filter.replace(SUBTRACTED, DIRECT)
}

fn main() {
    println!("cargo:rerun-if-env-changed=DRIFTERS");
    let root = env::var("DRIFTERS").expect("DRIFTERS: the folder of hewers/drifters at cd473baa36");
    let package = env::var("CARGO_PKG_NAME").unwrap();
    let (folder, modules, to_edit): (&str, &[&str], Option<&str>) = match package.as_str() {
        "drifters-core" => ("src/math", &["real", "vec3", "matrix", "quat"], None),
        _ => ("src", &["lie", "group", "lift", "linear", "gcu"], Some("filter")),
    };
    let folder = Path::new(&root).join("crates").join(package).join(folder);
    let out = PathBuf::from(env::var("OUT_DIR").unwrap());
    let mut text = String::new();
    for module in modules {
        text += &module_at(module, &original(&folder, module));
    }
    if let Some(module) = to_edit {
        let (file, copy) = (original(&folder, module), out.join(module).with_extension("rs"));
        fs::write(&copy, edited(&fs::read_to_string(&file).unwrap())).unwrap();
        // The edit leaves the quiet lift and the subtraction of arrays without use.
        text += "#[allow(unused_variables, dead_code)]\n";
        text += &module_at(module, &copy);
        text += &format!("pub mod unedited {{\n{}}}\n", module_at(module, &file));
    }
    fs::write(out.join("modules.rs"), text).unwrap();
}

/// The original's file of a module.
fn original(folder: &Path, module: &str) -> PathBuf {
    let file = folder.join(module).with_extension("rs");
    println!("cargo:rerun-if-changed={}", file.display());
    file
}

/// The declaration of a module in a file.
fn module_at(module: &str, file: &Path) -> String {
    format!("#[path = {file:?}]\npub mod {module};\n")
}
