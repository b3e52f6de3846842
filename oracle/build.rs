//! Reads the user's Rust from its folder beside the repository and lays it out for the compiler in OUT_DIR: nothing of
//! it is kept in the repository. `contact_constraint_element.rs` is compiled where it stands; `utils/mod.rs` is copied
//! unchanged beside our stand-ins for the modules that it declares; of the driver the struct and its `warmstart` and
//! `solve` are cut out. Then `oracle_files.rs` names them by path, and the library includes it.

use std::path::{Path, PathBuf};
use std::{env, fs};

/// Modules of utils/mod.rs whose trait nothing here uses: it is only declared.
const UNUSED: [(&str, &str); 7] = [
    ("copysign", "CopySign"),
    ("cross_product_matrix", "CrossProductMatrix"),
    ("index_mut2", "IndexMut2"),
    ("matrix_column", "MatrixColumn"),
    ("pos_ops", "PoseOps"),
    ("rotation_ops", "RotationOps"),
    ("simd_select", "SimdSelect"),
];

const SOLVER: &str = "src/dynamics/solver/contact_constraint";

fn main() {
    let here = PathBuf::from(env::var("CARGO_MANIFEST_DIR").unwrap());
    let out = PathBuf::from(env::var("OUT_DIR").unwrap());
    println!("cargo::rerun-if-env-changed=ROMALUDIV_RUST");
    let rust = match env::var("ROMALUDIV_RUST") {
        Ok(path) => PathBuf::from(path),
        Err(_) => here.join("../../shared/docs/src"),
    };
    let element = found(&rust.join(SOLVER).join("contact_constraint_element.rs"));
    let utils = found(&rust.join("src/utils/mod.rs"));
    let friction = found(&rust.join(SOLVER).join("contact_with_coulomb_friction.rs"));

    lay_out_utils(&here.join("stand-ins/utils"), &utils, &out.join("utils"));
    write(&out.join("driver.rs"), &driver(&read(&friction)));
    write(&out.join("oracle_files.rs"), &names(&element, &out.join("driver.rs")));
    write(&out.join("utils_file.rs"), &module("pub", "utils", &out.join("utils/mod.rs")));
}

/// utils/mod.rs as it is, and beside it a file for each module that it declares.
fn lay_out_utils(stand_ins: &Path, utils: &Path, to: &Path) {
    fs::create_dir_all(to).unwrap();
    println!("cargo::rerun-if-changed={}", stand_ins.display());
    for file in fs::read_dir(stand_ins).unwrap() {
        let file = file.unwrap().path();
        println!("cargo::rerun-if-changed={}", file.display());
        write(&to.join(file.file_name().unwrap()), &read(&file));
    }
    for (name, name_of_trait) in UNUSED {
        let text = format!("#[allow(dead_code)]\npub trait {name_of_trait} {{}}\n");
        write(&to.join(format!("{name}.rs")), &text);
    }
    write(&to.join("mod.rs"), &read(utils));
}

/// The driver's struct, `warmstart` and `solve`: from the struct and what stands right above it up to the function that
/// follows `solve`. The impl that is cut through there is closed again.
fn driver(text: &str) -> String {
    let of_struct = place(text, "struct ContactWithCoulombFriction<");
    let from = text[..of_struct].rfind("\n\n").map_or(0, |at| at + 2);
    let after = of_struct + place(&text[of_struct..], "fn writeback_impulses(");
    let upto = text[..after].rfind('\n').map_or(after, |at| at + 1);
    format!("use crate::driver_needs::*;\n\n{}}}\n", &text[from..upto])
}

fn place(text: &str, marker: &str) -> usize {
    let missing = || panic!("contact_with_coulomb_friction.rs lacks '{marker}', by which the driver is cut out of it");
    text.find(marker).unwrap_or_else(missing)
}

fn names(element: &Path, driver: &Path) -> String {
    module("pub(crate)", "contact_constraint_element", element)
        + &module("pub(crate)", "contact_with_coulomb_friction", driver)
}

fn module(visibility: &str, name: &str, path: &Path) -> String {
    format!("#[path = {path:?}]\n{visibility} mod {name};\n")
}

fn found(path: &Path) -> PathBuf {
    println!("cargo::rerun-if-changed={}", path.display());
    path.canonicalize().unwrap_or_else(|_| {
        panic!("the user's Rust is not there: {} (ROMALUDIV_RUST may name the folder that has it)", path.display())
    })
}

fn read(path: &Path) -> String {
    fs::read_to_string(path).unwrap_or_else(|error| panic!("{}: {error}", path.display()))
}

/// Only where it is new or changed, so that nothing is compiled again without cause.
fn write(path: &Path, text: &str) {
    if fs::read_to_string(path).is_ok_and(|old| old == text) {
        return;
    }
    fs::write(path, text).unwrap_or_else(|error| panic!("{}: {error}", path.display()));
}
