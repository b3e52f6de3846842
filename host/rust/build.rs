//! Links libromaludiv.a. It is looked for in the folder that ROMALUDIV_LIB names, or else in the repository's
//! target/host, where `host/library` puts it; if it is not there yet, that script is run. An archive that is there is
//! taken as it is: after a change of the proved crates, run `host/library` again.
use std::env;
use std::path::{Path, PathBuf};
use std::process::Command;

const ARCHIVE: &str = "libromaludiv.a";

/// The repository's own folder of the archive, which is made if it is missing.
fn own_folder() -> PathBuf {
    let package = env::var("CARGO_MANIFEST_DIR").expect("cargo names the package's folder");
    let root = Path::new(&package).join("../..");
    let folder = root.join("target/host");
    if !folder.join(ARCHIVE).exists() {
        let ended = Command::new(root.join("host/library")).status();
        let made = ended.is_ok_and(|status| status.success());
        assert!(
            made,
            "{ARCHIVE} is missing, and host/library did not make it"
        );
    }
    folder
}

fn main() {
    let folder = env::var_os("ROMALUDIV_LIB").map_or_else(own_folder, PathBuf::from);
    let archive = folder.join(ARCHIVE);
    assert!(archive.exists(), "there is no {}", archive.display());
    println!("cargo:rerun-if-env-changed=ROMALUDIV_LIB");
    println!("cargo:rerun-if-changed={}", archive.display());
    println!("cargo:rustc-link-search=native={}", folder.display());
    println!("cargo:rustc-link-lib=static=romaludiv");
}
