// Links the proved archives. CODING_LIB, RECORDINGS_LIB, PARTIES_LIB and TITLE_LIB name another folder with an archive of that name, to
// measure a trial.
use std::env;
use std::fs;
use std::path::{Path, PathBuf};

fn link(variable: &str, archive: &str, out: &Path) {
    println!("cargo:rerun-if-env-changed={variable}");
    let folder = match env::var(variable) {
        Ok(given) => PathBuf::from(given),
        Err(_) => {
            let crates = PathBuf::from(env::var("CARGO_MANIFEST_DIR").unwrap()).join("../crates");
            crates.join(archive).join("out")
        }
    };
    let name = format!("lib{archive}.a");
    let from = folder.join(&name);
    println!("cargo:rerun-if-changed={}", from.display());
    // One folder is searched: in several the linker could find another archive of that name first.
    if let Err(error) = fs::copy(&from, out.join(&name)) {
        panic!("{}: {error}; bench/run builds it", from.display());
    }
    println!("cargo:rustc-link-lib=static={archive}");
}

fn main() {
    // Without an archive nothing but this file decides.
    println!("cargo:rerun-if-changed=build.rs");
    if env::var_os("CARGO_FEATURE_ARCHIVES").is_some() {
        let out = PathBuf::from(env::var("OUT_DIR").unwrap());
        link("CODING_LIB", "coding_export", &out);
        link("RECORDINGS_LIB", "recordings_export", &out);
        link("PARTIES_LIB", "parties_export", &out);
        link("TITLE_LIB", "title_export", &out);
        println!("cargo:rustc-link-search=native={}", out.display());
    }
}
