//! The build script of both oracles: finds the Rust source and names its files as modules.
//!
//! The folder is that of ICEORYX2_SRC, else docs/src of the project, else shared/docs/src beside the
//! project. Nothing of it is copied.

use std::env;
use std::fs;
use std::path::{Path, PathBuf};

const MODULES: [&str; 3] = [
    "unique_index_set_enums",
    "unique_index_set",
    "robust_unique_index_set",
];

fn project() -> PathBuf {
    let package =
        PathBuf::from(env::var_os("CARGO_MANIFEST_DIR").expect("cargo names the package"));
    package.join("../../..")
}

fn folders() -> Vec<PathBuf> {
    match env::var_os("ICEORYX2_SRC") {
        Some(folder) => vec![PathBuf::from(folder)],
        None => vec![
            project().join("docs/src"),
            project().join("../shared/docs/src"),
        ],
    }
}

fn module(folder: &Path, name: &str) -> PathBuf {
    folder.join("src/mpmc").join(name).with_extension("rs")
}

fn has_source(folder: &Path) -> bool {
    MODULES.iter().all(|name| module(folder, name).is_file())
}

fn main() {
    println!("cargo::rerun-if-env-changed=ICEORYX2_SRC");
    let Some(folder) = folders().into_iter().find(|folder| has_source(folder)) else {
        println!(
            "cargo::error=the source of iceoryx2-bb-lock-free 0.10.0 is not there (ICEORYX2_SRC)"
        );
        return;
    };
    let folder = folder.canonicalize().expect("a folder that was just found");
    let mut modules = String::new();
    for name in MODULES {
        let file = module(&folder, name);
        println!("cargo::rerun-if-changed={}", file.display());
        modules += &format!("#[path = {file:?}]\n#[allow(warnings)]\npub mod {name};\n");
    }
    let out = PathBuf::from(env::var_os("OUT_DIR").expect("cargo names a folder"));
    fs::write(out.join("mpmc.rs"), modules).expect("the folder of cargo's own can be written to");
}
