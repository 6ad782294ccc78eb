//! Finds the library: in the folder that BEONASUL_LIB names, in the repository, or where `./install` puts it.

use std::env;
use std::path::{Path, PathBuf};
use std::process::exit;

/// In the repository it is libstation.a, installed libbeonasul.a.
const NAMES: [&str; 2] = ["station", "beonasul"];

fn folders() -> Vec<PathBuf> {
    if let Some(folder) = env::var_os("BEONASUL_LIB") {
        return vec![folder.into()];
    }
    let here = PathBuf::from(env::var_os("CARGO_MANIFEST_DIR").unwrap());
    vec![here.join("../../target/staticlib"), here.join("../../../lib")]
}

fn file(folder: &Path, name: &str) -> PathBuf {
    folder.join(format!("lib{name}.a"))
}

fn main() {
    println!("cargo:rerun-if-env-changed=BEONASUL_LIB");
    let folders = folders();
    let places = folders.iter().flat_map(|folder| NAMES.map(|name| (folder, name)));
    let Some((folder, name)) = places.into_iter().find(|(f, n)| file(f, n).is_file()) else {
        eprintln!(
            "libstation.a is in none of {folders:?}: make it by `station/library` in the \
             repository, or name its folder in BEONASUL_LIB"
        );
        exit(1);
    };
    let folder = folder.canonicalize().expect("the folder is there");
    println!("cargo:rerun-if-changed={}", file(&folder, name).display());
    println!("cargo:rustc-link-search=native={}", folder.display());
    println!("cargo:rustc-link-lib=static={name}");
}
