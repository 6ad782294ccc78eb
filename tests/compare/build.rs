//! Writes the module lines that build PocketHLE's files where they lie, and the test copies of one.

mod copies;

use std::path::PathBuf;
use std::{env, fs};

const FILES: [(&str, &str); 6] = [
    ("consts", "consts"),
    ("fixed", "fixed"),
    ("matrix", "matrix"),
    ("texture", "texture"),
    ("raster_original", "raster"),
    ("context", "context"),
];

/// The test copies of `context.rs`, in the order of the requests (README.md). There is none yet.
const COPIES: &[copies::TestCopy] = &[];

pub fn main() {
    println!("cargo:rerun-if-env-changed=POCKET_GLES_SRC");
    let root = env::var("POCKET_GLES_SRC").unwrap_or("../../../shared/docs/src".into());
    let here = PathBuf::from(env::var("CARGO_MANIFEST_DIR").unwrap());
    let folder = here.join(root).join("crates/pocket-gles/src");
    let out = PathBuf::from(env::var("OUT_DIR").unwrap());
    let mut glue = String::new();
    for (module, file) in FILES {
        let path = folder.join(file).with_extension("rs");
        if !path.is_file() {
            panic!("no {}: set POCKET_GLES_SRC", path.display());
        }
        println!("cargo:rerun-if-changed={}", path.display());
        glue += &format!("#[path = {path:?}]\npub mod {module};\n");
    }
    fs::write(out.join("pocket.rs"), glue).unwrap();

    let context = fs::read_to_string(folder.join("context.rs")).unwrap();
    let made = copies::chain(&context, COPIES).unwrap_or_else(|why| panic!("context.rs, {why}"));
    let mut glue = String::new();
    for (name, text) in made {
        let path = out.join(name).with_extension("rs");
        fs::write(&path, text).unwrap();
        glue += &format!("#[path = {path:?}]\npub mod {name};\n");
    }
    fs::write(out.join("copies.rs"), glue).unwrap();
}
