//! Where PocketHLE's files lie, as in the differential runs, and where the library is.

#[path = "../tests/compare/build.rs"]
mod pocket;

fn main() {
    pocket::main();
    println!("cargo:rerun-if-env-changed=BEONASUL_LIB");
    let folder = std::env::var("BEONASUL_LIB").unwrap_or("../target/staticlib".into());
    println!("cargo:rerun-if-changed={folder}/liblist_timed.a");
    println!("cargo:rustc-link-search=native={folder}");
    println!("cargo:rustc-link-lib=static=list_timed");
}
