//! Where PocketHLE's files lie, as in the differential runs.

#[path = "../../../tests/compare/build.rs"]
mod pocket;

fn main() {
    pocket::main();
}
