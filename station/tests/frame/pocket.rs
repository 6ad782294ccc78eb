//! PocketHLE's six files, unchanged. Its own rasteriser draws here.

// The macros of crate `log`, which the files name, are those of the differential runs.
extern crate self as log;
#[path = "../../../tests/compare/log/src/lib.rs"]
mod quiet;
pub use quiet::Level;

include!(concat!(env!("OUT_DIR"), "/pocket.rs"));

pub use raster_original as raster;
