//! PocketHLE's six files, unchanged, the test copies of one of them, and a `raster` that records
//! triangles instead of drawing them.

include!(concat!(env!("OUT_DIR"), "/pocket.rs"));
include!(concat!(env!("OUT_DIR"), "/copies.rs"));

pub mod raster {
    pub use crate::raster_original::*;
    use std::cell::RefCell;

    thread_local! {
        static TRIANGLES: RefCell<Vec<[Vertex; 3]>> = const { RefCell::new(Vec::new()) };
    }

    /// Shadows the original: keeps the triangle.
    pub fn draw_triangle(
        _target: &mut RenderTarget,
        _state: &PipelineState,
        _sample: SampleFn,
        _stages: &[TextureStage],
        triangle: [Vertex; 3],
    ) {
        TRIANGLES.with(|kept| kept.borrow_mut().push(triangle));
    }

    /// The triangles handed over since the last call.
    pub fn take_triangles() -> Vec<[Vertex; 3]> {
        TRIANGLES.with(|kept| std::mem::take(&mut *kept.borrow_mut()))
    }
}
