//! PocketHLE's six files, unchanged, and a `raster` that keeps triangles in a buffer made before.

// The macros of crate `log`, which the files name, are those of the differential runs: this crate goes by that name too, and depends on none.
extern crate self as log;
#[path = "../tests/compare/log/src/lib.rs"]
mod quiet;
pub use quiet::Level;

include!(concat!(env!("OUT_DIR"), "/pocket.rs"));

pub mod raster {
    pub use crate::raster_original::*;
    use std::cell::{Cell, RefCell};

    thread_local! {
        static NEXT: Cell<*mut [Vertex; 3]> = const { Cell::new(std::ptr::null_mut()) };
        static END: Cell<*mut [Vertex; 3]> = const { Cell::new(std::ptr::null_mut()) };
        static KEPT: RefCell<Vec<[Vertex; 3]>> = const { RefCell::new(Vec::new()) };
    }

    /// Shadows the original: keeps the triangle.
    #[inline]
    pub fn draw_triangle(
        _target: &mut RenderTarget,
        _state: &PipelineState,
        _sample: SampleFn,
        _stages: &[TextureStage],
        triangle: [Vertex; 3],
    ) {
        let next = NEXT.get();
        assert!(next < END.get(), "more triangles than the buffer holds");
        // The buffer is not touched otherwise between `keep` and `kept`.
        unsafe {
            next.write(triangle);
            NEXT.set(next.add(1));
        }
    }

    /// Makes room for so many triangles.
    pub fn keep(count: usize) {
        KEPT.with_borrow_mut(|kept| {
            *kept = vec![[Vertex::default(); 3]; count];
            let all = kept.as_mut_ptr_range();
            NEXT.set(all.start);
            END.set(all.end);
        });
    }

    /// Starts again at the front of the buffer.
    #[inline]
    pub fn rewind() {
        KEPT.with_borrow_mut(|kept| NEXT.set(kept.as_mut_ptr()));
    }

    /// The triangles since the last rewind.
    pub fn kept() -> Vec<[Vertex; 3]> {
        KEPT.with_borrow_mut(|kept| {
            let from = kept.as_mut_ptr();
            let count = unsafe { NEXT.get().offset_from(from) } as usize;
            kept[..count].to_vec()
        })
    }
}
