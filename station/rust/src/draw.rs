//! The draws, and the triangles that they give.

use crate::calls::{append_draw, Drawn, Indices, Part};
use crate::context::Context;
use crate::recorder::Made;
use crate::store::Store;
use crate::{Error, Result};
use std::iter::FusedIterator;
use std::slice;

/// The f32 of a triangle.
pub const TRIANGLE_FLOATS: usize = 51;

/// The guest memory that a draw may read: the bytes from address `base` on.
#[derive(Clone, Copy, Debug)]
pub struct Guest<'a> {
    /// The address of the first byte.
    pub base: u32,
    /// The bytes, as they lie there.
    pub bytes: &'a [u8],
}

impl Guest<'_> {
    /// No guest memory.
    pub const fn none() -> Self {
        Guest { base: 0, bytes: &[] }
    }
}

/// A corner of a triangle: 17 f32.
#[repr(C)]
#[derive(Clone, Copy, Debug, Default, PartialEq)]
pub struct Vertex {
    /// The position in clip space: x, y, z, w.
    pub position: [f32; 4],
    /// Red, green, blue, alpha.
    pub color: [f32; 4],
    /// A pair s, t for each texture unit.
    pub texcoord: [[f32; 2]; 4],
    /// The depth for fog.
    pub fog_depth: f32,
}

/// A triangle: 51 f32.
#[repr(C)]
#[derive(Clone, Copy, Debug, Default, PartialEq)]
pub struct Triangle {
    /// The three corners.
    pub vertices: [Vertex; 3],
}

impl Triangle {
    /// The triangles of an output that a draw has filled; what is left of 51 f32 is left out.
    pub fn slice_of(out: &[f32]) -> &[Triangle] {
        // SAFETY: a Triangle is 51 f32 side by side, any of which may have any bits.
        unsafe { slice::from_raw_parts(out.as_ptr().cast(), out.len() / TRIANGLE_FLOATS) }
    }
}

fn floats(triangles: &[Triangle]) -> &[f32] {
    // SAFETY: as in `slice_of`.
    unsafe { slice::from_raw_parts(triangles.as_ptr().cast(), triangles.len() * TRIANGLE_FLOATS) }
}

fn floats_mut(triangles: &mut [Triangle]) -> &mut [f32] {
    let len = triangles.len() * TRIANGLE_FLOATS;
    // SAFETY: as in `slice_of`; the triangles are borrowed alone.
    unsafe { slice::from_raw_parts_mut(triangles.as_mut_ptr().cast(), len) }
}

/// The triangles of a draw, one after the other.
#[derive(Clone, Debug)]
pub struct Triangles<'a> {
    rest: slice::Iter<'a, Triangle>,
}

impl<'a> Triangles<'a> {
    /// Those that were not taken yet.
    pub fn as_slice(&self) -> &'a [Triangle] {
        self.rest.as_slice()
    }

    /// The same as f32, 51 for each.
    pub fn as_floats(&self) -> &'a [f32] {
        floats(self.as_slice())
    }
}

impl<'a> Iterator for Triangles<'a> {
    type Item = &'a Triangle;

    fn next(&mut self) -> Option<&'a Triangle> {
        self.rest.next()
    }

    fn size_hint(&self) -> (usize, Option<usize>) {
        self.rest.size_hint()
    }
}

impl ExactSizeIterator for Triangles<'_> {}

impl FusedIterator for Triangles<'_> {}

/// How many triangles so many indices give in this mode.
fn triangle_count(mode: u32, indices: usize) -> usize {
    match mode {
        4 => indices / 3,
        5 | 6 => indices.saturating_sub(2),
        _ => 0,
    }
}

/// Makes room for so many triangles. False where there is no memory for them.
fn grow(out: &mut Vec<Triangle>, count: usize) -> bool {
    let more = count.saturating_sub(out.len());
    let room = out.try_reserve(more).is_ok();
    if room {
        out.resize(count, Triangle::default());
    }
    room
}

impl Context {
    /// `glDrawElements` with lent indices.
    ///
    /// `mode` is 4 (triangles), 5 (strip) or 6 (fan). Bit i of `stages` says that texture unit i
    /// is in use, i from 0 to 3.
    pub fn draw_elements(
        &mut self,
        store: &mut Store,
        guest: Guest,
        mode: u32,
        stages: u32,
        indices: &[u32],
    ) -> Result<Triangles<'_>> {
        self.draw(store, guest, mode, stages, Indices::Lent(indices))
    }

    /// `glDrawArrays`: the indices from `first` on.
    pub fn draw_arrays(
        &mut self,
        store: &mut Store,
        guest: Guest,
        mode: u32,
        stages: u32,
        first: u32,
        count: u32,
    ) -> Result<Triangles<'_>> {
        self.draw(store, guest, mode, stages, Indices::Range { first, count })
    }

    /// `glDrawElements` with indices of a type (0x1401 or 0x1403) from the element buffer or, if
    /// none is bound, from guest memory.
    #[allow(clippy::too_many_arguments)]
    pub fn draw_elements_from_guest(
        &mut self,
        store: &mut Store,
        guest: Guest,
        mode: u32,
        stages: u32,
        count: u32,
        ty: u32,
        pointer: u32,
    ) -> Result<Triangles<'_>> {
        self.draw(store, guest, mode, stages, Indices::Stored { count, ty, pointer })
    }

    /// As [`draw_elements`](Context::draw_elements); fills `out` and gives the number of triangles.
    pub fn draw_elements_into(
        &mut self,
        store: &mut Store,
        guest: Guest,
        mode: u32,
        stages: u32,
        indices: &[u32],
        out: &mut [f32],
    ) -> Result<usize> {
        self.draw_into(store, guest, mode, stages, Indices::Lent(indices), out)
    }

    /// As [`draw_arrays`](Context::draw_arrays); fills `out` and gives the number of triangles.
    #[allow(clippy::too_many_arguments)]
    pub fn draw_arrays_into(
        &mut self,
        store: &mut Store,
        guest: Guest,
        mode: u32,
        stages: u32,
        first: u32,
        count: u32,
        out: &mut [f32],
    ) -> Result<usize> {
        self.draw_into(store, guest, mode, stages, Indices::Range { first, count }, out)
    }

    /// As [`draw_elements_from_guest`](Context::draw_elements_from_guest); fills `out` and gives
    /// the number of triangles.
    #[allow(clippy::too_many_arguments)]
    pub fn draw_elements_from_guest_into(
        &mut self,
        store: &mut Store,
        guest: Guest,
        mode: u32,
        stages: u32,
        count: u32,
        ty: u32,
        pointer: u32,
        out: &mut [f32],
    ) -> Result<usize> {
        self.draw_into(store, guest, mode, stages, Indices::Stored { count, ty, pointer }, out)
    }

    fn put_draw(&mut self, guest: Guest, mode: u32, stages: u32, indices: Indices) {
        let part = Part { place: 0, len: guest.bytes.len() };
        self.words.clear();
        append_draw(
            &mut self.words,
            Drawn { mode, stages, base: guest.base, guest: part },
            indices,
        );
    }

    fn draw(
        &mut self,
        store: &mut Store,
        guest: Guest,
        mode: u32,
        stages: u32,
        indices: Indices,
    ) -> Result<Triangles<'_>> {
        self.put_draw(guest, mode, stages, indices);
        let need = triangle_count(mode, indices.count());
        self.tell_draw(store, guest, need.saturating_mul(TRIANGLE_FLOATS));
        let mut answer = self.draw_once(store, guest);
        if answer == Err(Error::OutputTooShort) && grow(&mut self.out, need) {
            answer = self.draw_once(store, guest);
        }
        let count = answer?;
        Ok(Triangles { rest: self.out[..count].iter() })
    }

    /// Tells the recorder of the draw that was put together.
    fn tell_draw(&mut self, store: &Store, guest: Guest, room: usize) {
        let (bytes, stamp) = (guest.bytes, Some(store.stamp()));
        self.caller.tell(Made { bytes, stamp, room, ..Made::new(&self.words) });
    }

    /// Makes the draw that was put together, with the output that there is.
    fn draw_once(&mut self, store: &mut Store, guest: Guest) -> Result<usize> {
        let out = floats_mut(&mut self.out);
        self.caller.draw(&self.words, store, guest.bytes, out).result()
    }

    fn draw_into(
        &mut self,
        store: &mut Store,
        guest: Guest,
        mode: u32,
        stages: u32,
        indices: Indices,
        out: &mut [f32],
    ) -> Result<usize> {
        self.put_draw(guest, mode, stages, indices);
        self.tell_draw(store, guest, out.len());
        self.caller.draw(&self.words, store, guest.bytes, out).result()
    }
}
