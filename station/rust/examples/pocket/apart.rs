//! Draws on memory with holes. A view of the library is one piece, so each vertex is made alone:
//! its elements are gathered, the pointers are set to them, and it is drawn as index 0. The
//! pointers are put back at the end.

use super::gather::{element, Indices};
use super::{enabled_arrays, Front, GuestMemory, Kind, Sink, Source};
use beonasul::state::ArrayPointer;
use beonasul::{Guest, Triangle, Vertex};
use std::collections::HashMap;

const ARRAY_BUFFER: u32 = 0x8892;
const TRIANGLES: u32 = 4;
const TRIANGLE_STRIP: u32 = 5;
/// The address of a vertex's gathered bytes.
const BASE: u32 = 4096;
/// An address where nothing is, in a view and in every buffer.
const NOWHERE: u32 = u32::MAX;

/// Holds while pointers are changed only as here: no such call is refused.
const ACCEPTED: &str = "bind of a living name, a unit or a pointer is accepted";

impl Front {
    /// As `draw`, for any memory.
    pub(super) fn draw_apart(
        &mut self,
        mem: &mut dyn GuestMemory,
        mode: u32,
        stages: u32,
        source: Source,
        indices: &Indices,
        triangle: Sink,
    ) {
        let Some(vertices) = self.vertices(mem, stages, indices) else {
            // Without guest memory the draw says why.
            return self.draw(Guest::none(), mode, stages, source, triangle);
        };
        // All positions are there: the mode is what is left to ask.
        self.draw(Guest::none(), mode, stages, Source::List(&[]), triangle);
        if self.number == 0 {
            let made = |corners: [usize; 3]| Triangle { vertices: corners.map(|i| vertices[i]) };
            corners(mode, vertices.len()).for_each(|c| triangle(&made(c)));
        }
    }

    /// The vertex of each index, unless a position cannot be fetched.
    fn vertices(
        &mut self,
        mem: &mut dyn GuestMemory,
        stages: u32,
        indices: &Indices,
    ) -> Option<Vec<Vertex>> {
        let state = self.context.state();
        let arrays = enabled_arrays(state, stages);
        let (bound, unit) = (state.buffers.array_buffer, state.arrays.client_active_texture);
        let mut made: HashMap<u32, Option<Vertex>> = HashMap::new();
        let mut vertex = |i| *made.entry(i).or_insert_with(|| self.vertex(mem, stages, &arrays, i));
        let all = indices.iter().map(&mut vertex).collect();
        for (kind, array) in &arrays {
            self.set_pointer(*kind, array);
        }
        self.context.set_client_active_texture(unit).expect(ACCEPTED);
        self.context.bind_buffer(ARRAY_BUFFER, bound).expect(ACCEPTED);
        all
    }

    /// One vertex, unless its position cannot be fetched.
    fn vertex(
        &mut self,
        mem: &mut dyn GuestMemory,
        stages: u32,
        arrays: &[(Kind, ArrayPointer)],
        index: u32,
    ) -> Option<Vertex> {
        let (mut bytes, mut read) = (Vec::new(), Vec::new());
        for (kind, array) in arrays {
            let mut place = element(array, index);
            if array.buffer == 0 {
                place = place.filter(|&(address, len)| mem.read(address, len as usize, &mut read));
                place = place.map(|(_, len)| {
                    let at = BASE + bytes.len() as u32;
                    bytes.extend_from_slice(&read[..len as usize]);
                    (at, len)
                });
            }
            let pointer = place.map_or(NOWHERE, |(at, _)| at);
            self.set_pointer(*kind, &ArrayPointer { pointer, ..*array });
        }
        let guest = Guest { base: BASE, bytes: &bytes };
        let drawn =
            self.context.draw_elements(&mut self.store, guest, TRIANGLES, stages, &[0, 0, 0]);
        drawn.ok()?.next().map(|triangle| triangle.vertices[0])
    }

    /// Gives the array all fields but `enabled`. An array whose buffer is deleted stays: no element
    /// of it can be fetched, and to bind the name would make it anew.
    fn set_pointer(&mut self, kind: Kind, array: &ArrayPointer) {
        let ArrayPointer { size, ty, stride, pointer, buffer, .. } = *array;
        let slots = &self.context.state().buffers.slots;
        if buffer != 0 && !slots.iter().any(|slot| slot.name == buffer) {
            return;
        }
        let context = &mut self.context;
        context.bind_buffer(ARRAY_BUFFER, buffer).expect(ACCEPTED);
        let done = match kind {
            Kind::Vertex => context.set_vertex_pointer(size, ty, stride, pointer),
            Kind::Color => context.set_color_pointer(size, ty, stride, pointer),
            Kind::Texcoord(unit) => {
                context.set_client_active_texture(unit).expect(ACCEPTED);
                context.set_texcoord_pointer(size, ty, stride, pointer)
            }
        };
        done.expect(ACCEPTED);
    }
}

/// The corners of the triangles of so many vertices.
fn corners(mode: u32, count: usize) -> Box<dyn Iterator<Item = [usize; 3]>> {
    match mode {
        TRIANGLES => Box::new((0..count / 3).map(|i| [3 * i, 3 * i + 1, 3 * i + 2])),
        TRIANGLE_STRIP => Box::new((2..count).map(|i| match i % 2 {
            0 => [i - 2, i - 1, i],
            _ => [i - 1, i - 2, i],
        })),
        _ => Box::new((2..count).map(|i| [0, i - 1, i])),
    }
}
