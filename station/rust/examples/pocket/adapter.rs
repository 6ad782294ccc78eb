//! PocketHLE's calls over the proved front end.
//!
//! [`Context`] has the methods of PocketHLE's `Context` that the scope document (01) names, with
//! the same arguments in the same order. They give nothing back: a code from 0x0500 on goes to the
//! error slot, which [`Context::take_error`] empties, and [`Context::number`] tells what the last
//! call answered. What the viewer has besides stays where it is: textures, the rasteriser and its
//! target, viewport and scissor box. Three things differ:
//!
//! - The current colour is set by [`Context::set_color`].
//! - Which texture units a draw samples is the viewer's knowledge: it sets [`Context::stages`].
//! - A draw hands its triangles to a closure, in their order, instead of `raster::draw_triangle`.
//!   What the rasteriser needs of the settings is in [`Context::state`].
//!
//! The front end has 16 buffers of at most 4,096 bytes. A call that asks for more is refused with
//! number 4, 5 or 6 and changes nothing; these numbers do not enter the error slot.
//!
//! Guest memory comes through [`GuestMemory`], as there. A draw asks it for other ranges than
//! PocketHLE does, and in another order. What is drawn is the same, as long as each part of a range
//! that can be read can be read too.

mod apart;
mod gather;

use beonasul::state::{ArrayPointer, State};
use beonasul::{Guest, Store, Triangle};
use gather::{Gather, Gathered, Indices};

const UNSIGNED_BYTE: u32 = 0x1401;
const UNSIGNED_SHORT: u32 = 0x1403;
/// The bytes that each buffer has in the store.
const SLOT_BYTES: usize = 4096;

/// Read access to the guest's address space.
pub trait GuestMemory {
    /// Puts the `len` bytes from address `addr` on into `out`, from its start on. False if any of
    /// them cannot be read.
    fn read(&mut self, addr: u32, len: usize, out: &mut Vec<u8>) -> bool;

    /// All that can be read, where it lies in one piece. It is then lent to a draw as it lies
    /// there, and `read` is not asked.
    fn view(&self) -> Option<Guest<'_>> {
        None
    }
}

/// PocketHLE's context, as far as 01 goes.
pub struct Context {
    front: Front,
    gather: Gather,
    /// The texture units that the next draws sample: bit u for unit u.
    pub stages: u32,
}

/// The front end's context with its store, and the number of the last call.
struct Front {
    context: beonasul::Context,
    store: Store,
    number: u32,
}

/// Where a draw's indices come from.
#[derive(Clone, Copy)]
enum Source<'a> {
    List(&'a [u32]),
    Range { first: u32, count: u32 },
    Stored(Stored),
}

/// Indices in the element buffer or in guest memory.
#[derive(Clone, Copy)]
struct Stored {
    count: u32,
    ty: u32,
    pointer: u32,
}

/// Which array of a context.
#[derive(Clone, Copy, PartialEq)]
enum Kind {
    Vertex,
    Color,
    Texcoord(u32),
}

/// Where the triangles go.
type Sink<'a> = &'a mut dyn FnMut(&Triangle);

/// The calls that pass their arguments on as they are.
macro_rules! calls {
    ($($name:ident($($argument:ident: $type:ty),*);)*) => {
        impl Context {
            $(
                pub fn $name(&mut self, $($argument: $type),*) {
                    let done = self.front.context.$name($($argument),*);
                    self.front.note(done);
                }
            )*
        }
    };
}

calls! {
    set_matrix_mode(mode: u32);
    load_identity();
    load_matrix(m: [f32; 16]);
    mult_matrix(m: [f32; 16]);
    push_matrix();
    pop_matrix();
    translate(x: f32, y: f32, z: f32);
    scale(x: f32, y: f32, z: f32);
    rotate(angle: f32, x: f32, y: f32, z: f32);
    frustum(l: f32, r: f32, b: f32, t: f32, n: f32, f: f32);
    ortho(l: f32, r: f32, b: f32, t: f32, n: f32, f: f32);
    set_capability(cap: u32, on: bool);
    set_client_state(array: u32, on: bool);
    bind_buffer(target: u32, name: u32);
    delete_buffers(names: &[u32]);
    set_active_texture(unit: u32);
    set_client_active_texture(unit: u32);
    set_vertex_pointer(size: u32, ty: u32, stride: u32, pointer: u32);
    set_color_pointer(size: u32, ty: u32, stride: u32, pointer: u32);
    set_normal_pointer(ty: u32, stride: u32, pointer: u32);
    set_texcoord_pointer(size: u32, ty: u32, stride: u32, pointer: u32);
    set_color(color: [f32; 4]);
    set_multi_texcoord(unit: u32, s: f32, t: f32);
    tex_env(pname: u32, value: u32);
    set_tex_env_color(color: [f32; 4]);
    set_depth_func(func: u32);
    set_alpha_func(func: u32, reference: f32);
    set_blend_func(src: u32, dst: u32);
    set_cull_face(mode: u32);
    set_front_face(mode: u32);
    set_fog(pname: u32, value: f32);
    set_depth_range(near: f32, far: f32);
}

impl Context {
    /// A fresh context.
    pub fn new() -> Self {
        let context = beonasul::Context::new();
        let front = Front { context, store: Store::new(), number: 0 };
        Context { front, gather: Gather::new(), stages: 0 }
    }

    /// Makes it fresh again; the memory that its draws have used is kept for the next ones.
    pub fn reset(&mut self) {
        self.front.context.reset();
        (self.front.number, self.stages) = (0, 0);
    }

    /// What the last call answered: 0 for done, else the number of 01 that says why not.
    pub fn number(&self) -> u32 {
        self.front.number
    }

    /// All state: matrices, arrays, buffers, current values, pipeline settings.
    pub fn state(&self) -> &State {
        self.front.context.state()
    }

    /// The bytes of a buffer; none if the name does not live.
    pub fn buffer(&self, name: u32) -> Option<&[u8]> {
        let slots = &self.state().buffers.slots;
        let slot = slots.iter().position(|slot| slot.name == name && name != 0)?;
        let from = SLOT_BYTES * slot;
        Some(&self.front.store.as_bytes()[from..from + slots[slot].len as usize])
    }

    /// The names, one after the other; none where the call is refused.
    pub fn gen_buffers(&mut self, n: usize) -> Vec<u32> {
        let done = self.front.context.gen_buffers(n);
        let first = self.front.note(done);
        first.map_or(Vec::new(), |first| (0..n as u32).map(|i| first + i).collect())
    }

    pub fn buffer_data(&mut self, target: u32, size: usize, data: Option<&[u8]>, usage: u32) {
        let Front { context, store, .. } = &mut self.front;
        let done = context.buffer_data(store, target, size, data, usage);
        self.front.note(done);
    }

    pub fn buffer_sub_data(&mut self, target: u32, offset: u32, data: &[u8]) {
        let Front { context, store, .. } = &mut self.front;
        let done = context.buffer_sub_data(store, target, offset, data);
        self.front.note(done);
    }

    /// The code in the error slot, which is then empty.
    pub fn take_error(&mut self) -> u32 {
        let done = self.front.context.take_error();
        self.front.note(done).unwrap_or(0)
    }

    pub fn draw_arrays(
        &mut self,
        mem: &mut dyn GuestMemory,
        mode: u32,
        first: u32,
        count: u32,
        mut triangle: impl FnMut(&Triangle),
    ) {
        self.draw(mem, mode, Source::Range { first, count }, &mut triangle);
    }

    pub fn draw_elements(
        &mut self,
        mem: &mut dyn GuestMemory,
        mode: u32,
        indices: &[u32],
        mut triangle: impl FnMut(&Triangle),
    ) {
        self.draw(mem, mode, Source::List(indices), &mut triangle);
    }

    pub fn draw_elements_from_guest(
        &mut self,
        mem: &mut dyn GuestMemory,
        mode: u32,
        count: u32,
        ty: u32,
        pointer: u32,
        mut triangle: impl FnMut(&Triangle),
    ) {
        self.draw(mem, mode, Source::Stored(Stored { count, ty, pointer }), &mut triangle);
    }

    fn draw(&mut self, mem: &mut dyn GuestMemory, mode: u32, source: Source, triangle: Sink) {
        if let Some(view) = mem.view() {
            return self.front.draw(view, mode, self.stages, source, triangle);
        }
        match source {
            Source::List(list) => {
                self.draw_gathered(mem, mode, source, &Indices::list(list), triangle)
            }
            Source::Range { first, count } => {
                let indices = Indices::range(first, first.saturating_add(count));
                self.draw_gathered(mem, mode, source, &indices, triangle)
            }
            Source::Stored(at) => self.draw_stored(mem, mode, at, triangle),
        }
    }

    /// A draw with indices from the element buffer, or else from memory that has no view.
    fn draw_stored(&mut self, mem: &mut dyn GuestMemory, mode: u32, at: Stored, triangle: Sink) {
        let source = Source::Stored(at);
        if let Some(buffer) = self.buffer(self.state().buffers.element_buffer) {
            let list = at.widened(buffer.get(at.pointer as usize..)).unwrap_or_default();
            return self.draw_gathered(mem, mode, source, &Indices::list(&list), triangle);
        }
        match at.widened(self.gather.read(mem, at.pointer, at.len())) {
            // PocketHLE goes on with a list too.
            Some(list) if at.count > 0 => {
                self.draw_gathered(mem, mode, Source::List(&list), &Indices::list(&list), triangle)
            }
            list => {
                let guest = empty_view(at.pointer, list.is_some());
                self.front.draw(guest, mode, self.stages, source, triangle)
            }
        }
    }

    /// A draw on memory that has no view: what it can read is gathered first.
    fn draw_gathered(
        &mut self,
        mem: &mut dyn GuestMemory,
        mode: u32,
        source: Source,
        indices: &Indices,
        triangle: Sink,
    ) {
        let stages = self.stages;
        let arrays = self.arrays_read(indices);
        match self.gather.view(mem, &arrays, indices) {
            Gathered::View(guest) => self.front.draw(guest, mode, stages, source, triangle),
            Gathered::Apart => self.front.draw_apart(mem, mode, stages, source, indices, triangle),
        }
    }

    /// The arrays that the draw reads from guest memory; none where it is refused anyhow.
    fn arrays_read(&self, indices: &Indices) -> Vec<(Kind, ArrayPointer)> {
        let position = self.state().arrays.vertex;
        let ready = position.enabled && (position.buffer != 0 || position.pointer != 0);
        let held = indices
            .bounds
            .is_some_and(|(_, greatest)| position.buffer == 0 || self.holds(&position, greatest));
        if !ready || !held || self.stages >= 16 {
            return Vec::new();
        }
        let mut arrays = enabled_arrays(self.state(), self.stages);
        arrays.retain(|(_, array)| array.buffer == 0);
        arrays
    }

    /// Is the element in the array's buffer?
    fn holds(&self, array: &ArrayPointer, index: u32) -> bool {
        let (Some(buffer), Some((at, len))) =
            (self.buffer(array.buffer), gather::element(array, index))
        else {
            return false;
        };
        at as usize + len as usize <= buffer.len()
    }
}

impl Front {
    /// Keeps the number of a call.
    fn note<T>(&mut self, done: beonasul::Result<T>) -> Option<T> {
        self.number = done.as_ref().map_or_else(|error| error.number(), |_| 0);
        done.ok()
    }

    /// Makes the draw with this view of guest memory.
    fn draw(&mut self, guest: Guest, mode: u32, stages: u32, source: Source, triangle: Sink) {
        let Front { context, store, number } = self;
        let drawn = match source {
            Source::List(list) => context.draw_elements(store, guest, mode, stages, list),
            Source::Range { first, count } => {
                context.draw_arrays(store, guest, mode, stages, first, count)
            }
            Source::Stored(Stored { count, ty, pointer }) => {
                context.draw_elements_from_guest(store, guest, mode, stages, count, ty, pointer)
            }
        };
        *number = drawn.as_ref().map_or_else(|error| error.number(), |_| 0);
        drawn.into_iter().flatten().for_each(triangle);
    }
}

/// The arrays that a draw reads: positions first.
fn enabled_arrays(state: &State, stages: u32) -> Vec<(Kind, ArrayPointer)> {
    let arrays = &state.arrays;
    let mut read = vec![(Kind::Vertex, arrays.vertex), (Kind::Color, arrays.color)];
    for (unit, array) in (0..).zip(arrays.texcoord) {
        if stages >> unit & 1 == 1 {
            read.push((Kind::Texcoord(unit), array));
        }
    }
    read.retain(|(_, array)| array.enabled);
    read
}

impl Stored {
    /// How many bytes they have; none if there is no index of the type.
    fn len(&self) -> Option<usize> {
        match self.ty {
            UNSIGNED_BYTE => Some(self.count as usize),
            UNSIGNED_SHORT => Some(2 * self.count as usize),
            _ => None,
        }
    }

    /// The indices in these bytes, if there are so many.
    fn widened(&self, bytes: Option<&[u8]>) -> Option<Vec<u32>> {
        let bytes = bytes?.get(..self.len()?)?;
        Some(match self.ty {
            UNSIGNED_BYTE => bytes.iter().map(|&byte| byte as u32).collect(),
            _ => bytes
                .chunks_exact(2)
                .map(|two| u16::from_le_bytes([two[0], two[1]]).into())
                .collect(),
        })
    }
}

/// A view without bytes, in which no bytes can be read at the address, or in which even that fails.
fn empty_view(address: u32, readable: bool) -> Guest<'static> {
    let base = if readable { address } else { (address == 0) as u32 };
    Guest { base, bytes: &[] }
}
